; The relay is in view from 10 to 20. A storm begins at some moment from 6 to 12.
(define (problem one-pass)
 (:domain relay)
 (:init (calm)
  (at 10 (in-view))
  (at 20 (not (in-view)))
  (between 6 12 (not (calm))))
 (:goal (sent)))
