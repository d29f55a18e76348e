(define (problem one-batch)
 (:domain vessel)
 (:init (empty))
 (:goal (and (mixed) (empty))))
