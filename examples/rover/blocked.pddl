(define (problem blocked) (:domain rover)
 (:objects r1 - rover a b c - place)
 (:init (at r1 a) (still r1) (road a b) (= (fast a b) 3) (= (slow a b) 7))
 (:goal (and (seen b) (seen c))))
