; A cellar without light: fuses are mended while a match burns. How long a match burns is not ours to choose.
(define (domain MATCHCELLAR)
 (:requirements :strips :typing :durative-actions)
 (:types MATCH FUSE)
 (:predicates (LIGHT ?match - match) (HANDFREE) (UNUSED ?match - match) (MENDED ?fuse - fuse))
 (:durative-action LIGHT_MATCH
  :parameters (?match - match)
  :uncontrollable-duration (and (>= ?duration 4) (<= ?duration 6))
  :condition (and (at start (unused ?match)) (over all (light ?match)))
  :effect (and (at start (not (unused ?match))) (at start (light ?match))
    (at end (not (light ?match)))))
 (:durative-action MEND_FUSE
  :parameters (?fuse - fuse ?match - match)
  :duration (= ?duration 1.5)
  :condition (and (at start (handfree)) (over all (light ?match)))
  :effect (and (at start (not (handfree))) (at end (mended ?fuse)) (at end (handfree)))))
