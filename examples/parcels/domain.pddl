; A truck delivers parcels. A drive takes as long as the road, or half as long again.
(define (domain PARCELS)
 (:requirements :typing :durative-actions :fluents)
 (:types PLACE LOCATABLE - object TRUCK PARCEL - LOCATABLE)
 (:predicates (AT ?x - locatable ?p - place) (IN ?p - parcel ?t - truck) (LINK ?a ?b - place))
 (:functions (DISTANCE ?a ?b - place))
 (:durative-action LOAD
  :parameters (?p - parcel ?t - truck ?l - place)
  :duration (= ?duration 2)
  :condition (and (at start (at ?p ?l)) (over all (at ?t ?l)))
  :effect (and (at start (not (at ?p ?l))) (at end (in ?p ?t))))
 (:durative-action UNLOAD
  :parameters (?p - parcel ?t - truck ?l - place)
  :duration (= ?duration 2)
  :condition (and (at start (in ?p ?t)) (over all (at ?t ?l)))
  :effect (and (at start (not (in ?p ?t))) (at end (at ?p ?l))))
 (:durative-action DRIVE
  :parameters (?t - truck ?from ?to - place)
  :uncontrollable-duration (and (>= ?duration (distance ?from ?to))
    (<= ?duration (* 3/2 (distance ?from ?to))))
  :condition (and (at start (at ?t ?from)) (over all (link ?from ?to)))
  :effect (and (at start (not (at ?t ?from))) (at end (at ?t ?to)))))
