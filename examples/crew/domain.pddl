; A day of a crew in orbit, in minutes: what follows sleep, meals, exercise on one machine, and a filter to change.
(define (domain CREW-PLANNING)
 (:requirements :strips :typing :durative-actions)
 (:types crew-member machine filter)
 (:predicates (asleep ?c - crew-member) (available ?c - crew-member) (fed ?c - crew-member)
   (exercised ?c - crew-member) (free ?m - machine) (changed ?f - filter))
 (:durative-action POST-SLEEP
  :parameters (?c - crew-member)
  :uncontrollable-duration (and (>= ?duration 150) (<= ?duration 195))
  :condition (at start (asleep ?c))
  :effect (and (at start (not (asleep ?c))) (at end (available ?c))))
 (:durative-action HAVE-MEAL
  :parameters (?c - crew-member)
  :uncontrollable-duration (and (<= ?duration 60) (>= ?duration 45))
  :condition (at start (available ?c))
  :effect (and (at start (not (available ?c))) (at end (available ?c)) (at end (fed ?c))))
 (:durative-action EXERCISE
  :parameters (?c - crew-member ?m - machine)
  :duration (= ?duration 60)
  :condition (and (at start (available ?c)) (at start (free ?m)))
  :effect (and (at start (not (available ?c))) (at start (not (free ?m)))
    (at end (available ?c)) (at end (free ?m)) (at end (exercised ?c))))
 (:durative-action CHANGE-FILTER
  :parameters (?c - crew-member ?f - filter)
  :duration (= ?duration 60)
  :condition (at start (available ?c))
  :effect (and (at start (not (available ?c))) (at end (available ?c)) (at end (changed ?f)))))
