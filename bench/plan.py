#!/usr/bin/env python3
"""Times `plan .. --budget 0` on tasks that grow to the limits, with the proved program.

Movers in a chain of rooms, one room and one mover more at a time: kept instances and atoms grow with the square. The
same where each mover's step also needs a disjunction. Actions of six parameters, of whose bindings static facts leave
some. Instances of many nodes, to the greatest number of them together. Prints for each input the least user time of a
few runs, and the factor from the row before it. Nothing is judged: read the factors as growth, and compare rows of one
run only.

usage: bench/plan.py [runs]
"""
import sys

from check import table

OPTIONS = ("--budget", "0")


def rooms(size, needs=""):
    """So many movers in a chain of as many rooms, each to its end, and a goal that each of them can reach."""
    movers = " ".join(f"m{i}" for i in range(size))
    places = " ".join(f"r{i}" for i in range(size))
    first = " ".join(f"(at m{i} r0)" for i in range(size))
    ways = " ".join(f"(next r{i} r{i + 1})" for i in range(size - 1))
    last = " ".join(f"(at m{i} r{size - 1})" for i in range(size))
    return (
        "(define (domain rooms) (:types mover room) (:predicates (at ?m - mover ?r - room) (next ?a ?b - room))\n"
        f"(:action go :parameters (?m - mover ?a ?b - room) :precondition (and (at ?m ?a) (next ?a ?b){needs})\n"
        " :effect (and (at ?m ?b) (not (at ?m ?a)))))\n",
        f"(define (problem y) (:domain rooms) (:objects {movers} - mover {places} - room)\n"
        f"(:init {first} {ways}) (:goal (and {last})))\n",
    )


def disjunctive(size):
    """The same where each step also needs that its room is left or was not reached."""
    return rooms(size, " (or (at ?m ?a) (not (at ?m ?b)))")


def joined(size):
    """An action of six parameters, so many objects for each; facts link each object to three of the next type, which
    leaves 243 instances for each object of the first."""
    kinds = "abcdef"
    objects = " ".join(" ".join(f"{k}{i}" for i in range(size)) + f" - {k}" for k in kinds)
    links = " ".join(
        f"(l{k} {k}{i} {kinds[n + 1]}{(i + more) % size})"
        for n, k in enumerate(kinds[:-1])
        for i in range(size)
        for more in range(3)
    )
    predicates = " ".join(f"(l{k} ?x - {k} ?y - {kinds[n + 1]})" for n, k in enumerate(kinds[:-1]))
    needs = " ".join(f"(l{k} ?{k} ?{kinds[n + 1]})" for n, k in enumerate(kinds[:-1]))
    parameters = " ".join(f"?{k} - {k}" for k in kinds)
    return (
        f"(define (domain joined) (:types {' '.join(kinds)}) (:predicates {predicates} (done ?x - a ?y - f) (never))\n"
        f"(:action act :parameters ({parameters}) :precondition (and {needs}) :effect (done ?a ?f)))\n",
        f"(define (problem y) (:domain joined) (:objects {objects})\n(:init {links}) (:goal (never)))\n",
    )


def nodes(size):
    """A hundred by a hundred instances, each with a condition over so many objects: a thousand nodes at the most."""
    us = " ".join(f"u{i}" for i in range(100))
    vs = " ".join(f"v{i}" for i in range(size))
    return (
        "(define (domain nodes) (:types u v) (:predicates (f ?x ?y - u) (k ?x - v) (g))\n"
        "(:action go :parameters (?x ?y - u) :precondition (forall (?z - v) (k ?z)) :effect (f ?x ?y))\n"
        "(:action off :parameters (?z - v) :precondition (g) :effect (not (k ?z))))\n",
        f"(define (problem y) (:domain nodes) (:objects {us} - u {vs} - v)\n"
        f"(:init {' '.join(f'(k v{i})' for i in range(size))}) (:goal (g)))\n",
    )


def conjunctions(size):
    """A hundred instances, each of which needs so many atoms that become possible one after the other."""
    us = " ".join(f"u{i}" for i in range(size))
    ts = " ".join(f"t{i}" for i in range(100))
    ways = " ".join(f"(next u{i} u{i + 1})" for i in range(size - 1))
    return (
        "(define (domain conjunctions) (:types t u) (:predicates (p ?y - u) (next ?a ?b - u) (g ?x - t) (never))\n"
        "(:action go :parameters (?a ?b - u) :precondition (and (p ?a) (next ?a ?b)) :effect (p ?b))\n"
        "(:action all :parameters (?x - t) :precondition (forall (?y - u) (p ?y)) :effect (g ?x)))\n",
        f"(define (problem y) (:domain conjunctions) (:objects {us} - u {ts} - t)\n"
        f"(:init (p u0) {ways}) (:goal (never)))\n",
    )


def main():
    runs = int(sys.argv[1]) if len(sys.argv) > 1 else 3
    table("movers in a chain of rooms", rooms, (15, 31, 62, 125), runs, "plan", OPTIONS)
    table("the same with a disjunction", disjunctive, (15, 31, 62, 125), runs, "plan", OPTIONS)
    table("bindings of six parameters", joined, (5, 7, 9, 11), runs, "plan", OPTIONS)
    table("nodes of 10,000 instances", nodes, (125, 250, 500, 990), runs, "plan", OPTIONS)
    table("atoms of 100 conjunctions", conjunctions, (350, 700, 1_400), runs, "plan", OPTIONS)


if __name__ == "__main__":
    main()
