#!/usr/bin/env python3
"""Times `check` on plans with uncertain durations, with the proved program.

Two tables grow the number of steps, to 500, where no more uncertain ends overlap; four grow the number of uncertain
ends that overlap, to 499, under a disjunction of their atoms, a conjunction, one atom that all of them write, and a
quantifier over their atoms; and the last three grow what the search for the least failure meets: the steps before it,
the steps that it moves, and the width of windows. Prints for each input the least user time of a few runs, and the factor from the row before it. Nothing is judged: read the factors as growth
(2 per doubling is linear) and compare rows of one run only.

usage: bench/growth.py [runs]
"""
import os
import sys

from check import PROGRAM, table

OVERLAPPING = 8
MOST = 999_999_999


def uncertain(name, low, high, effect):
    """An action whose end comes when it likes, from the one duration to the other."""
    return (
        f"(:durative-action {name} :parameters () :uncontrollable-duration (and (>= ?duration {low}) (<= ?duration {high}))"
        f" :condition (and) :effect (at end {effect}))"
    )


def guard(name, duration, condition):
    """An action that so long needs something all through."""
    return f"(:durative-action {name} :parameters () :duration (= ?duration {duration}) :condition (over all {condition}) :effect (and))"


def files(name, atoms, actions, init, goal, lines):
    """A domain, a problem and a plan."""
    names = " ".join(f"({atom})" for atom in atoms)
    return (
        f"(define (domain {name}) (:predicates {names})\n" + "\n".join(actions) + ")\n",
        f"(define (problem y) (:domain {name}) (:init {init}) (:goal (and {goal})))\n",
        "\n".join(lines) + "\n",
    )


def block(at, begin, ends):
    """So many steps from one moment on whose uncertain ends overlap, and one that needs them or f; strong."""
    atoms = [f"a{at}_{i}" for i in range(ends)]
    actions = [uncertain(f"up{at}_{i}", 10, 20, f"({atom})") for i, atom in enumerate(atoms)]
    actions.append(guard(f"hold{at}", 40, "(or " + " ".join(f"({atom})" for atom in atoms) + " (f))"))
    lines = [f"{begin}: (up{at}_{i}) [10,20]" for i in range(ends)]
    lines.append(f"{begin + 1}: (hold{at}) [40]")
    return atoms, actions, lines


def blocks(steps, last=None):
    """So many steps in blocks, one block after the other, and then those of `last`, if it is given."""
    atoms, actions, lines = ["f"], [], []
    count, at = 0, 0
    while count < steps:
        ends = min(OVERLAPPING, steps - count - 1)
        if ends < 1:
            break
        more = block(at, 100 * at, ends)
        for whole, part in zip((atoms, actions, lines), more):
            whole.extend(part)
        count += ends + 1
        at += 1
    goal = " ".join(f"({atom})" for atom in atoms)
    if last:
        more_atoms, more_actions, more_lines = last(100 * at)
        atoms.extend(more_atoms)
        actions.extend(more_actions)
        lines.extend(more_lines)
    return files("blocks", atoms, actions, "(f)", goal, lines)


def overlapping(ends):
    """One block with so many uncertain ends that overlap."""
    atoms, actions, lines = block(0, 0, ends)
    goal = " ".join(f"({atom})" for atom in atoms)
    return files("overlapping", ["f"] + atoms, actions, "(f)", goal, lines)


def conjoined(ends):
    """So many uncertain ends that overlap, each of which adds an atom that holds already, and a step that needs all."""
    atoms = [f"a{i}" for i in range(ends)]
    actions = [uncertain(f"up{i}", 10, 20, f"({atom})") for i, atom in enumerate(atoms)]
    every = " ".join(f"({atom})" for atom in atoms)
    actions.append(guard("hold", 40, f"(and {every})"))
    lines = [f"0: (up{i}) [10,20]" for i in range(ends)] + ["1: (hold) [40]"]
    return files("conjoined", atoms, actions, every, every, lines)


def one_atom(ends):
    """So many uncertain ends that overlap and all add one atom, of which a step needs that or another."""
    actions = [uncertain(f"up{i}", 10, 20, "(f)") for i in range(ends)]
    actions.append(guard("hold", 40, "(or (f) (g))"))
    lines = [f"0: (up{i}) [10,20]" for i in range(ends)] + ["1: (hold) [40]"]
    return files("one-atom", ["f", "g"], actions, "(g)", "(f)", lines)


def quantified(ends):
    """So many uncertain ends that overlap, and as many steps that need of each of their atoms what always holds."""
    half = ends // 2
    condition = "(forall (?y) (or (not (p ?y)) (q ?y) (p ?y)))"
    domain = (
        "(define (domain quantified) (:predicates (p ?x) (q ?x))\n"
        "(:durative-action up :parameters (?x) :uncontrollable-duration (and (>= ?duration 10) (<= ?duration 20))"
        " :condition (and) :effect (at end (p ?x)))\n"
        f"(:durative-action hold :parameters (?x) :duration (= ?duration 40) :condition (over all {condition}) :effect (and)))\n"
    )
    objects = " ".join(f"o{i}" for i in range(half))
    problem = f"(define (problem y) (:domain quantified) (:objects {objects}) (:init) (:goal (and)))\n"
    lines = [f"0: (up o{i}) [10,20]" for i in range(half)] + [f"1: (hold o{i}) [40]" for i in range(half)]
    return domain, problem, "\n".join(lines) + "\n"


def chained(steps):
    """So many steps one after the other, each with an uncertain end on which the next one waits."""
    atoms = [f"p{i}" for i in range(steps + 1)]
    actions = [
        f"(:durative-action go{i} :parameters () :uncontrollable-duration (and (>= ?duration 3) (<= ?duration 7))"
        f" :condition (at start (p{i})) :effect (and (at start (not (p{i}))) (at end (p{i + 1}))))"
        for i in range(steps)
    ]
    lines = [f"{10 * i}: (go{i}) [3,7]" for i in range(steps)]
    return files("chained", atoms, actions, "(p0)", f"(p{steps})", lines)


def meeting(begin, low, high):
    """An end that adds an atom and one that deletes it, which may meet."""
    middle = (low + high) // 2
    actions = [uncertain("add", low, high, "(m)"), uncertain("del", middle, high, "(not (m))")]
    return ["m"], actions, [f"{begin}: (add) [{low},{high}]", f"{begin}: (del) [{middle},{high}]"]


def late_failure(steps):
    """So many steps, all in strong blocks but for the last two, which may meet."""
    return blocks(steps - 2, lambda begin: meeting(begin, 10, 40))


def moved(ends):
    """So many steps that all have to end late for a condition to fail: the least failure moves each of them."""
    atoms = [f"a{i}" for i in range(ends)]
    actions = [uncertain(f"down{i}", 10, 1000, f"(not ({atom}))") for i, atom in enumerate(atoms)]
    condition = "(or " + " ".join(f"(not ({atom}))" for atom in atoms) + ")"
    actions.append(guard("hold", 100, condition))
    lines = [f"0: (down{i}) [10,1000]" for i in range(ends)] + ["500: (hold) [100]"]
    init = " ".join(f"({atom})" for atom in atoms)
    return files("moved", atoms, actions, init, "", lines)


def wide(width):
    """Two ends that may meet, in windows of so many moments."""
    atoms, actions, lines = meeting(0, 1, width)
    return files("wide", atoms, actions, "", "", lines)


def main():
    runs = int(sys.argv[1]) if len(sys.argv) > 1 else 5
    if not os.access(PROGRAM, os.X_OK):
        sys.exit("build the program first: ./stp build")
    steps = [50, 100, 200, 400, 500]
    print("user time, and the factor from the row before")
    table(f"steps, {OVERLAPPING} uncertain ends at most overlap", blocks, steps, runs)
    table("steps one after the other, each with an uncertain end", chained, steps, runs)
    ends = [8, 16, 64, 125, 250, 499]
    table("uncertain ends that overlap, under a disjunction", overlapping, ends, runs)
    table("under a conjunction", conjoined, ends, runs)
    table("all of one atom", one_atom, ends, runs)
    table("steps, half of them uncertain, and half under a quantifier over their atoms", quantified, [16, 64, 120, 250], runs)
    table("steps before the least failure", late_failure, steps, runs)
    table("steps that the least failure moves", moved, [8, 16, 60, 125, 250, 499], runs)
    table("moments in a window", wide, [10, 1_000, 1_000_000, MOST - 1], runs)


main()
