#!/usr/bin/env python3
"""Times `check` on plans of 50 to 500 steps and on files near 1 MiB, with the proved program.

Prints for each input the least user time of a few runs, and the factor from the row before it. Nothing is
judged: read the factors as growth (2 per doubling is linear) and compare rows of one run only.

usage: bench/check.py [runs]
"""
import os
import resource
import subprocess
import sys
import tempfile

TOP = os.path.dirname(os.path.dirname(os.path.abspath(__file__)))
PROGRAM = os.path.join(TOP, "crates", "stp_program", "out", "stp_program")
MOST = 1_048_576


def chain(steps):
    """A domain, a problem and a strong plan of so many steps, every other one durative, end to start."""
    actions, lines = [], []
    for i in range(steps):
        if i % 2:
            actions.append(
                f"(:durative-action act{i} :parameters () :duration (= ?duration 3)"
                f" :condition (and (at start (p{i})) (over all (p{i}))) :effect (at end (p{i + 1})))"
            )
            lines.append(f"{10 * i}: (act{i}) [3]")
        else:
            actions.append(f"(:action act{i} :parameters () :precondition (p{i}) :effect (p{i + 1}))")
            lines.append(f"{10 * i}: (act{i})")
    atoms = " ".join(f"(p{i})" for i in range(steps + 1))
    domain = f"(define (domain chain) (:predicates {atoms})\n" + "\n".join(actions) + ")\n"
    problem = f"(define (problem y) (:domain chain) (:init (p0)) (:goal (p{steps})))\n"
    return domain, problem, "\n".join(lines) + "\n"


def crowd(steps):
    """As many steps of one moment, whose events do not interfere."""
    atoms = " ".join(f"(p{i})" for i in range(steps))
    actions = "\n".join(f"(:action act{i} :parameters () :precondition (and) :effect (p{i}))" for i in range(steps))
    goal = "(and " + " ".join(f"(p{i})" for i in range(steps)) + ")"
    plan = "\n".join(f"0: (act{i})" for i in range(steps)) + "\n"
    return (
        f"(define (domain crowd) (:predicates {atoms})\n{actions})\n",
        f"(define (problem y) (:domain crowd) (:init) (:goal {goal}))\n",
        plan,
    )


def surrounded(steps):
    """So many steps one after the other, a timed literal for each five of them, and an event of a chosen moment for each
    sixteen, over whose window an over-all condition holds whether or not it has come."""
    actions, lines, items = [], [], []
    chosen = steps * 3 // 50
    for i in range(steps):
        event = i * chosen // steps
        actions.append(
            f"(:durative-action act{i} :parameters () :duration (= ?duration 3)"
            f" :condition (and (at start (p{i})) (over all (or (u{event}) (v{event})))) :effect (at end (p{i + 1})))"
        )
        lines.append(f"{4 * i}: (act{i}) [3]")
        if i % 5 == 0:
            items.append(f"(at {8 * i + 1}/2 (t{i}))")
    for j in range(chosen):
        low, high = 4 * (j * steps // chosen), 4 * ((j + 1) * steps // chosen)
        items.append(f"(v{j}) (between {low} {high} (and (u{j}) (not (v{j}))))")
    atoms = " ".join(f"(p{i})" for i in range(steps + 1))
    atoms += " " + " ".join(f"(t{i})" for i in range(0, steps, 5))
    atoms += " " + " ".join(f"(u{j}) (v{j})" for j in range(chosen))
    domain = f"(define (domain surrounded) (:predicates {atoms})\n" + "\n".join(actions) + ")\n"
    problem = f"(define (problem y) (:domain surrounded) (:init (p0) {' '.join(items)}) (:goal (p{steps})))\n"
    return domain, problem, "\n".join(lines) + "\n"


def wide(size):
    """A domain of about so many bytes, half of them predicates and half actions, and a plan of one step."""
    atoms, count, used = [], 0, 0
    while used < size // 2:
        atom = f"(p{count})"
        atoms.append(atom)
        used += len(atom)
        count += 1
    actions = ["(:action go :parameters () :precondition (and) :effect (p0))"]
    used = 0
    while used < size // 2 - 200:
        i = len(actions)
        action = f"(:action a{i} :parameters () :precondition (p{i}) :effect (and (p{i + 1}) (not (p{i}))))"
        actions.append(action)
        used += len(action) + 1
    domain = "(define (domain wide) (:predicates " + "".join(atoms) + ")\n" + "\n".join(actions) + ")\n"
    return domain[:MOST], "(define (problem y) (:domain wide) (:init) (:goal (p0)))\n", "0: (go)\n"


def long_event(size):
    """One action whose effect fills the file, with as many conditions as an action may have."""
    count = size // 34
    atoms = "".join(f"(p{i})" for i in range(count))
    needs = "".join(f"(p{i})" for i in range(min(count, 9_999)))
    domain = (
        f"(define (domain event) (:predicates {atoms})\n(:action go :parameters () :precondition (and {needs})"
        f" :effect (and {atoms})))\n"
    )
    return domain[:MOST], f"(define (problem y) (:domain event) (:init {atoms}) (:goal (p0)))\n", "0: (go)\n"


def comment(size):
    """A plan that is a comment of about so many bytes."""
    domain, problem, plan = chain(2)
    return domain, problem, plan + ";" + "x" * (size - len(plan) - 1)


def guarded(steps):
    """So many steps that all run side by side, each with over-all conditions that fill the file together."""
    each = max(1, MOST // 17 // steps - 12)
    needs = " ".join(f"(over all (p{i % 10}))" for i in range(each))
    actions = "\n".join(
        f"(:durative-action act{i} :parameters () :duration (= ?duration 1000) :condition (and {needs}) :effect (and))"
        for i in range(steps)
    )
    atoms = " ".join(f"(p{i})" for i in range(10))
    plan = "\n".join(f"{i}: (act{i}) [1000]" for i in range(steps)) + "\n"
    return (
        f"(define (domain guarded) (:predicates {atoms})\n{actions})\n",
        f"(define (problem y) (:domain guarded) (:init {atoms}) (:goal (and)))\n",
        plan,
    )


def filled(size, make):
    """As many pieces as fit into so many bytes."""
    pieces, used, count = [], 0, 0
    while True:
        piece = make(count)
        used += len(piece) + 1
        if used > size:
            return "\n".join(pieces)
        pieces.append(piece)
        count += 1


def types(size):
    """A chain of types, each below the next, and predicates over them."""
    chain = filled(size // 2 - 100, lambda i: f"t{i} - t{i + 1}")
    count = chain.count("\n")
    predicates = filled(size // 2 - 100, lambda i: f"(p{i} ?x - t{i % count} ?y - t0)")
    domain = f"(define (domain types) (:types {chain})\n(:predicates {predicates}))\n"
    return domain, "(define (problem y) (:domain types) (:goal (and)))\n", ""


def facts(size):
    """A problem of objects, facts and values."""
    domain = "(define (domain facts) (:types a b - c c) (:predicates (p ?x ?y - c)) (:functions (f ?x - c)))\n"
    objects = filled(size // 4, lambda i: f"o{i} - {'ab'[i % 2]}")
    count = objects.count("\n")
    goal = filled(min(size // 4, 131_072), lambda i: f"(p o{i * 5 % count} o{i % count})")
    left = size - len(objects) - len(goal) - 400
    atoms = filled(left // 2, lambda i: f"(p o{i * 7 % count} o{i % count})")
    values = filled(left // 2, lambda i: f"(= (f o{i % count}) {i % count})")
    problem = f"(define (problem y) (:domain facts) (:objects {objects})\n(:init {atoms}\n{values})\n(:goal (and {goal})))\n"
    return domain, problem, ""


def conditions(size):
    """Actions with conditions of nested quantifiers, at most 10,000 nodes each."""
    inner = "(p ?x0)"
    for depth in range(40):
        inner = f"(forall (?x{depth} - t) (not {inner}))"
    action = "(:action a{} :parameters () :precondition (and " + inner.replace("{", "").replace("}", "") + ") :effect ())"
    actions = filled(size - 200, lambda i: action.format(i))
    domain = f"(define (domain conditions) (:types t) (:predicates (p ?x - t))\n{actions})\n"
    return domain, "(define (problem y) (:domain conditions) (:objects o - t) (:goal (and)))\n", ""


def variables(size):
    """One quantifier of as many variables as the file holds."""
    names = filled(size - 200, lambda i: f"?x{i}")
    domain = f"(define (domain variables) (:predicates (p ?x))\n(:action a :parameters () :precondition (forall ({names}) (p ?x0)) :effect ()))\n"
    return domain, "(define (problem y) (:domain variables) (:objects o) (:goal (and)))\n", ""


def sums(size):
    """A duration that is one long sum."""
    numbers = filled(size - 300, lambda i: "(f)" if i % 2 else "1/7")
    domain = (
        "(define (domain sums) (:predicates (p)) (:functions (f))\n"
        f"(:durative-action a :parameters () :duration (= ?duration (+ {numbers})) :condition () :effect ()))\n"
    )
    return domain, "(define (problem y) (:domain sums) (:init (= (f) 1)) (:goal (and)))\n", ""


def seconds(files, runs, command, options):
    with tempfile.TemporaryDirectory() as folder:
        names = []
        for name, text in zip(["d", "p", "l"], files):
            path = os.path.join(folder, name)
            with open(path, "w") as out:
                out.write(text)
            names.append(path)
        least = None
        for _ in range(runs):
            before = resource.getrusage(resource.RUSAGE_CHILDREN).ru_utime
            done = subprocess.run([PROGRAM, command, *names, *options], capture_output=True, text=True)
            spent = resource.getrusage(resource.RUSAGE_CHILDREN).ru_utime - before
            least = spent if least is None else min(least, spent)
        return least, done.returncode, done.stdout.split("\n")[0]


def table(title, make, sizes, runs, command="check", options=()):
    print(title)
    before = None
    for size in sizes:
        least, status, first = seconds(make(size), runs, command, options)
        factor = f"{least / before:5.2f}" if before else "     "
        print(f"  {size:>9}  {least:8.3f} s  {factor}  [{status}] {first}")
        before = least


def main():
    runs = int(sys.argv[1]) if len(sys.argv) > 1 else 5
    if not os.access(PROGRAM, os.X_OK):
        sys.exit("build the program first: ./stp build")
    print("user time, and the factor from the row before")
    table("a chain of steps", chain, [50, 100, 200, 400, 500], runs)
    table("steps of one moment", crowd, [50, 100, 200, 400, 500], runs)
    table("steps side by side with long over-all conditions", guarded, [50, 100, 200, 400, 500], runs)
    table("steps, timed literals and events of chosen moments", surrounded, [50, 100, 200, 400, 500], runs)
    table("bytes of a domain", wide, [131_072, 262_144, 524_288, MOST], runs)
    table("bytes of one event", long_event, [131_072, 262_144, 524_288, MOST], runs)
    table("bytes of a plan's comment", comment, [131_072, 262_144, 524_288, MOST], runs)
    bytes_of_files = [131_072, 262_144, 524_288, MOST]
    table("bytes of types and predicates", types, bytes_of_files, runs)
    table("bytes of objects, facts, values and a goal", facts, bytes_of_files, runs)
    table("bytes of deep conditions", conditions, bytes_of_files, runs)
    table("bytes of one quantifier's variables", variables, bytes_of_files, runs)
    table("bytes of a sum", sums, bytes_of_files, runs)


if __name__ == "__main__":
    main()
