#!/usr/bin/env python3
"""Times `check` on files near their limits that are made to be slow, with stacks of 8 and of 4 MiB.

Each input goes to the limit that its name says: 500 steps, files of at most 1 MiB, conditions of at most 10,000 nodes,
16 parameters, 100 lists inside one another, words of 100 bytes, grids of 999,999,999 moments in a unit. Prints for each
input and stack, as they end, the user time, the greatest memory, the bytes of the longest file, the status and the
first line. A run gets 60 seconds of processor time, past which it is cut off, and 6 GiB of memory. Nothing is judged.

usage: bench/hostile.py [-j JOBS] [NAME ..]

The program is the one that $STP_PROGRAM names, and otherwise the one that `./stp build` proved.
"""
import concurrent.futures
import os
import resource
import subprocess
import sys
import tempfile

TOP = os.path.dirname(os.path.dirname(os.path.abspath(__file__)))
PROGRAM = os.environ.get("STP_PROGRAM") or os.path.join(TOP, "crates", "stp_program", "out", "stp_program")
MIB = 1_048_576
STEPS = 500
NODES = 9_999
GRID = 999_999_999
SECONDS = 60
MEMORY = 6 * 1024 * MIB
STACKS = (8, 4)
# The bytes that the rest of a file may take beside what fills it.
REST = 2_000
PARAMETERS = [f"?{letter}" for letter in "abcdefghijklmnop"]


def short(number):
    """A short name for a number, in letters alone."""
    letters = ""
    while True:
        letters = "abcdefghijklmnopqrstuvwxyz"[number % 26] + letters
        number = number // 26 - 1
        if number < 0:
            return letters


def filled(size, make):
    """As many pieces as fit into so many bytes, with white bytes between them."""
    pieces, used = [], 0
    while used + len(piece := make(len(pieces))) + 1 <= size:
        pieces.append(piece)
        used += len(piece) + 1
    return " ".join(pieces)


def many(count, make):
    return " ".join(make(i) for i in range(count))


def files(predicates, actions, problem, lines, head=""):
    """A domain with these predicates and actions, a problem with these sections, and a plan of these lines."""
    return (
        f"(define (domain d) {head} (:predicates {predicates})\n{actions})\n",
        f"(define (problem y) (:domain d) {problem})\n",
        "\n".join(lines) + "\n",
    )


def simple(name, parameters, condition, effect="()"):
    return f"(:action {name} :parameters ({parameters}) :precondition {condition} :effect {effect})\n"


def holding(name, parameters, duration, condition, effect="()"):
    """An action that needs something all through."""
    timed = f"(over all {condition})"
    return f"(:durative-action {name} :parameters ({parameters}) :duration (= ?duration {duration}) :condition {timed} :effect {effect})\n"


def uncertain(name, parameters, low, high, condition, effect):
    """An action that the environment ends."""
    bounds = f":uncontrollable-duration (and (>= ?duration {low}) (<= ?duration {high}))"
    return f"(:durative-action {name} :parameters ({parameters}) {bounds} :condition {condition} :effect {effect})\n"


# ---- quantifiers


def one_object():
    """A quantifier of as many variables with one object as fit, inside one over 4,000 objects."""
    variables = filled(MIB - REST, lambda i: "?" + short(i))
    condition = f"(forall (?1 - many) (forall ({variables} - one) (p ?1)))"
    actions = simple("go", "", condition) + simple("off", "?1 - many", "()", "(not (p ?1))")
    objects = many(4_000, short)
    facts = many(4_000, lambda i: f"(p {short(i)})")
    problem = f"(:objects {objects} - many single - one) (:init {facts}) (:goal ())"
    return files("(p ?1 - many)", actions, problem, [f"{i}: (go)" for i in range(STEPS)], "(:types many one)")


def quantified_atoms():
    """A quantifier over pairs in a schema of 16 parameters, which gives each step 4,900 atoms of its own."""
    inside = " ".join(["?x ?y", *PARAMETERS[:14]])
    condition = f"(forall (?x ?y - two) (not (p {inside})))"
    parameters = " ".join(PARAMETERS) + " - own"
    actions = simple("go", parameters, condition) + simple("on", "?x - object", "()", "(p " + "?x " * 16 + ")")
    problem = f"(:objects {many(STEPS, lambda i: f's{i}')} - own {many(70, lambda i: f't{i}')} - two) (:init) (:goal ())"
    lines = [f"{i}: (go {f's{i} ' * 16})" for i in range(STEPS)]
    return files("(p " + " ".join(PARAMETERS) + ")", actions, problem, lines, "(:types own two)")


def nested_quantifiers():
    """Twelve quantifiers over two objects inside one another, around as many of one object as lists may be deep."""
    condition = "(p ?x0 ?a)"
    for i in range(82):
        condition = f"(exists (?y{i} - one) {condition})"
    for i in range(6):
        condition = f"(forall (?x{i} - two) {condition})"
    actions = simple("go", "?a - own", condition) + simple("off", "?x - two ?a - own", "()", "(not (p ?x ?a))")
    objects = f"{many(STEPS, short)} - own x1 x2 - two single - one"
    facts = " ".join(f"(p x1 {short(i)}) (p x2 {short(i)})" for i in range(STEPS))
    lines = [f"{i}: (go {short(i)})" for i in range(STEPS)]
    return files("(p ?x ?a)", actions, f"(:objects {objects}) (:init {facts}) (:goal ())", lines, "(:types own two one)")


# ---- conditions


def deepest(inside, levels, words=("and", "or")):
    """A condition of so many lists inside one another."""
    for level in range(levels):
        inside = f"({words[level % len(words)]} {inside})"
    return inside


def deep():
    """Conditions of the deepest tree, as many as fit, and a step for each of 500 of them."""
    condition = deepest("(p ?x)", 96, ("not",))
    actions = []
    while len("".join(actions[-1:])) * (len(actions) + 1) < MIB - REST:
        actions.append(simple(f"go{len(actions)}", "?x", condition))
    actions = "".join(actions) + simple("off", "?x", "()", "(not (p ?x))")
    count = actions.count(":precondition") - 1
    lines = [f"{i}: (go{i % count} o)" for i in range(STEPS)]
    return files("(p ?x)", actions, "(:objects o) (:init (p o)) (:goal " + deepest("(p o)", 96, ("not",)) + ")", lines)


def deep_wide():
    """A condition of 94 levels, each with a hundred members, in 500 steps of one schema."""
    condition = "(p ?x)"
    for level in range(94):
        members = many(100, lambda i: f"(p{i % 10} ?x)")
        condition = f"({'or and'.split()[level % 2]} {members} {condition})"
    actions = holding("go", "?x", 1_000, condition) + simple("off", "?x", "()", "(and " + many(10, lambda i: f"(not (p{i} ?x))") + " (not (p ?x)))")
    predicates = "(p ?x) " + many(10, lambda i: f"(p{i} ?x)")
    facts = " ".join(f"(p{i} {short(o)})" for i in range(10) for o in range(STEPS)) + many(STEPS, lambda o: f"(p {short(o)})")
    lines = [f"{i}: (go {short(i)}) [1000]" for i in range(STEPS)]
    return files(predicates, actions, f"(:objects {many(STEPS, short)}) (:init {facts}) (:goal ())", lines)


def huge_schema():
    """500 instances of one schema with 16 parameters, with as many atoms of 16 terms as nodes allow."""
    turned = lambda i: " ".join(PARAMETERS[i % 16 :] + PARAMETERS[: i % 16])
    condition = "(and " + many(NODES // 2 - 1, lambda i: f"(not (p{i % 9} {turned(i)}))") + ")"
    effect = "(and " + many(9, lambda i: f"(p{i} {turned(0)})") + ")"
    actions = simple("go", turned(0), condition) + simple("on", turned(0), "()", effect)
    lines = [f"{i}: (go {' '.join(f'o{(i + j) % STEPS}' for j in range(16))})" for i in range(STEPS)]
    problem = f"(:objects {many(STEPS, lambda i: f'o{i}')}) (:init) (:goal ())"
    return files(many(9, lambda i: f"(p{i} {turned(0)})"), actions, problem, lines)


# ---- names, types and numbers


def long_names():
    """5,000 objects whose names have 100 bytes and differ at their ends, all under a quantifier, and steps of 16 of them."""
    name = lambda i: "n" * 94 + f"{i:06d}"
    parameters = " ".join(PARAMETERS)
    condition = f"(and (not (p {parameters})) (forall (?x) (not (q ?x))))"
    actions = simple("go", parameters, condition) + simple("on", parameters, "()", f"(and (p {parameters}) (q ?a))")
    objects = many(NODES // 2 - 10, name)
    lines = [f"{i}: (go {' '.join(name((9 * i + j) % 4_900) for j in range(16))})" for i in range(STEPS)]
    return files(f"(p {parameters}) (q ?x)", actions, f"(:objects {objects}) (:init) (:goal ())", lines)


def most_names():
    """As many objects of names of 100 bytes as fit, each step with 16 of them."""
    name = lambda i: "n" * 94 + f"{i:06d}"
    parameters = " ".join(PARAMETERS)
    actions = simple("go", parameters, f"(not (p {parameters}))", f"(p {parameters})")
    lines = [f"{i}: (go {' '.join(name(16 * i + j) for j in range(16))})" for i in range(STEPS)]
    return files(f"(p {parameters})", actions, f"(:objects {many(10_300, name)}) (:init) (:goal ())", lines)


def chain_of_types():
    """A chain of types as long as fits, objects of the last one, and steps of parameters of the first one."""
    pieces, used = ["a - object"], 0
    while used < MIB - REST:
        pieces.append(f"{short(len(pieces))} - {short(len(pieces) - 1)}")
        used += len(pieces[-1]) + 1
    last = short(len(pieces) - 2)
    pieces = pieces[:-1]
    parameters = " ".join(PARAMETERS) + " - a"
    condition = f"(forall (?x - {short(len(pieces) // 2)}) (not (p {'?x ' * 16})))"
    actions = simple("go", parameters, condition) + simple("on", "?x - a", "()", f"(p {'?x ' * 16})")
    objects = many(NODES // 2 - 1, lambda i: f"o{i}")
    lines = [f"{i}: (go {' '.join(f'o{16 * i % 4_900 + j}' for j in range(16))})" for i in range(STEPS)]
    problem = f"(:objects {objects} - {last}) (:init) (:goal ())"
    return files(f"(p {' '.join(PARAMETERS)} - a)", actions, problem, lines, f"(:types {' '.join(pieces)})")


def sum_of_numbers(term, value, head=""):
    """500 steps whose duration is a sum that fills the file."""
    terms = term * ((MIB - REST) // len(term))
    actions = holding("go", " ".join(PARAMETERS), f"(+ {terms})", "()")
    problem = f"(:objects {many(STEPS, lambda i: f'o{i}')}) (:init {value}) (:goal ())"
    lines = [f"{i}: (go {f'o{i} ' * 16}) [*]" for i in range(STEPS)]
    return files("(p)", actions, problem, lines, head)


# A prime, so that no fraction over it is shortened.
DENOMINATOR = 999_999_937


def sums():
    """500 steps whose duration is a sum of as many calls of a function without arguments as fit."""
    return sum_of_numbers("(f)", f"(= (f) 1/{DENOMINATOR})", "(:functions (f))")


def sums_of_numbers():
    """The same of numbers of one digit."""
    return sum_of_numbers("1 ", "")


def sums_apart():
    """The same of two functions whose denominators are different primes, so that each sum is over their product."""
    return sum_of_numbers("(f)(g)", "(= (f) 1/31607) (= (g) 1/31627)", "(:functions (f) (g))")


def sums_of_calls():
    """The same of a function of 16 arguments."""
    value = many(STEPS, lambda i: f"(= (f {f'o{i} ' * 16}) 1/{DENOMINATOR})")
    parameters = " ".join(PARAMETERS)
    return sum_of_numbers(f"(f {parameters})", value, f"(:functions (f {parameters}))")


def ranges():
    """Numbers at the ends of their ranges: 500 windows from 1/999999999 to 999999998, all at one moment."""
    low, high = f"1/{GRID}", str(GRID - 1)
    actions = uncertain("up", "?x", low, high, "()", "(at end (p ?x))")
    actions += holding("hold", "?x", 1, "(or (p ?x) (q ?x))")
    half = STEPS // 2
    facts = many(half, lambda i: f"(q o{i})")
    lines = [f"0: (up o{i}) [{low},{high}]" for i in range(half)] + [f"0: (hold o{i}) [1]" for i in range(half)]
    return files("(p ?x) (q ?x)", actions, f"(:objects {many(half, lambda i: f'o{i}')}) (:init {facts}) (:goal ())", lines)


# ---- the checker


def least_failure(grid=True, burden="()", parameters=""):
    """499 uncertain ends that all have to come late for a condition to fail, on the finest grid."""
    count = STEPS - 1
    low = f"1/{GRID}" if grid else "10"
    actions = uncertain("down", "?x", low, "1000000", burden, "(at end (not (p ?x)))")
    actions += holding("hold", "", 100, "(exists (?x - own) (not (p ?x)))")
    facts = many(count, lambda i: f"(p o{i})")
    lines = [f"0: (down o{i}) [{low},1000000]" for i in range(count)] + ["500000: (hold) [100]"]
    problem = f"(:objects {many(count, lambda i: f'o{i}')} - own {parameters}) (:init {facts}) (:goal ())"
    head = "(:types own two)"
    return files("(p ?x) (r ?x ?y ?z) (s ?x)", actions + simple("on", "?x ?y ?z", "()", "(r ?x ?y ?z)"), problem, lines, head)


def least_failure_coarse():
    """The same on the grid of whole numbers."""
    return least_failure(False)


def least_failure_burdened():
    """The same where each step needs 2,000 atoms besides at its start."""
    objects = many(44, lambda i: f"t{i}") + " - two"
    return least_failure(True, "(at start (forall (?y ?z - two) (not (r ?x ?y ?z))))", objects)


def split_ends():
    """250 uncertain ends that write the same 1,000 atoms, and 250 steps that need clauses of them all through."""
    ends = STEPS // 2
    atoms = 1_000
    every = lambda form: many(atoms, lambda i: form.format(i, (i + 1) % atoms))
    clauses = "(and " + every("(or (p{0}) (not (p{1})) (q))") + ")"
    actions = uncertain("up", "?x", 10, 20, "()", f"(at end (and {every('(p{0})')}))") + holding("hold", "?x", 40, clauses)
    actions += simple("off", "", "()", "(not (q))")
    lines = [f"0: (up o{i}) [10,20]" for i in range(ends)] + [f"1: (hold o{i}) [40]" for i in range(ends)]
    objects = many(ends, lambda i: f"o{i}")
    return files(every("(p{0})") + " (q)", actions, f"(:objects {objects}) (:init (q)) (:goal ())", lines)


def crossed_ends():
    """250 uncertain ends that write an atom each, and 250 steps with 1,600 clauses over pairs of these atoms."""
    ends = STEPS // 2
    condition = "(forall (?y ?z - some) (or (p ?y) (not (p ?z)) (q ?y)))"
    actions = uncertain("up", "?x", 10, 20, "()", "(at end (p ?x))") + holding("hold", "?x", 40, condition)
    actions += simple("off", "?x", "()", "(not (q ?x))")
    some, other = many(40, lambda i: f"o{i}"), many(ends - 40, lambda i: f"o{i + 40}")
    facts = many(40, lambda i: f"(q o{i})")
    lines = [f"0: (up o{i}) [10,20]" for i in range(ends)] + [f"1: (hold o{i}) [40]" for i in range(ends)]
    problem = f"(:objects {some} - some {other} - object) (:init {facts}) (:goal ())"
    return files("(p ?x) (q ?x)", actions, problem, lines, "(:types some)")


def chosen_ends():
    """499 uncertain ends that write an atom each, and a tautology that is decided only where all ends are chosen."""
    ends = STEPS - 1
    level = "(or (p{0}) (and (not (p{0})) (or (p{1}) (and (not (p{1})) (or (p{2}) (not (p{2})))))))"
    pairs = " ".join(level.format(i, (7 * i + 3) % ends, (31 * i + 11) % ends) for i in range(ends))
    actions = "".join(uncertain(f"up{i}", "", 10, 20, "()", f"(at end (p{i}))") for i in range(ends))
    actions += holding("hold", "", 40, f"(and {pairs})")
    lines = [f"0: (up{i}) [10,20]" for i in range(ends)] + ["1: (hold) [40]"]
    return files(many(ends, lambda i: f"(p{i})"), actions, "(:init) (:goal ())", lines)


def deep_held():
    """An over-all condition of the deepest tree, in 250 steps, over 250 uncertain ends that write its atoms."""
    ends = STEPS // 2
    condition = "(p0)"
    for i in range(95):
        condition = f"(imply (p{i}) {condition})" if i % 2 else f"(or (not (p{i})) {condition})"
    actions = "".join(uncertain(f"up{i}", "", 10, 20, "()", f"(at end (p{i}))") for i in range(ends))
    actions += holding("hold", "?x", 40, condition)
    lines = [f"0: (up{i}) [10,20]" for i in range(ends)] + [f"1: (hold o{i}) [40]" for i in range(ends)]
    problem = f"(:objects {many(ends, lambda i: f'o{i}')}) (:init) (:goal ())"
    return files(many(ends, lambda i: f"(p{i})"), actions, problem, lines)


INPUTS = (
    one_object, quantified_atoms, nested_quantifiers, deep, deep_wide, huge_schema, long_names, most_names,
    chain_of_types, sums, sums_of_numbers, sums_apart, sums_of_calls, ranges, least_failure, least_failure_coarse, least_failure_burdened,
    split_ends, crossed_ends, chosen_ends, deep_held,
)  # fmt: skip


def limits(stack):
    def set_them():
        resource.setrlimit(resource.RLIMIT_STACK, (stack * MIB, stack * MIB))
        resource.setrlimit(resource.RLIMIT_AS, (MEMORY, MEMORY))
        resource.setrlimit(resource.RLIMIT_CPU, (SECONDS, SECONDS + 1))

    return set_them


def seen(folder, name, longest, stack):
    """A line of the table."""
    paths = [os.path.join(folder, f"{name}.{it}") for it in "dpl"]
    with open(os.path.join(folder, f"{name}.{stack}"), "w+") as out:
        ran = subprocess.Popen([PROGRAM, "check", *paths], stdout=out, preexec_fn=limits(stack))
        _, status, used = os.wait4(ran.pid, 0)
        ran.returncode = os.waitstatus_to_exitcode(status)
        out.seek(0)
        first = out.readline().strip()[:60]
    ended = f"[{ran.returncode}]" if ran.returncode >= 0 else f"signal {-ran.returncode}"
    if ran.returncode in (-24, -9):
        ended = f"cut off at {SECONDS} s"
    return f"  {name:24} {stack:>2} MiB {used.ru_utime:8.2f} s {used.ru_maxrss // 1024:>6} MiB {longest:>8}  {ended} {first}"


def main():
    words = sys.argv[1:]
    jobs = int(words[1]) if words[:1] == ["-j"] else 1
    wanted = words[2:] if words[:1] == ["-j"] else words
    if not os.access(PROGRAM, os.X_OK):
        sys.exit("build the program first: ./stp build")
    with tempfile.TemporaryDirectory() as folder, concurrent.futures.ThreadPoolExecutor(jobs) as pool:
        lines = []
        for make in INPUTS:
            if wanted and make.__name__ not in wanted:
                continue
            texts = make()
            if max(map(len, texts)) > MIB:
                sys.exit(f"{make.__name__} is too long")
            for it, text in zip("dpl", texts):
                with open(os.path.join(folder, f"{make.__name__}.{it}"), "w") as out:
                    out.write(text)
            longest = max(map(len, texts))
            lines += [pool.submit(seen, folder, make.__name__, longest, stack) for stack in STACKS]
        print("input, stack, user time, memory, bytes of the longest file, status and first line", flush=True)
        for line in concurrent.futures.as_completed(lines):
            print(line.result(), flush=True)


if __name__ == "__main__":
    main()
