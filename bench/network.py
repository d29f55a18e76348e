#!/usr/bin/env python3
"""Times the calls of a temporal network, as proved and in stock Rust by the same algorithm.

The proved network is driven by a small program, bench/network/main.program with its invariants beside it. It is proved
and built in a temporary folder, over copies of the crates that it stands on, since no crate of the repository is to be
proved for measurements alone. The stock body is bench/network.rs, built there by `rustc -O`. Nothing else is written,
and the folder is removed at the end.

usage: bench/network.py [--instructions] [runs]

Prints a row for each kind of network, call and number of points: what one call takes as proved and in stock Rust, the
ratio of these, and how much more the proved call takes than in the row before. Nanoseconds are the least of so many
runs (5 if left out), the two programs in turn; with --instructions it counts the instructions of a call under valgrind,
as the difference between two runs, which takes some ten minutes. Nothing is judged: compare ratios and growth of one
run only. bench/README.md has the figures of one.

Kinds of network, where each link says that a point comes at least a unit after another:
  chain    each point after the one before it
  against  a chain whose points are numbered from its end, against the order in which a round looks at them
  grid     in rows of 40, each point after the one before it in its row and after the one above it
  random   each point after three earlier ones at random, with the points' numbers shuffled
Calls:
  met      an addition that the kept times meet
  one      an addition that moves one point
  all      an addition that moves all points but the origin
  refused  an addition that is refused: that the first point is not before the last
  back     going back over many constraints in one call, for each of them
  turn     an addition that is met, and going back over it
"""
import os
import re
import shutil
import subprocess
import sys
import tempfile

TOP = os.path.dirname(os.path.dirname(os.path.abspath(__file__)))
BENCH = os.path.join(TOP, "bench")
BELOW = ["stp_base", "stp_network"]
PROGRAM = "stp_bench_network"
SIZES = [416, 831, 1661]
# how often each is called in a run, and how often under valgrind
CALLS = {
    "met": (200_000, 2_000),
    "one": (2_000, 50),
    "all": (100, 5),
    "refused": (100, 5),
    "back": (200_000, 2_000),
    "turn": (200_000, 2_000),
}


def build_proved(folder):
    """The program over a copy of the crates below it."""
    crates = os.path.join(folder, "crates")
    for name in BELOW:
        without = shutil.ignore_patterns("out", "must-fail")
        shutil.copytree(os.path.join(TOP, "crates", name), os.path.join(crates, name), ignore=without)
    shutil.copy(os.path.join(TOP, "HANDLES"), folder)
    crate = os.path.join(crates, PROGRAM)
    os.makedirs(os.path.join(crate, "src"))
    for name in sorted(os.listdir(os.path.join(BENCH, "network"))):
        part, kind = os.path.splitext(name)
        file = os.path.join("src", "main.rt")
        if kind == ".invariants":
            file = os.path.join("proofs", part, "Invariants.antt")
            os.makedirs(os.path.join(crate, "proofs", part))
        shutil.copy(os.path.join(BENCH, "network", name), os.path.join(crate, file))
    with open(os.path.join(TOP, "crates.txt")) as listed:
        lines = [line for line in listed if line.split(":")[0] in BELOW]
    with open(os.path.join(folder, "crates.txt"), "w") as listed:
        listed.writelines(lines + [f"{PROGRAM}: {' '.join(BELOW)} anyhow\n"])
    done = subprocess.run(["rt", "run", "--jobs", "1"], cwd=crate, capture_output=True, text=True)
    if done.returncode != 0:
        sys.exit(f"the program is not proved:\n{done.stdout}{done.stderr}")
    return os.path.join(crate, "out", PROGRAM)


def build_stock(folder):
    """The stock body."""
    program = os.path.join(folder, "stock")
    subprocess.run(["rustc", "-O", "-o", program, os.path.join(BENCH, "network.rs")], check=True)
    return program


def nanoseconds(program, kind, points, call, count):
    """What a call takes in a run."""
    done = subprocess.run([program, kind, str(points), call, str(count)], capture_output=True, text=True, check=True)
    return int(done.stdout) / count


def instructions(program, kind, points, call, count):
    """What a call takes, as the difference between two runs."""
    counted = []
    for times in [count, 2 * count]:
        tool = ["valgrind", "--tool=callgrind", "--callgrind-out-file=/dev/null"]
        words = [program, kind, str(points), call, str(times)]
        done = subprocess.run(tool + words, capture_output=True, text=True, check=True)
        int(done.stdout)
        counted.append(int(re.search(r"Collected : (\d+)", done.stderr)[1]))
    return (counted[1] - counted[0]) / count


def instructions_alone(program, kind, points, call, count):
    """The same without the additions before a return."""
    taken = instructions(program, kind, points, call, count)
    return taken - instructions(program, kind, points, "met", count) if call == "back" else taken


def least_of(programs, kind, points, call, counting, runs):
    """What a call takes in each program."""
    if counting:
        return [instructions_alone(program, kind, points, call, CALLS[call][1]) for program in programs]
    least = [float("inf")] * len(programs)
    for _ in range(runs):
        for side, program in enumerate(programs):
            least[side] = min(least[side], nanoseconds(program, kind, points, call, CALLS[call][0]))
    return least


def main():
    words = sys.argv[1:]
    counting = "--instructions" in words
    runs = next((int(word) for word in words if word.isdigit()), 5)
    unit = "instructions" if counting else "ns"
    with tempfile.TemporaryDirectory() as folder:
        programs = [build_proved(folder), build_stock(folder)]
        print(f"{unit} of a call")
        print(f"{'kind':7} {'call':8} {'points':>6} {'proved':>10} {'stock':>10} {'ratio':>6} {'growth':>6}")
        for kind in ["chain", "against", "grid", "random"]:
            for call in CALLS:
                before = None
                for points in SIZES:
                    proved, stock = least_of(programs, kind, points, call, counting, runs)
                    growth = f"{proved / before:6.2f}" if before else ""
                    before = proved
                    row = f"{kind:7} {call:8} {points:6} {proved:10.1f} {stock:10.1f} {proved / stock:6.2f} {growth}"
                    print(row.rstrip(), flush=True)


main()
