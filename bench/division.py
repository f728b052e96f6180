#!/usr/bin/env python3
"""Times products and exact divisions of polynomials and sums of fractions, all as ratios of one run on this machine.

Usage: bench/division.py, at the root of the repository, once `rt run bench_division` has built crates/bench_division.
It builds bench/division_yardstick by cargo. Each time is the least processor time of seven runs, the programs taking
turns. The polynomials are powers of linear forms in three names, with almost every monomial below a degree: 120, 286 or
969 terms.

    plain     the time of the proved program over that of plain Rust with the same algorithms
    merging   the same over plain Rust that merges the rest with a multiple in each step of a division
    copying   the same over plain Rust that also copies the rest and makes a list of the multiple first
"""
import os
import resource
import subprocess
import sys

ROOT = os.path.dirname(os.path.dirname(os.path.abspath(__file__)))
YARDSTICK = os.path.join(ROOT, "bench", "division_yardstick")
PLAIN = os.path.join(YARDSTICK, "target", "release", "division_yardstick")
RUNS = 7
CASES = [
    ("product 120 x 120", "multiply", 7, 7, 400),
    ("product 286 x 286", "multiply", 10, 10, 60),
    ("product 969 x 969", "multiply", 16, 16, 6),
    ("division 120 x 120", "divide", 7, 7, 1500),
    ("division 286 x 286", "divide", 10, 10, 300),
    ("division 969 x 286", "divide", 16, 10, 60),
    ("sum of fractions, numerators of 286", "sum", 10, 10, 200),
    ("sum of fractions, numerators of 969", "sum", 16, 16, 60),
]


def used(program, *words):
    """Processor time, and what it printed."""
    before = resource.getrusage(resource.RUSAGE_CHILDREN)
    done = subprocess.run([program, *map(str, words)], check=True, capture_output=True, text=True)
    after = resource.getrusage(resource.RUSAGE_CHILDREN)
    return after.ru_utime + after.ru_stime - before.ru_utime - before.ru_stime, done.stdout


def least(cases):
    """The least time of each case, the cases taking turns, and what each printed."""
    costs, texts = {}, {}
    for _ in range(RUNS):
        for name, case in cases.items():
            cost, texts[name] = used(*case)
            costs[name] = min(cost, costs.get(name, cost))
    return costs, texts


def main():
    proved = sys.argv[1] if len(sys.argv) > 1 else os.path.join(ROOT, "crates", "bench_division", "out", "bench_division")
    subprocess.run(["cargo", "build", "--release", "--quiet"], cwd=YARDSTICK, check=True)
    for name, mode, first, second, rounds in CASES:
        cases = {"proved": (proved, mode, first, second, rounds), "plain": (PLAIN, mode, first, second, rounds)}
        if mode == "divide":
            for other in ["merging", "copying"]:
                cases[other] = (PLAIN, other, first, second, rounds)
        costs, texts = least(cases)
        assert len(set(texts.values())) == 1, texts
        ratios = ", ".join(f"over {other} {costs['proved'] / costs[other]:.2f}" for other in costs if other != "proved")
        print(f"{name}: {1000 * costs['proved'] / rounds:.2f} ms, {ratios}")


main()
