#!/usr/bin/env python3
"""Times the pool of workers, all as ratios of one run on this machine.

Usage: bench/pool.py, at the root of the repository, once `rt run bench_pool` has built crates/bench_pool.
It builds bench/pool_yardstick by cargo. Each time is the least of nine runs, the programs taking turns.

    workers   400 indices of about 1 ms each, by 1, 2 and 4 workers: wall time as a part of that of 1
    plain     the same by one worker: processor time over that of the plain Rust loop
    claims    indices that take no turns, by one worker: processor time over that of the plain Rust loop
"""
import os
import resource
import subprocess
import sys
import time

ROOT = os.path.dirname(os.path.dirname(os.path.abspath(__file__)))
YARDSTICK = os.path.join(ROOT, "bench", "pool_yardstick")
PLAIN = os.path.join(YARDSTICK, "target", "release", "pool_yardstick")
RUNS = 9
COUNT = 400
ROUNDS = 300


def used():
    children = resource.getrusage(resource.RUSAGE_CHILDREN)
    return children.ru_utime + children.ru_stime


def timed(program, *words):
    """Wall time, processor time, and what it printed."""
    begin, before = time.perf_counter(), used()
    done = subprocess.run([program, *map(str, words)], check=True, capture_output=True, text=True)
    return time.perf_counter() - begin, used() - before, done.stdout


def least(cases):
    """The least wall time and processor time of each case, the cases taking turns, and what each printed."""
    walls, costs, texts = {}, {}, {}
    for _ in range(RUNS):
        for name, case in cases.items():
            wall, cost, texts[name] = timed(*case)
            walls[name] = min(wall, walls.get(name, wall))
            costs[name] = min(cost, costs.get(name, cost))
    return walls, costs, texts


def main():
    proved = sys.argv[1] if len(sys.argv) > 1 else os.path.join(ROOT, "crates", "bench_pool", "out", "bench_pool")
    subprocess.run(["cargo", "build", "--release", "--quiet"], cwd=YARDSTICK, check=True)
    turns = 100_000
    took = min(timed(PLAIN, "jobs", COUNT, 1, turns)[1] for _ in range(3))
    turns = int(turns * COUNT / 1000 / took)
    cases = {f"{n} workers": (proved, "jobs", COUNT, n, turns) for n in (1, 2, 4)}
    cases["plain"] = (PLAIN, "jobs", COUNT, 1, turns)
    cases["claims"] = (proved, "claims", ROUNDS)
    cases["plain claims"] = (PLAIN, "claims", ROUNDS)
    walls, costs, texts = least(cases)
    assert len({texts[name] for name in cases if "claims" not in name}) == 1, texts
    assert texts["claims"] == texts["plain claims"], texts
    for n in (1, 2, 4):
        print(f"{n} workers over 1, wall: {walls[f'{n} workers'] / walls['1 workers']:.2f}")
    print(f"1 worker over plain Rust, processor: {costs['1 workers'] / costs['plain']:.2f}")
    print(f"claims over plain Rust, processor: {costs['claims'] / costs['plain claims']:.2f}")


main()
