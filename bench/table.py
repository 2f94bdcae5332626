#!/usr/bin/env python3
"""Tells what a look and a note cost over a memo of one's own and over a shared table.

    bench/table.py [RUNS]

Builds `bench/table.program` by `bin/build_unproved.py` (two minutes), and runs it RUNS times (7) in each way, in turn. A pair is
a look that finds its configuration and a note of it, which is known. Prints the nanoseconds of a pair, the least and the
middle of the runs: of processor time with one thread, and of the time by the clock with four. Run it on an idle machine.
"""
import resource
import statistics
import subprocess
import sys
import tempfile
import time
from pathlib import Path

sys.path.insert(0, str(Path(__file__).resolve().parent.parent / "bin"))
import build_unproved

WAYS = [("own", 1), ("one", 16), ("one", 256), ("many", 16), ("many", 256)]
TIMES = 10


def seconds_of(program, way, shards, times):
    """What a run takes, by the processor and by the clock, and how many pairs were known."""
    begun, used = time.monotonic(), resource.getrusage(resource.RUSAGE_CHILDREN)
    known = int(subprocess.run([program, way, str(shards), str(times)], capture_output=True, check=True).stdout)
    now = resource.getrusage(resource.RUSAGE_CHILDREN)
    return now.ru_utime + now.ru_stime - used.ru_utime - used.ru_stime, time.monotonic() - begun, known


def pair_of(program, way, shards):
    """The nanoseconds of a pair, what the making of the table takes left out, and the share of the pairs that were known."""
    few, many = (seconds_of(program, way, shards, times) for times in (1, TIMES + 1))
    pairs = 245761 // 4 * 4 if way == "many" else 245761
    by = 1 if way == "many" else 0
    return (many[by] - few[by]) / (TIMES * pairs) * 1e9, (many[2] - few[2]) / (TIMES * pairs)


def main():
    runs = int(sys.argv[1]) if len(sys.argv) > 1 else 7
    with tempfile.TemporaryDirectory() as folder:
        program = Path(folder) / "table"
        build_unproved.build(program, Path(__file__).resolve().parent / "table.program", as_if_proved=True)
        told = {way: [] for way in WAYS}
        for _ in range(runs):
            for way in WAYS:
                told[way].append(pair_of(program, *way))
    for (way, shards), pairs in told.items():
        took = [pair[0] for pair in pairs]
        known = statistics.mean(pair[1] for pair in pairs)
        name = "own" if way == "own" else f"{way}, {shards} shards"
        print(f"{name:18} least {min(took):7.1f} ns   middle {statistics.median(took):7.1f} ns   known {known:.3f}")


if __name__ == "__main__":
    main()
