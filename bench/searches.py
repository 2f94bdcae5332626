#!/usr/bin/env python3
"""Tells what a search costs over a memo of its own, and over a shared table with one hand.

    bench/searches.py [RUNS]

Builds `bench/searches.program` by `bin/build_unproved.py` (two minutes), and runs it RUNS times (9) in each way on histories of
`bench/histories.py`, in turn. Prints the processor seconds of the searches alone: the least of the runs, less the least that
reading takes; and how many times as much they take over the table. Run it on an idle machine.
"""
import os
import statistics
import subprocess
import sys
import tempfile
from pathlib import Path

BENCH = Path(__file__).resolve().parent
sys.path.insert(0, str(BENCH.parent / "bin"))
import build_unproved

HISTORIES = [
    ("register_5_no", 4096), ("register_10", 4096), ("register_10_no", 4096), ("queue", 4096), ("queue_no", 4096),
    ("stack", 4096), ("stack_no", 4096), ("map", 4096), ("map_no", 4096), ("crashed", 6), ("concurrent", 16),
]
WAYS = [("read",), ("own",), ("table", "16"), ("table", "256")]


def seconds_of(program, way, history):
    """The processor seconds of one run, and what it printed."""
    with open(history) as text:
        running = subprocess.Popen([program, *way], stdin=text, stdout=subprocess.PIPE)
        said = running.stdout.read()
        used = os.wait4(running.pid, 0)[2]
    return used.ru_utime + used.ru_stime, int(said)


def main():
    runs = int(sys.argv[1]) if len(sys.argv) > 1 else 9
    times = {way: [] for way in WAYS[2:]}
    with tempfile.TemporaryDirectory() as folder:
        program, history = Path(folder) / "searches", Path(folder) / "history"
        build_unproved.build(program, BENCH / "searches.program", as_if_proved=True)
        for family, size in HISTORIES:
            with open(history, "w") as out:
                subprocess.run([BENCH / "histories.py", family, str(size)], stdout=out, check=True)
            told = {way: [] for way in WAYS}
            for _ in range(runs):
                for way in WAYS:
                    told[way].append(seconds_of(program, way, history))
            if len({stored for way in WAYS[1:] for _, stored in told[way]}) != 1:
                sys.exit(f"{family} {size}: the searches stored different numbers of configurations")
            least = {way: min(seconds for seconds, _ in told[way]) for way in WAYS}
            own = least[("own",)] - least[("read",)]
            ratios = {way: (least[way] - least[("read",)]) / own for way in times}
            for way, ratio in ratios.items():
                times[way].append(ratio)
            print(f"{family + ' ' + str(size):20} own {own:8.4f} s   " + "   ".join(
                f"{way[1]} shards {ratio:.2f} times" for way, ratio in ratios.items()), flush=True)
    for way, ratios in times.items():
        print(f"{way[1]} shards: {statistics.geometric_mean(ratios):.2f} times in the geometric mean")


if __name__ == "__main__":
    main()
