#!/usr/bin/env python3
"""Counts how many small histories with many pending calls take long.

    bench/pending.py PROGRAM.. [--count N] [--seconds N] [--wrong] [--jobs N] [--names NAME,..]

Each PROGRAM, a build of `lincheck`, answers histories 1 to N (200 if none is said) of each family `pending_NAME` of `bench/histories.py`:
40 to 60 calls, of which 14 to 40 never return. With --wrong two results of each are in each other's place. A run that takes more
than so many seconds of a processor (5) is ended. Prints of each family and program how many took more than a second, how many were
ended, and the sum; and each history that two programs answered otherwise. The exit status is 1 where one differs.
"""
import argparse
import os
import resource
import subprocess
import sys
import tempfile
from concurrent.futures import ThreadPoolExecutor
from pathlib import Path

sys.path.insert(0, str(Path(__file__).resolve().parent))
from histories import PENDING, pending

LONG = 1


def answer(program, path, seconds):
    """The processor time of the program, and its answer, if it ended."""

    def bounded():
        resource.setrlimit(resource.RLIMIT_CPU, (seconds, seconds + 1))

    with open(path, "rb") as text:
        it = subprocess.Popen([program, "--workers", "1"], stdin=text, stdout=subprocess.PIPE, stderr=subprocess.DEVNULL, preexec_fn=bounded)
        told = it.stdout.read()
        _, status, used = os.wait4(it.pid, 0)
        it.returncode = os.waitstatus_to_exitcode(status)
    return used.ru_utime + used.ru_stime, told if it.returncode >= 0 else None


def main():
    words = argparse.ArgumentParser(description=__doc__, formatter_class=argparse.RawDescriptionHelpFormatter)
    words.add_argument("programs", nargs="+", metavar="PROGRAM")
    words.add_argument("--names", default=",".join(PENDING))
    words.add_argument("--count", type=int, default=200)
    words.add_argument("--seconds", type=int, default=5)
    words.add_argument("--jobs", type=int, default=1)
    words.add_argument("--wrong", action="store_true")
    asked = words.parse_args()
    differ = 0
    for name in asked.names.split(","):
        with tempfile.TemporaryDirectory() as room, ThreadPoolExecutor(asked.jobs) as pool:

            def tried(number):
                path = Path(room) / str(number)
                path.write_text("".join(pending(PENDING[name], asked.wrong)(number)))
                return number, [answer(os.path.abspath(program), path, asked.seconds) for program in asked.programs]

            runs = list(pool.map(tried, range(1, asked.count + 1)))
        for number, results in runs:
            told = {one for _, one in results if one is not None}
            if len(told) > 1:
                differ += 1
                print(f"{name} {number} differs")
        for place, program in enumerate(asked.programs):
            took = [results[place] for _, results in runs]
            long = [number for number, results in runs if results[place][0] > LONG]
            ended = sum(told is None for _, told in took)
            print(f"{name} {program}: {len(long)} of {len(took)} over a second, {ended} ended, {sum(one for one, _ in took):.2f} s {long}", flush=True)
    sys.exit(1 if differ else 0)


if __name__ == "__main__":
    main()
