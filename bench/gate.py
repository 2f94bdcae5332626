#!/usr/bin/env python3
"""Runs the gate and tells what it took, crate by crate: the seconds of processor time of proofs, edits and tests.

    bench/gate.py [CRATE]..

Runs `rt ci`, for these crates alone where any are named, and twice a second reads the processor time of the processes `rattle` below it. The second check of a crate, over which its edits are tried, counts as edits.
"""
import collections
import os
import re
import subprocess
import sys
import time

TICKS = os.sysconf("SC_CLK_TCK")


def text_of(path):
    try:
        with open(path, "rb") as file:
            return file.read()
    except OSError:
        return b""


def parents():
    """The parent of each process, and its processor seconds."""
    found = {}
    for pid in filter(str.isdigit, os.listdir("/proc")):
        told = text_of(f"/proc/{pid}/stat").rpartition(b")")[2].split()
        if told:
            found[int(pid)] = int(told[1]), (int(told[11]) + int(told[12])) / TICKS
    return found


def is_below(pid, top, found):
    while pid in found and pid != top:
        pid = found[pid][0]
    return pid == top


def part_of(pid):
    """The crate that a process checks, and for what."""
    words = text_of(f"/proc/{pid}/cmdline").replace(b"\0", b" ").decode(errors="replace")
    crate = re.search(r"/rattle (?:check|build) --crate-name (\S+)", words)
    try:
        folder = os.readlink(f"/proc/{pid}/cwd")
    except OSError:
        folder = ""
    return crate and (crate[1], "edits" if "/rt-edit-" in folder else "tests" if " --test" in words else "proofs")


def main():
    began, parts, seconds = time.monotonic(), {}, {}
    gate = subprocess.Popen(["rt", "ci", *sys.argv[1:]])
    while gate.poll() is None:
        found = parents()
        for pid, (_, used) in found.items():
            if is_below(pid, gate.pid, found) and (part := parts.get(pid) or part_of(pid)):
                parts[pid], seconds[pid] = part, used
        time.sleep(0.5)
    sums = collections.defaultdict(collections.Counter)
    for pid, (crate, kind) in parts.items():
        sums[crate][kind] += seconds[pid]
    for crate, told in sums.items():
        print(f"{crate:18}" + "".join(f"{kind} {told[kind]:6.0f}   " for kind in ("proofs", "edits", "tests")))
    whole = sum(sum(told.values()) for told in sums.values())
    print(f"{(time.monotonic() - began) / 60:.1f} minutes by the clock, {whole / 60:.0f} of processor time")
    sys.exit(gate.returncode)


if __name__ == "__main__":
    main()
