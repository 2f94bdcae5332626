#!/usr/bin/env python3
"""Refuses memory to each growth of the built program in turn, and tells how many were refused and how many wrong answers came.

    bench/refuse.py [--bin PROGRAM] [NAME..]

A case is one of `crates/lin_tests/data` (those that are named, else all that have a file NAME.jsonl). The program, the proved
one or PROGRAM, is run on it once for each of its growths, with that one refused by a small library in front of the C library
(`bench/refuse.c`, built by the toolchain's own compiler). It has to answer the case as it should be, or to end with status 4,
nothing on standard output and `lincheck: out of memory` on standard error, after lines of --progress or none. With --stats the
number told may be smaller.
"""
import argparse
import os
import re
import subprocess
import sys
import tempfile
from pathlib import Path

HERE = Path(__file__).resolve().parent
CRATES = HERE.parent / "crates"
REFUSED = (4, b"", b"lincheck: out of memory\n")
PROGRESS = re.compile(rb"^lincheck: \S+: .*\d+ calls tried, .*\n", re.M)


def built(room):
    """The library that refuses, built by the kit's own compiler."""
    kit = Path(subprocess.run(["rt", "doc"], capture_output=True, text=True, check=True).stdout.strip()).parent
    tools, library = kit / "toolchain" / "bin", Path(room) / "refuse.so"
    flags = ["--no-default-config", "-O1", "-shared", "-fPIC", "-nostdlib", "-fuse-ld=lld", f"--ld-path={tools}/ld.lld"]
    subprocess.run([tools / "clang", *flags, "-o", library, HERE / "refuse.c"], check=True)
    return library


def ran(program, library, options, text, at):
    """What the program answers where this growth is refused, and how many growths it asked for."""
    reader, writer = os.pipe()
    told = {"LD_PRELOAD": str(library), "REFUSE_AT": str(at)}
    pipes = dict.fromkeys(("stdin", "stdout", "stderr"), subprocess.PIPE)
    with subprocess.Popen([program, *options], env=told, close_fds=False, preexec_fn=lambda: os.dup2(writer, 9), **pipes) as it:
        os.close(writer)
        out, err = it.communicate(text, timeout=60)
    growths = int(os.read(reader, 64) or 0)
    os.close(reader)
    return (it.returncode, out, fault_in(it.returncode, err)), growths


def fault_in(status, said):
    """The fault that standard error tells, without what else may stand there: a hint on a refusal or an undecided history, and
    lines of progress."""
    return b"" if status in (2, 3) else PROGRESS.sub(b"", said)


def is_allowed(answer, wanted):
    """Whether this may be answered in place of what is wanted."""
    if answer in (wanted, REFUSED):
        return True
    before, told, number = answer[1].rpartition(b"stored ")
    whole, _, most = wanted[1].rpartition(b"stored ")
    if told and (answer[0], before) == (wanted[0], whole):
        return int(number) < int(most)
    return False


def answer_wanted(folder, name):
    """What a case says: the options, and the status and the bytes that are wanted."""
    given, answer = folder / f"{name}.options", folder / f"{name}.answer"
    options = given.read_text().split() if given.exists() else []
    return options, (int((folder / f"{name}.status").read_text()), answer.read_bytes(), b"")


def main():
    words = argparse.ArgumentParser(description=__doc__, formatter_class=argparse.RawDescriptionHelpFormatter)
    words.add_argument("--bin", type=Path, default=CRATES / "lincheck_program" / "out" / "lincheck_program")
    words.add_argument("names", nargs="*")
    asked, folder = words.parse_args(), CRATES / "lin_tests" / "data"
    names = asked.names or sorted(it.stem for it in folder.glob("*.jsonl") if it.with_suffix(".answer").exists())
    refusals = wrong = 0
    with tempfile.TemporaryDirectory() as room:
        library = built(room)
        for name in names:
            text = (folder / f"{name}.jsonl").read_bytes()
            options, wanted = answer_wanted(folder, name)
            answer, growths = ran(asked.bin.resolve(), library, options, text, 0)
            for at in range(growths + 1):
                if at:
                    answer, _ = ran(asked.bin.resolve(), library, options, text, at)
                if not (is_allowed(answer, wanted) if at else answer == wanted):
                    print(f"{name}: growth {at} of {growths}: {answer}")
                    wrong += 1
            refusals += growths
    print(f"{len(names)} cases, {refusals} growths refused, {wrong} wrong answers")
    sys.exit(1 if wrong else 0)


if __name__ == "__main__":
    main()
