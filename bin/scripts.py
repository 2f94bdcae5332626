"""How the Python scripts of this folder read, write and end. One that fails ends with 70 and a sentence on standard error, since 0 to
4 are the program's statuses."""
import ctypes
import os
import signal
import subprocess
import sys
from pathlib import Path

FAILED = 70
TOP = Path(__file__).resolve().parent.parent
LINCHECK = str(TOP / "bin" / "lincheck")
PARENT_DIES = 1  # what prctl calls PR_SET_PDEATHSIG


def fail(words, status=FAILED):
    """Ends the script with these words."""
    try:
        print(f"{Path(sys.argv[0]).stem}: {words}", file=sys.stderr)
    except OSError:
        pass  # nobody can be told
    sys.stdout = None  # what is left to write can't be
    sys.exit(status)


def run(main):
    """Runs a script, whose status `main` answers. A signal ends it without more words."""
    try:
        open_closed()
        status = main()
        sys.stdout.flush()
    except KeyboardInterrupt:
        signal.signal(signal.SIGINT, signal.SIG_DFL)
        os.kill(os.getpid(), signal.SIGINT)
    except OSError as fault:
        fail(f"{fault.strerror}: {fault.filename}" if fault.filename else fault.strerror or fault)
    except Exception as fault:
        fail(f"a fault of the script: {fault!r}")
    sys.exit(status)


def open_closed():
    """Opens standard streams that are closed, so that no other file takes their place. What is to be written needs standard output."""
    closed = [number for number in range(3) if is_closed(number)]
    for number in closed:
        os.open(os.devnull, os.O_RDWR)  # takes the least number that is free
        if number == 2:
            sys.stderr = open(2, "w", closefd=False)
    if 1 in closed:
        fail("standard output is closed")


def is_closed(number):
    try:
        os.fstat(number)
    except OSError:
        return True
    return False


def read_file(path, status=FAILED):
    """The bytes of a file, or of standard input where the path is `-`."""
    try:
        with open(0 if str(path) == "-" else path, "rb", closefd=str(path) != "-") as file:
            return file.read()
    except OSError as fault:
        fail(f"cannot read {path}: {fault.strerror}", status)


def write(text):
    """Writes a text to standard output, in UTF-8 whatever the terminal's encoding."""
    left = memoryview(text.encode(errors="replace"))
    try:
        while left:
            left = left[os.write(1, left) :]
    except OSError as fault:
        fail(f"cannot write to standard output: {fault.strerror}")


def answer_of(program, options, text):
    """The status of a program for this history, with what it printed and what else it said. It ends when this script ends."""
    try:
        done = subprocess.run([program, *options], input=text, capture_output=True, preexec_fn=end_with_parent)
    except OSError as fault:
        fail(f"cannot run {program}: {fault.strerror}")
    return done.returncode, done.stdout.decode(errors="replace"), done.stderr.decode(errors="replace")


def end_with_parent():
    ctypes.CDLL(None).prctl(PARENT_DIES, signal.SIGTERM)
