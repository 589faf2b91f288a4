"""Builds the yardstick, and runs programs over zones to count what they take."""
import collections
import os
import pathlib
import re
import shutil
import statistics
import subprocess
import sys

HERE = pathlib.Path(__file__).resolve().parent
BUILT = HERE.parent / "dist/x86_64-linux"
TIME = "/usr/bin/time"
Timed = collections.namedtuple("Timed", "seconds status")


def need(*programs):
    """Ends the script if a program is missing."""
    for program in programs:
        if not shutil.which(program):
            sys.exit(f"{pathlib.Path(sys.argv[0]).name}: {program} is missing")


def build_yardstick(folder):
    """Builds bench/yardstick.rs, and returns the path of the program."""
    program = pathlib.Path(folder) / "yardstick"
    options = ["--edition", "2024", "-C", "opt-level=3", "-o", program]
    subprocess.run(["rustc", *options, HERE / "yardstick.rs"], check=True)
    return program


def output(words, path):
    """Returns what a run over the lines of a file prints, and its status."""
    with open(path, "rb") as lines:
        run = subprocess.run(words, stdin=lines, stdout=subprocess.PIPE)
    return run.stdout, run.returncode


def errors(words, path):
    """Returns what a run prints on standard error."""
    with open(path, "rb") as lines:
        outputs = {"stdout": subprocess.DEVNULL, "stderr": subprocess.PIPE}
        return subprocess.run(words, stdin=lines, **outputs).stderr.decode(errors="replace")


def instructions(words, path):
    """Returns the instructions of a run. They do not depend on what else the machine does."""
    tool = ["valgrind", "--tool=callgrind", "--callgrind-out-file=/dev/null"]
    said = errors([*tool, *words], path)
    found = re.search(r"refs:\s+([\d,]+)", said)
    if not found:
        sys.exit(said)
    return int(found[1].replace(",", ""))


def megabytes(words, path):
    """Returns the peak memory of a run, resident.

    A process begins with the peak of the one that starts it, so a small one has to.
    """
    return int(errors([TIME, "-f", "%M", *words], path).split()[-1]) / 1024


def timed(words, path):
    """Returns the processor seconds of a run, user and system, and its status."""
    with open(path, "rb") as lines:
        outputs = {"stdout": subprocess.DEVNULL, "stderr": subprocess.DEVNULL}
        process = subprocess.Popen(words, stdin=lines, **outputs)
        _, status, used = os.wait4(process.pid, 0)
    process.returncode = os.waitstatus_to_exitcode(status)
    return Timed(used.ru_utime + used.ru_stime, process.returncode)


def medians(commands, path, count):
    """Runs commands in turn, `count` times, and returns the median of the seconds of each."""
    rounds = [[timed(words, path).seconds for words in commands] for _ in range(count)]
    return [statistics.median(seconds) for seconds in zip(*rounds)]
