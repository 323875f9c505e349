#!/usr/bin/python3
"""Refuses the built program one growth of its memory after the other, and checks what it writes.

    bench/wanting.py [--workers N] [--growths K] [--steps S] [FILE]

First a run in which nothing is refused; then one for each of S growths (300, or all), in which it
and the K - 1 behind it (K is 1) are refused. Each run has to end with all blocks and status 0 or 1,
or with status 6 and a last line `memory` or a job NOMEMORY; what it answers has to be right: models
are evaluated, and no answer differs from the first run's. Without a file it takes a few small
texts, one after the other. It needs gcc and g++. TARMO=PATH takes that program instead of the built
one.
"""
import argparse
import collections
import os
import subprocess
import sys
import tempfile
from pathlib import Path

from programs import BUILT, SOURCES, compile_program, tarmo

MEMORY = 6  # the status where memory ran out
LONG = 60  # seconds a run

PIGEONS = ("p inccnf\n1 2 0\n3 4 0\n5 6 0\n-1 -3 0\n-1 -5 0\n-3 -5 0\n"
           "-2 -4 0\n-2 -6 0\n-4 -6 0\na 0\n")

# What is run without a file: words, and a text.
TEXTS = [
    ([], "p inccnf\n1 2 0\n-1 0\na 0\n"),
    ([], "p inccnf\n1 0\na 0\n-1 0\na 0\n"),
    (["--trace"], "p inccnf\n1 0\n-1 2 0\na -2 0\n"),
    (["--conflicts", "1", "--attempts", "2"], PIGEONS),
    (["--first"], "p inccnf\n1 0\na 1 0\n-1 0\na 0\n"),
]

# status: the exit status, negative for a signal, None where it took too long. verdicts: a letter a
# job, S, U or ?. last: the last line. starved: whether a job is NOMEMORY. asked: growths in all.
Run = collections.namedtuple("Run", "status verdicts last starved wrong asked")


def words():
    parser = argparse.ArgumentParser(description=__doc__.splitlines()[0])
    parser.add_argument("--workers", type=int, default=1, help="worker threads (1)")
    parser.add_argument("--growths", type=int, default=1, help="refused in a row (1)")
    parser.add_argument("--steps", type=int, default=300, help="runs at most, spread evenly (300)")
    parser.add_argument("file", type=Path, nargs="?")
    return parser.parse_args()


def shim():
    """The library that refuses, compiled anew."""
    target = BUILT / "wanting.so"
    BUILT.mkdir(exist_ok=True)
    command = ["gcc", "-shared", "-fPIC", "-O2", "-o", target, SOURCES / "wanting.c"]
    subprocess.run(command, check=True)
    return target


def run_with(command, library, text, folder, first, last):
    """The run in which the growths of these numbers are refused."""
    output, count = folder / "output", folder / "count"
    environment = {**os.environ, "LD_PRELOAD": str(library), "WANTING_COUNT": str(count),
                   "WANTING_FROM": str(first), "WANTING_TO": str(last)}
    with open(text) as file, open(output, "wb") as sink:
        try:
            status = subprocess.run(command, stdin=file, stdout=sink, env=environment,
                                    stderr=subprocess.DEVNULL, timeout=LONG).returncode
        except subprocess.TimeoutExpired:
            status = None
    check = [BUILT / "check", text, output, folder / "parts"]
    lines = subprocess.run(check, capture_output=True, text=True).stdout.splitlines()
    found = dict(line.partition(" ")[::2] for line in lines)
    written = output.read_text().splitlines()
    return Run(status, found.get("verdicts", ""), written[-1] if written else "",
               any(line.endswith(" NOMEMORY") for line in written), found.get("wrong", ""),
               int(count.read_text()) if count.exists() else 0)


def fault(run, plain):
    """What is wrong with a run, empty where nothing is."""
    if run.wrong:
        return run.wrong
    for job, (one, other) in enumerate(zip(run.verdicts, plain.verdicts), 1):
        if one != other and "?" not in (one, other):
            return f"job {job} is {one} and not {other}"
    if run.status in (0, 1):
        whole = (len(run.verdicts), run.last) == (len(plain.verdicts), plain.last)
        return "" if whole else f"status {run.status} without all blocks"
    if run.status == MEMORY:
        nothing = not run.last and not run.verdicts
        return "" if run.last == "memory" or run.starved or nothing else "status 6 without want"
    return "it took too long" if run.status is None else f"status {run.status}"


def kind(run):
    if run.status != MEMORY:
        return "answered all the same"
    if run.last == "memory":
        return "ended by memory"
    return "with a job without memory" if run.starved else "without a word"


def refuse_each(command, library, text, folder, asked):
    """Refuses growth after growth of this run, prints what came of it, and tells what is wrong."""
    plain = run_with(command, library, text, folder, 0, 0)
    if plain.status not in (0, 1) or plain.wrong or plain.asked == 0:
        return [f"without a refusal: status {plain.status}, {plain.wrong or plain.last}"]
    ends, wrong = collections.Counter(), []
    for first in range(1, plain.asked + 1, max(1, -(-plain.asked // asked.steps))):
        run = run_with(command, library, text, folder, first, first + asked.growths - 1)
        found = fault(run, plain)
        ends["wrong" if found else kind(run)] += 1
        if found:
            wrong.append(f"growth {first}: {found}")
    print(f"{plain.asked} growths, {sum(ends.values())} runs:",
          ", ".join(f"{count} {end}" for end, count in ends.most_common()))
    return wrong


def main():
    asked = words()
    program = tarmo()
    if program is None:
        sys.exit("no built program; `make run` builds it")
    if not compile_program("check"):
        sys.exit("g++ is wanted")
    library, wrong = shim(), []
    command = [*program.command, "--workers", str(asked.workers)]
    with tempfile.TemporaryDirectory() as name:
        folder = Path(name)
        if asked.file:
            wrong = refuse_each(command, library, asked.file, folder, asked)
        for more, text in [] if asked.file else TEXTS:
            (folder / "text").write_text(text)
            wrong += refuse_each([*command, *more], library, folder / "text", folder, asked)
    print("\n".join(wrong) if wrong else "nothing wrong")
    return 1 if wrong else 0


if __name__ == "__main__":
    sys.exit(main())
