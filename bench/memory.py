#!/usr/bin/env python3
"""What the built program takes in time and memory where many jobs, clauses or lessons are kept.

    bench/memory.py             # five texts, beside MiniSat's library where it is installed

Each text is run once by each program. Shown are seconds, the peak of resident memory, and how many
clauses Tarmo learnt, by `tarmo_bench solver`; then the peaks less those of an empty text, by job,
by clause, and by learnt clause, so that each of the three is an upper bound. The last column is
twice MiniSat's peak and 160 bytes a learnt clause. TARMO=PATH and COUNTS=PATH name other programs
than the built ones.
"""
import subprocess
import sys
import tempfile
from pathlib import Path

from combinatorics import large_ternary, random_ternary
from hardware import counter
from programs import BUILT, Program, compile_program, counts, tarmo, told
from texts import Text

LIMIT, GIBIBYTES = 120, 16  # seconds and addresses a run
MIB = 2**20


def empty(text):
    text.cube()


def refuted_jobs(text, jobs, variables):
    """A chain whose last variable is false, and cubes that start it somewhere."""
    for variable in range(1, variables):
        text.clause(-variable, variable + 1)
    text.clause(-variables)
    for job in range(jobs):
        text.cube(1 + job % variables)


def jobs_with_a_clause(text, jobs, variables):
    """A ternary clause of positive literals a job, and a cube of one of them."""
    for job in range(jobs):
        first = 1 + job % (variables - 2)
        text.clause(first, first + 1, first + 2)
        text.cube(first)


TEXTS = [
    ("nothing", empty, ()),
    ("counter of 8 bits, 255 jobs", counter, (8,)),
    ("100,000 refuted jobs over 60 variables", refuted_jobs, (100_000, 60)),
    ("100,000 jobs with a clause each", jobs_with_a_clause, (100_000, 60)),
    ("1,000,000 ternary clauses", large_ternary, (1, 1_000_000, 2.5)),
    ("random 3-SAT, 200 variables", random_ternary, (2, 200, 4.26)),
]


def watched(program, path, folder):
    """Seconds and the peak in bytes, None where the run didn't end with status 0."""
    command = [BUILT / "stopwatch", str(LIMIT), str(GIBIBYTES), folder / "output",
               folder / "messages", *program.command]
    with open(path) as file:
        done = subprocess.run(command, stdin=file, capture_output=True, text=True, check=True)
    how, code, wall, _, _, peak = done.stdout.split()
    return (float(wall), int(peak) * 1024) if (how, code) == ("exit", "0") else None


def learnt(path):
    """How many clauses one session learns on the text."""
    with open(path) as file:
        done = subprocess.run([counts(), "solver"], stdin=file, capture_output=True, text=True,
                              check=True)
    return told("tarmo", done.stdout)["conflicts"]


def main():
    program = tarmo()
    if None in (program, counts()) or not compile_program("stopwatch"):
        sys.exit("a program isn't built, or g++ isn't installed")
    program = Program("tarmo", [*program.command, "--workers", "1"], True)
    peers = [Program("minisat", [str(BUILT / "minisat")], True)] \
        if compile_program("minisat", "-lminisat") else []
    base = None
    with tempfile.TemporaryDirectory() as name:
        folder = Path(name)
        for title, write, sizes in TEXTS:
            path = folder / "text.icnf"
            with open(path, "w") as file:
                text = Text(file)
                write(text, *sizes)
            runs = [watched(each, path, folder) for each in (program, *peers)]
            if None in runs:
                sys.exit(f"{title}: a run didn't end with status 0")
            (seconds, peak), *others = runs
            base = base or peak
            lessons = learnt(path)
            more = peak - base
            print(f"{title}: {seconds:.3f} s, {peak / MIB:.1f} MiB, {lessons:,} learnt; above an "
                  f"empty text {more / text.jobs:.0f} bytes a job, "
                  f"{more / max(text.clauses, 1):.0f} a clause, "
                  f"{more / max(lessons, 1):.0f} a learnt clause", end="")
            for other_seconds, other_peak in others:
                print(f"; minisat {other_seconds:.3f} s, {other_peak / MIB:.1f} MiB, allowed "
                      f"{(2 * other_peak + 160 * lessons) / MIB:.1f} MiB", end="")
            print(flush=True)


if __name__ == "__main__":
    main()
