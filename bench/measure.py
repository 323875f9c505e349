#!/usr/bin/python3
"""Measures the built program beside the libraries that a user would take instead.

    bench/measure.py            # all texts, three runs, at most 10 s a run; figures go into docs/
    bench/measure.py --quick    # the small texts, one run, at most 3 s; figures go into bench/out/

Each program reads the same iCNF text in one process and answers each cube with assumptions and
failed literals. Models are evaluated, and another peer has to refute each refuted part. The status
is 1 where verdicts differ or an output is wrong. TARMO=PATH measures that program instead.
Debian's Python is named above since its package of matplotlib is seen by no other.
"""
import argparse
import os
import subprocess
import sys
import tempfile
import time
from pathlib import Path

import pictures
import tables
from families import KINDS, SIZES, families
from programs import BUILT, COUNTS, INSTALL, TARMO, TOP, compile_program, peers, tarmo
from runs import Runner
from texts import Text

LONG = 2  # seconds: a run that takes longer isn't repeated

# the page that shows the tables of a whole run, between these lines
PAGE = "BENCHMARKS.md"
MARKS = ("<!-- written by bench/measure.py -->", "<!-- end of what it wrote -->")


def words():
    parser = argparse.ArgumentParser(description=__doc__.splitlines()[0])
    parser.add_argument("--quick", action="store_true", help="small texts, one run, 3 s")
    parser.add_argument("--limit", type=float, help="seconds a run")
    parser.add_argument("--runs", type=int, help="runs of each program on each text")
    parser.add_argument("--family", action="append", choices=families(), help="only this one")
    parser.add_argument("--into", type=Path, help="folder for the figures and the pictures")
    found = parser.parse_args()
    found.limit = found.limit or (3 if found.quick else 10)
    found.runs = found.runs or (1 if found.quick else 3)
    found.into = found.into or (BUILT if found.quick or found.family else TOP / "docs")
    return found


def texts(asked):
    for kind in KINDS:
        if asked.family is None or kind.family in asked.family:
            for size in range(1 if asked.quick else len(SIZES)):
                yield kind, size


def answers_alone(verdicts):
    """Whether a program can answer all jobs that stops at the first model."""
    return "S" not in verdicts[:-1]


def runs_of_text(runner, programs, text, count):
    """The runs of each program, one in turn for each repetition, Tarmo's last: how long the peers
    took says which of them checks parts, and what they answered who can read the text.
    """
    found, known = {}, ""
    for _ in range(count):
        for program in [*programs[1:], programs[0]]:
            before = found.get(program.name, [])
            if before and (before[-1].seconds > LONG or not before[-1].ended):
                continue
            if not program.blocks and not (text.cubes_at_end and answers_alone(known)
                                           and len(known) == text.jobs):
                continue
            run = runner.run(program)
            known = max(known, run.verdicts, key=len)
            found.setdefault(program.name, []).append(run)
    return found


def faults(found):
    """What is wrong with the runs of a text."""
    told = [(name, run) for name, runs in found.items() for run in runs]
    furthest, longest = max(told, key=lambda pair: len(pair[1].verdicts))
    for name, run in told:
        if run.wrong:
            yield f"{name}: {run.wrong}"
        for job, (one, other) in enumerate(zip(run.verdicts, longest.verdicts), 1):
            if "?" not in (one, other) and one != other:
                yield f"job {job}: {name} says {one}, {furthest} says {other}"


def shown(result):
    if result is None:
        return "-"
    return f"{result.seconds:.3f}" if result.ended else f"> {result.seconds:g}"


def measure_text(runner, programs, kind, size, count):
    """The results of each program, and what is wrong."""
    with open(runner.text, "w") as file:
        text = Text(file)
        kind.write(text, *kind.sizes[size])
    runner.forget()
    found = runs_of_text(runner, programs, text, count)
    results = {program.name: tables.combined(kind, size, text, program.name, found[program.name])
               for program in programs if program.name in found}
    results["tarmo"].counts.update(runner.tarmo_counts())
    known = max((run.verdicts for runs in found.values() for run in runs), key=len)
    title = f"{kind.family}, {kind.name}, {SIZES[size]}"
    print(f"{title:<56} {text.jobs:>6} {text.clauses:>8} {known.count('S'):>6}"
          f" {known.count('U'):>6}", *(f"{shown(results.get(program.name)):>14}"
                                       for program in programs), flush=True)
    unchecked = sum(run.unchecked for runs in found.values() for run in runs[:1])
    if unchecked:
        print(f"    {unchecked} parts weren't checked in time")
    return list(results.values()), [f"{title}: {fault}" for fault in faults(found)]


def circumstances(limit, count, start):
    """The date, the commit, the machine and how busy it was, in two lines."""
    models = [line.partition(":")[2].strip() for line in open("/proc/cpuinfo")
              if line.startswith("model name")]
    model = models[0] if models else "unknown processor"
    commit = subprocess.run(["git", "-C", TOP, "describe", "--always", "--dirty"],
                            capture_output=True, text=True).stdout.strip()
    load = (start + os.getloadavg()[2]) / 2
    other = f", program {os.environ['TARMO']}" if "TARMO" in os.environ else ""
    runs = "one run" if count == 1 else f"{count} runs"
    return (f"{time.strftime('%Y-%m-%d')}, commit {commit or 'unknown'}, at most {runs} each, "
            f"{limit:g} s a run,\n{os.cpu_count()} x {model}, "
            f"load {load:.1f}{other}")


def main():
    asked = words()
    mine = tarmo()
    if mine is None:
        sys.exit(f"{TARMO}: no such program; `make run` builds it")
    if not COUNTS.exists():
        print(f"{COUNTS}: not built, so Tarmo's conflicts are left out; `make bench` builds it")
    if not all(map(compile_program, ("stopwatch", "check"))):
        sys.exit(f"the programs of bench/drivers can't be compiled; on Debian: {INSTALL}")
    programs = [mine, *peers()]
    load, results, wrong = os.getloadavg()[0], [], []
    print(f"{'Text':<56} {'jobs':>6} {'clauses':>8} {'S':>6} {'U':>6}",
          *(f"{program.name:>14}" for program in programs))
    with tempfile.TemporaryDirectory() as folder:
        runner = Runner(Path(folder), asked.limit, programs[1:])
        for kind, size in texts(asked):
            more, faulty = measure_text(runner, programs, kind, size, asked.runs)
            results += more
            wrong += faulty
    told = tables.Results(results)
    caption = circumstances(asked.limit, asked.runs, load)
    report = "".join(f"\n{title}:\n\n{table}" for title, table in tables.all_tables(told).items())
    print(f"\n{caption}\n{report}")
    names = written(asked, told, caption, report)
    print(f"in {asked.into}:", *names)
    print(*(f"WRONG: {fault}" for fault in wrong), sep="\n")
    sys.exit(1 if wrong else 0)


def written(asked, told, caption, report):
    """Writes figures, pictures and, where the page has a place for them, the tables; the names."""
    asked.into.mkdir(exist_ok=True)
    tables.write_csv(asked.into / "measured.csv", told)
    names = ["measured.csv", *pictures.draw(asked.into, told, asked.limit, caption)]
    page = asked.into / PAGE
    if page.exists() and all(mark in page.read_text() for mark in MARKS):
        before, _, rest = page.read_text().partition(MARKS[0])
        after = rest.partition(MARKS[1])[2]
        page.write_text(f"{before}{MARKS[0]}\n{caption}\n{report}\n{MARKS[1]}{after}")
        names.append(PAGE)
    return names


if __name__ == "__main__":
    main()
