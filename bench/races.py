#!/usr/bin/env python3
"""Many runs over small texts on 1 to 16 workers, each judged by trying all assignments.

    bench/races.py             # 10,000 runs
    bench/races.py 500 7       # 500 runs, drawn from the number 7

Words, texts, the way in which a text arrives (at once, or in pieces with pauses) and the way in
which the output is taken (whole, or by a reader that goes away) are drawn. Where the output is whole
and has traces, `tarmo_audit` has to find it good. A run that doesn't end within thirty seconds is
a fault. The status is 1 where there was one.
"""
import collections
import concurrent.futures
import os
import random
import subprocess
import sys
import tempfile
import time
from pathlib import Path

from oracle import Judge, Statement, Unfit, Words, written
from programs import TOP, tarmo

AUDIT = os.environ.get("TARMO_AUDIT", str(TOP / "crates/audit_program/out/audit_program"))
LIMIT = 30  # seconds for a run
WORKERS = [1, 2, 3, 4, 8, 16]

# conflicts, attempts: None where the word isn't given. taken: after how many bytes of the output its
# reader goes away; None where it takes all. pieces: the text as it is written.
Case = collections.namedtuple("Case", "statements workers conflicts attempts first trace taken pieces")


def drawn_text(draw):
    """A few clauses and cubes over at most ten variables, hard enough to learn from."""
    variables = draw.randint(1, 10)
    size = draw.choice([2, 3, 3])
    statements = []
    for _ in range(draw.randint(1, 6)):
        for _ in range(draw.randint(0, 3 * variables)):
            statements.append(Statement("clause", drawn_lits(draw, variables, size)))
        statements.append(Statement("cube", drawn_lits(draw, variables, draw.randint(0, 3))))
    return statements


def drawn_lits(draw, variables, count):
    """Distinct literals; both of one variable now and then."""
    lits = {draw.choice([-1, 1]) * draw.randint(1, variables) for _ in range(count)}
    return sorted(lits, key=lambda lit: (abs(lit), lit < 0))


def drawn_pieces(draw, text):
    if draw.random() < 0.6:
        return [text]
    cuts = sorted(draw.randint(0, len(text)) for _ in range(draw.randint(1, 5)))
    return [text[start:end] for start, end in zip([0, *cuts], [*cuts, len(text)])]


def drawn_case(draw):
    statements = drawn_text(draw)
    conflicts = draw.choice([None, None, draw.randint(1, 6)])
    return Case(statements, draw.choice(WORKERS), conflicts,
                draw.choice([None, draw.randint(1, 4)]) if conflicts else None,
                draw.random() < 0.3, draw.random() < 0.5,
                draw.randint(0, 60) if draw.random() < 0.15 else None,
                drawn_pieces(draw, written(statements)))


def words_of(case):
    words = ["--workers", str(case.workers)]
    if case.conflicts:
        words += ["--conflicts", str(case.conflicts)]
    if case.attempts:
        words += ["--attempts", str(case.attempts)]
    return words + ["--first"] * case.first + ["--trace"] * case.trace


def feed(process, pieces):
    """Writes the pieces with a pause after each; a program that doesn't read on is left alone."""
    try:
        for piece in pieces:
            process.stdin.write(piece.encode())
            time.sleep(0.002)
    except BrokenPipeError:
        pass
    process.stdin.close()


def run(program, case):
    """The output and the status; the status is None where the run had to be stopped."""
    pipe = subprocess.PIPE
    process = subprocess.Popen([*program.command, *words_of(case)], stdin=pipe, stdout=pipe,
                               stderr=subprocess.DEVNULL, bufsize=0)
    reader = ["cat"] if case.taken is None else ["head", "-c", str(case.taken)]
    with process, subprocess.Popen(reader, stdin=process.stdout, stdout=pipe) as taking:
        process.stdout.close()
        feed(process, case.pieces)
        try:
            output, _ = taking.communicate(timeout=LIMIT)
            return output.decode(), process.wait(LIMIT)
        except subprocess.TimeoutExpired:
            process.kill()
            return "", None


def judged(program, case):
    """The status of a run of the case, and what is wrong with it, empty where nothing is."""
    output, status = run(program, case)
    if status is None:
        return status, "it didn't end"
    judge = Judge(case.statements, Words(case.conflicts, case.first))
    try:
        if case.taken is None:
            judge.whole(output, status)
        else:
            judge.front(output)
    except Unfit as unfit:
        return status, str(unfit)
    if case.taken is not None:
        return status, "" if status in (0, 1, 4) else f"status {status}"
    return status, audited(case, output) if case.trace else ""


def audited(case, output):
    with tempfile.TemporaryDirectory() as name:
        folder = Path(name)
        (folder / "text").write_text(written(case.statements))
        (folder / "output").write_text(output)
        done = subprocess.run([AUDIT, folder / "text", folder / "output"], capture_output=True,
                              text=True, timeout=LIMIT)
    return "" if done.returncode == 0 else f"the audit says {done.stdout.strip()}"


def main(count=10000, number=1):
    program = tarmo()
    if program is None or not os.path.exists(AUDIT):
        print("the program or the audit isn't built: make install does both")
        return 2
    draw = random.Random(number)
    cases = [drawn_case(draw) for _ in range(count)]
    faults, statuses = 0, collections.Counter()
    with concurrent.futures.ThreadPoolExecutor(2 * os.cpu_count()) as pool:
        found = pool.map(lambda case: judged(program, case), cases)
        for place, (case, (status, fault)) in enumerate(zip(cases, found), start=1):
            statuses[status] += 1
            if fault:
                faults += 1
                print(f"run {place}: {fault}\n  {' '.join(words_of(case))}\n  {case.pieces}")
    for workers in WORKERS:
        print(f"{workers} workers: {sum(case.workers == workers for case in cases)} runs")
    for status in sorted(statuses, key=str):
        print(f"status {status}: {statuses[status]} runs")
    print(f"{count} runs, {faults} with a fault")
    return 1 if faults else 0


if __name__ == "__main__":
    sys.exit(main(*map(int, sys.argv[1:])))
