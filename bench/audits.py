#!/usr/bin/env python3
"""How long the audit of many refuted jobs takes beside the run that wrote them.

    bench/audits.py             # 1,000 refuted jobs over 100,000 clauses
    bench/audits.py 100 10000

The clauses are implications from each variable to the next one; job j asks whether some variable
can be true and the one sixty further on false. TARMO and TARMO_AUDIT name other programs.
"""
import os
import subprocess
import sys
import tempfile
import time

from programs import TOP, tarmo
from texts import Text

AUDIT = os.environ.get("TARMO_AUDIT", str(TOP / "crates/audit_program/out/audit_program"))
REACH = 60


def write(path, jobs, clauses):
    with open(path, "w") as file:
        text = Text(file)
        for variable in range(1, clauses + 1):
            text.clause(-variable, variable + 1)
        for job in range(jobs):
            first = 1 + job * (clauses - REACH) // jobs
            text.cube(first, -(first + REACH))


def seconds_of(command, **given):
    start = time.monotonic()
    done = subprocess.run(command, check=True, **given)
    return time.monotonic() - start, done.stdout


def main(jobs=1000, clauses=100_000):
    program = tarmo()
    if program is None or not os.path.exists(AUDIT):
        sys.exit("the program or the audit isn't built: make install does both")
    with tempfile.TemporaryDirectory() as folder:
        text, output = f"{folder}/text.icnf", f"{folder}/output"
        write(text, jobs, clauses)
        with open(output, "wb") as file:
            running, _ = seconds_of([*program.command, "--workers", "1", "--trace", text],
                                    stdout=file)
        auditing, told = seconds_of([AUDIT, text, output], stdout=subprocess.PIPE)
        size = os.path.getsize(output)
    print(f"{jobs} jobs over {clauses} clauses, {size:,} bytes: run {running:.3f} s, "
          f"audit {auditing:.3f} s ({auditing / running:.2f}), {told.decode().strip()}")
    return 0 if told.decode().split() == ["good", str(jobs), "0"] else 1


if __name__ == "__main__":
    sys.exit(main(*map(int, sys.argv[1:])))
