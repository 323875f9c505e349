#!/usr/bin/env python3
"""Runs each example with a program, and compares what it prints with what it should.

    check.py [PROGRAM]    PROGRAM is the built tarmo where it isn't named
"""
import pathlib
import subprocess
import sys

HERE = pathlib.Path(__file__).resolve().parent
BUILT = HERE.parent / "crates/tarmo_program/out/tarmo_program"
PROGRAM = str(pathlib.Path(sys.argv[1] if len(sys.argv) > 1 else BUILT).resolve())
TABLE = [
    ("bounded_model_checker.py {program}", "5 is reached after 5 steps: up up up up up\n"),
    (
        "planner.py {program}",
        "2 ways of 4 steps\n0,0 0,1 0,2 1,2 2,2\n0,0 1,0 2,0 2,1 2,2\n",
    ),
    (
        "cube_and_conquer.py pigeons.cnf pigeons.cubes {program}",
        "unsatisfiable under all 5 cubes\n",
    ),
    ("side_by_side.py run jobs.icnf 1 {program}", None),
    ("side_by_side.py run jobs.icnf 3 {program}", None),
]


def run(words, **given):
    return subprocess.run(words, capture_output=True, text=True, cwd=HERE, timeout=60, **given)


def verdicts(output):
    return [line for line in output.splitlines() if line[:2] == "j " or line.startswith("end")]


def main():
    text = (HERE / "jobs.icnf").read_text()
    alone = run([PROGRAM], input=text)
    failed = alone.returncode != 0
    for command, expected in TABLE:
        script, *words = command.format(program=PROGRAM).split()
        ran = run([sys.executable, script, *words])
        if expected is None:
            good = verdicts(ran.stdout) == verdicts(alone.stdout) != []
        else:
            good = ran.stdout == expected
        good = good and ran.returncode == 0
        failed = failed or not good
        print("ok    " if good else "WRONG ", command.format(program="tarmo"))
        if not good:
            print(ran.stdout, ran.stderr, sep="\n")
    return 1 if failed else 0


sys.exit(main())
