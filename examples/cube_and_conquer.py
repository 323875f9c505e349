#!/usr/bin/env python3
"""Cube and conquer: is a formula, cut into cubes, satisfiable?

FORMULA is a DIMACS file with `p cnf`; CUBES has a cube a line, literals ended by `0`, with or
without an `a` in front, as lookahead solvers write them. PROGRAM is tarmo where it isn't named.

    cube_and_conquer.py FORMULA CUBES [PROGRAM [WORD ..]]
"""
import subprocess
import sys

formula, cubes, program = sys.argv[1], sys.argv[2], sys.argv[3:] or ["tarmo"]
lines = ["p inccnf\n"]
with open(formula) as text:
    lines += [line for line in text if not line.startswith(("p", "c", "%"))]
with open(cubes) as text:
    lines += ["a " + line.removeprefix("a ") for line in text if line.strip()]
run = subprocess.run(program, input="".join(lines), capture_output=True, text=True)
verdicts = [line.split()[2] for line in run.stdout.splitlines() if line.startswith("j ")]
if "SATISFIABLE" in verdicts:
    print(f"satisfiable: cube {verdicts.index('SATISFIABLE') + 1}")
elif run.returncode == 0:
    print(f"unsatisfiable under all {len(verdicts)} cubes")
else:
    sys.exit(f"not known: status {run.returncode}, {run.stdout.splitlines()[-1:]}")
