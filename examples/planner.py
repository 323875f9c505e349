#!/usr/bin/env python3
"""A planner's loop over a pipe: all shortest ways of a robot over a grid with walls.

The horizon grows until there is a way; then each way that is found is forbidden by one more clause,
until none is left.

    planner.py [PROGRAM [WORD ..]]    PROGRAM is tarmo where it isn't named
"""
import itertools
import subprocess
import sys

GRID = ["R..", ".#.", "..G"]
CELLS = [(row, at) for row, line in enumerate(GRID) for at, kind in enumerate(line) if kind != "#"]
START, GOAL = (next(c for c in CELLS if GRID[c[0]][c[1]] == kind) for kind in "RG")
solver = subprocess.Popen(
    sys.argv[1:] or ["tarmo"], stdin=subprocess.PIPE, stdout=subprocess.PIPE, text=True
)


def at(step, cell):
    return step * len(CELLS) + CELLS.index(cell) + 1


def near(cell):
    return [c for c in CELLS if abs(c[0] - cell[0]) + abs(c[1] - cell[1]) == 1]


def tell(*words):
    print(*words, 0, file=solver.stdin)


def ask(cube):
    tell("a", *cube)
    solver.stdin.flush()
    verdict = solver.stdout.readline().split()[2]
    literals = solver.stdout.readline().split()[1:-1]
    return verdict == "SATISFIABLE", {int(literal) for literal in literals}


def stand_in_one_cell(step):
    tell(*(at(step, cell) for cell in CELLS))
    for one, other in itertools.combinations(CELLS, 2):
        tell(-at(step, one), -at(step, other))


print("p inccnf", file=solver.stdin)
stand_in_one_cell(0)
tell(at(0, START))
ways = []
for steps in itertools.count():
    found, model = ask([at(steps, GOAL)])
    while found:
        way = [cell for step in range(steps + 1) for cell in CELLS if at(step, cell) in model]
        ways.append(way)
        tell(*(-at(step, cell) for step, cell in enumerate(way)))
        found, model = ask([at(steps, GOAL)])
    if ways:
        break
    for cell in CELLS:
        tell(-at(steps, cell), *(at(steps + 1, c) for c in near(cell)))
    stand_in_one_cell(steps + 1)
print(f"{len(ways)} ways of {steps} steps")
for way in sorted(ways):
    print(" ".join(f"{row},{column}" for row, column in way))
solver.stdin.close()
sys.exit(solver.wait())
