#!/usr/bin/env python3
"""A bounded model checker over a pipe: after how many steps can a counter of three bits be 5?

The counter goes up by one where its enable input is true. Each step adds the clauses of one more
transition, asks, and reads the answer before it goes on.

    bounded_model_checker.py [PROGRAM [WORD ..]]    PROGRAM is tarmo where it isn't named
"""
import itertools
import subprocess
import sys

BITS, TARGET = 3, 5
solver = subprocess.Popen(
    sys.argv[1:] or ["tarmo"], stdin=subprocess.PIPE, stdout=subprocess.PIPE, text=True
)


def bit(step, place):  # the variables of a step: its bits, then its enable input
    return step * (BITS + 1) + place + 1


def signed(variable, value):
    return variable if value else -variable


def tell(*words):
    print(*words, 0, file=solver.stdin)


def ask(cube):
    tell("a", *cube)
    solver.stdin.flush()
    verdict = solver.stdout.readline().split()[2]
    literals = solver.stdout.readline().split()[1:-1]
    return verdict == "SATISFIABLE", [int(literal) for literal in literals]


print("p inccnf", file=solver.stdin)
for place in range(BITS):
    tell(-bit(0, place))
for step in itertools.count():
    reached, model = ask([signed(bit(step, place), TARGET >> place & 1) for place in range(BITS)])
    if reached:
        break
    for value, enable in itertools.product(range(2**BITS), (0, 1)):
        here = [-signed(bit(step, place), value >> place & 1) for place in range(BITS)]
        here.append(-signed(bit(step, BITS), enable))
        for place in range(BITS):
            tell(*here, signed(bit(step + 1, place), (value + enable) >> place & 1))
enabled = ["up" if model[bit(before, BITS) - 1] > 0 else "stay" for before in range(step)]
print(f"{TARGET} is reached after {step} steps: {' '.join(enabled)}")
solver.stdin.close()
sys.exit(solver.wait())
