"""Planning: the horizon grows by one step a job, and each cube asks for the goal at that step."""
from itertools import combinations
from random import Random


def at_most_one(text, lits):
    for one, other in combinations(lits, 2):
        text.clause(-one, -other)


def robots(text, seed, side, count, steps):
    """Robots on a square grid, each with a place to reach: a step is a move to a neighbour or none.

    No place holds two robots, and no two change places with one another.
    """
    rng = Random(seed)
    cells = [(row, column) for row in range(side) for column in range(side)]
    starts, goals = rng.sample(cells, count), rng.sample(cells, count)
    at = [{cell: text.new() for cell in cells} for _ in range(count)]
    for places, start in zip(at, starts):
        for cell, lit in places.items():
            text.clause(lit if cell == start else -lit)
    for _ in range(steps):
        after = [{cell: text.new() for cell in cells} for _ in range(count)]
        for before, places in zip(at, after):
            move(text, before, places)
        for cell in cells:
            at_most_one(text, [places[cell] for places in after])
            keep_from_swapping(text, cell, at, after)
        at = after
        text.cube(*[places[goal] for places, goal in zip(at, goals)])


def neighbours(cell):
    row, column = cell
    return [(row, column), (row - 1, column), (row + 1, column), (row, column - 1),
            (row, column + 1)]


def move(text, before, after):
    """A robot stands in one cell after the step, next to where it stood."""
    at_most_one(text, list(after.values()))
    for cell, lit in before.items():
        text.clause(-lit, *[after[near] for near in neighbours(cell) if near in after])


def keep_from_swapping(text, cell, at, after):
    row, column = cell
    for other in [(row + 1, column), (row, column + 1)]:
        for one, two in combinations(range(len(at)), 2):
            if other in at[one]:
                text.clause(-at[one][cell], -after[one][other], -at[two][other], -after[two][cell])
                text.clause(-at[one][other], -after[one][cell], -at[two][cell], -after[two][other])


def tiles(text, seed, rows, columns, moves, steps):
    """The sliding puzzle, mixed up by random moves: one tile moves into the gap at each step."""
    rng = Random(seed)
    cells = [(row, column) for row in range(rows) for column in range(columns)]
    goal = {cell: number for number, cell in enumerate(cells)}
    state = mixed_up(rng, goal, moves)
    numbers = range(len(cells))
    at = {(cell, number): text.new() for cell in cells for number in numbers}
    for (cell, number), lit in at.items():
        text.clause(lit if state[cell] == number else -lit)
    for _ in range(steps):
        after = {(cell, number): text.new() for cell in cells for number in numbers}
        for number in numbers:
            at_most_one(text, [after[cell, number] for cell in cells])
        for cell in cells:
            slide(text, at, after, cell, cells, numbers)
        at = after
        text.cube(*[at[cell, number] for cell, number in goal.items()])


def slide(text, at, after, gap, cells, numbers):
    """What holds where this cell is the gap (number 0): one neighbour's tile comes into it."""
    near = [cell for cell in neighbours(gap) if cell in cells and cell != gap]
    text.clause(-at[gap, 0], *[after[cell, 0] for cell in near])
    for cell in cells:
        for number in numbers[1:]:
            if cell in near:
                text.clause(-at[gap, 0], -after[cell, 0], -at[cell, number], after[gap, number])
                text.clause(-at[gap, 0], after[cell, 0], -at[cell, number], after[cell, number])
            elif cell != gap:
                text.clause(-at[gap, 0], -at[cell, number], after[cell, number])


def mixed_up(rng, goal, moves):
    state = dict(goal)
    gap, last = next(iter(goal)), None
    for _ in range(moves):
        near = [cell for cell in neighbours(gap) if cell in goal and cell not in (gap, last)]
        cell = rng.choice(near)
        state[gap], state[cell] = state[cell], 0
        gap, last = cell, gap
    return state
