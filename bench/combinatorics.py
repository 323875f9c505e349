"""Random clauses, pigeons, parity, and streams of tiny jobs."""
from collections import Counter
from itertools import combinations
from random import Random


def random_lits(rng, variables, size):
    return [rng.choice([-name, name]) for name in rng.sample(range(1, variables + 1), size)]


def random_ternary(text, seed, variables, ratio):
    """Random 3-SAT, one job; near the ratio 4.26 about half of the texts have a model."""
    rng = Random(seed)
    for _ in range(round(ratio * variables)):
        text.clause(*random_lits(rng, variables, 3))
    text.cube()


def growing_ternary(text, seed, variables, first, last, jobs):
    """Random 3-SAT whose ratio grows from job to job; each cube has two literals."""
    rng = Random(seed)
    for job in range(1, jobs + 1):
        while text.clauses < variables * (first + (last - first) * job / jobs):
            text.clause(*random_lits(rng, variables, 3))
        text.cube(*random_lits(rng, variables, 2))


def ternary_under_cubes(text, seed, variables, ratio, places):
    """Random 3-SAT with one job for each value of the variables that stand most often."""
    rng = Random(seed)
    often = Counter()
    for _ in range(round(ratio * variables)):
        lits = random_lits(rng, variables, 3)
        often.update(map(abs, lits))
        text.clause(*lits)
    split = [name for name, _ in often.most_common(places)]
    for value in range(2**places):
        text.cube(*[name if value >> place & 1 else -name for place, name in enumerate(split)])


def pigeonhole(text, holes):
    """One pigeon more than holes."""
    places = [text.several(holes) for _ in range(holes + 1)]
    for pigeon in places:
        text.clause(*pigeon)
    for hole in zip(*places):
        for one, other in combinations(hole, 2):
            text.clause(-one, -other)
    text.cube()


def parity(text, seed, inputs):
    """The parity of the same inputs, summed up in two orders: each pair of answers is asked for."""
    names = text.several(inputs)
    order = names[:]
    Random(seed).shuffle(order)
    one, other = parity_chain(text, names), parity_chain(text, order)
    text.cube(one, -other)
    text.cube(one, other)
    text.cube(-one, other)
    text.cube(-one, -other)


def parity_chain(text, names):
    total = names[0]
    for name in names[1:]:
        total, before = text.new(), total
        text.clause(-total, before, name)
        text.clause(-total, -before, -name)
        text.clause(total, -before, name)
        text.clause(total, before, -name)
    return total


def large_ternary(text, seed, clauses, ratio):
    """Random ternary clauses so few for each variable that unit propagation finds a model."""
    rng = Random(seed)
    variables = round(clauses / ratio)
    for _ in range(clauses):
        # repeats within a clause are rare and do no harm
        text.clause(*[rng.choice((-1, 1)) * rng.randint(1, variables) for _ in range(3)])
    for _ in range(3):
        text.cube(*random_lits(rng, variables, 3))


def large_layers(text, seed, clauses):
    """Layers of random gates, as a circuit has them, with an output asked for both ways."""
    rng = Random(seed)
    width = 1000
    layer = text.several(width)
    while text.clauses < clauses:
        gates = []
        for _ in range(width):
            one, other = (rng.choice((-1, 1)) * lit for lit in rng.sample(layer, 2))
            gate = text.new()
            text.clause(-gate, one)
            text.clause(-gate, other)
            text.clause(gate, -one, -other)
            gates.append(-gate if rng.random() < 0.5 else gate)
        layer = gates
    for lit in rng.sample(layer, 3):
        text.cube(lit)
        text.cube(-lit)


def tiny_jobs(text, seed, jobs, variables):
    """One or two ternary clauses a job, true in a hidden model, and a cube of three literals.

    Every other cube is taken from the hidden model.
    """
    rng = Random(seed)
    hidden = [0] + [rng.choice((-1, 1)) for _ in range(variables)]
    for job in range(jobs):
        for _ in range(1 + job % 2):
            lits = random_lits(rng, variables, 3)
            if not any(lit * hidden[abs(lit)] > 0 for lit in lits):
                lits[0] = -lits[0]
            text.clause(*lits)
        names = rng.sample(range(1, variables + 1), 3)
        if job % 2:
            text.cube(*[name * hidden[name] for name in names])
        else:
            text.cube(*[name * rng.choice((-1, 1)) for name in names])


def chains_and_stretches(text, seed, chain, stretches):
    """A chain of implications behind 100 variables, and stretches of clauses with four cubes each.

    Each cube starts the chain. Numbers are drawn by a linear congruential generator.
    """
    state = seed

    def drawn():
        nonlocal state
        state = (state * 6364136223846793005 + 1442695040888963407) % 2**64
        value = state >> 33
        return -(1 + value % 100) if value // 100 % 2 else 1 + value % 100

    for name in range(101, 101 + chain):
        text.clause(-name, name + 1)
    for _ in range(stretches):
        for _ in range(16):
            text.clause(*in_order({drawn() for _ in range(3)}))
        for _ in range(4):
            text.cube(*in_order({drawn(), drawn(), 101}))


def in_order(lits):
    """Sorted by variable, and of one variable the positive literal first."""
    return sorted(lits, key=lambda lit: (abs(lit), lit < 0))
