"""Bounded model checking, one job a step, and comparisons of circuits, one job a bit."""
from texts import Circuit


def counter(text, width):
    """A counter with an enable input: can all bits be set by now? At the last step they can."""
    circuit = Circuit(text)
    state = circuit.zeros(width)
    for _ in range(2**width - 1):
        state = circuit.increment(state, text.new())
        text.cube(*state)


def fifo(text, depth, width, steps):
    """A queue as a ring and as a shift register: can their fronts or their counts differ?

    The depth is a power of two.
    """
    circuit = Circuit(text)
    places = range(depth)
    ring = [circuit.zeros(width) for _ in places]
    shifted = [circuit.zeros(width) for _ in places]
    bits = depth.bit_length()
    read, written = circuit.zeros(bits - 1), circuit.zeros(bits - 1)
    count = circuit.zeros(bits)
    filled = [circuit.true] + [-circuit.true] * depth  # one of them: so many places are filled
    for _ in range(steps):
        push, pop, word = text.new(), text.new(), circuit.input(width)
        pushed = circuit.both(push, -circuit.is_number(count, depth))
        popped = circuit.both(pop, -circuit.is_number(count, 0))
        front = [-circuit.true] * width
        for place in places:
            front = circuit.choose_word(circuit.is_number(read, place), ring[place], front)
        same = [circuit.equal(front, shifted[0])]
        same += [-circuit.differ(circuit.is_number(count, number), filled[number])
                 for number in range(1, depth + 1)]
        text.cube(circuit.both(-filled[0], -circuit.all_of(same)))
        for place in places:
            here = circuit.both(pushed, circuit.is_number(written, place))
            ring[place] = circuit.choose_word(here, word, ring[place])
        read, written = circuit.increment(read, popped), circuit.increment(written, pushed)
        up, down = circuit.both(pushed, -popped), circuit.both(popped, -pushed)
        count = circuit.sum(circuit.increment(count, up), [down] * bits)
        shifted, filled = shift_queue(circuit, shifted, filled, push, pop, word)


def shift_queue(circuit, shifted, filled, push, pop, word):
    """The shift register and its one-hot count after a step."""
    depth = len(shifted)
    push, pop = circuit.both(push, -filled[depth]), circuit.both(pop, -filled[0])
    after = []
    for place in range(depth):
        behind = shifted[place + 1] if place + 1 < depth else shifted[place]
        moved = circuit.choose_word(pop, behind, shifted[place])
        free = circuit.choose(pop, filled[place + 1], filled[place])
        after.append(circuit.choose_word(circuit.both(push, free), word, moved))
    up, down = circuit.both(push, -pop), circuit.both(pop, -push)
    counts = []
    for count, here in enumerate(filled):
        below = filled[count - 1] if count > 0 else -circuit.true
        above = filled[count + 1] if count < depth else -circuit.true
        stays = circuit.choose(down, above, here)
        counts.append(circuit.choose(up, below, stays))
    return after, counts


def arbiter(text, clients, steps):
    """A round-robin arbiter whose token starts anywhere: can client 1 wait for so many steps?

    It can wait for one step less than there are clients, and no longer.
    """
    circuit = Circuit(text)
    token = circuit.input(clients)
    text.clause(*token)
    for one in range(clients):
        for other in range(one):
            text.clause(-token[one], -token[other])
    waits = []
    for _ in range(steps):
        requests = circuit.input(clients)
        grants = [round_robin(circuit, token, requests, client) for client in range(clients)]
        granted = circuit.any_of(grants)
        token = [circuit.choose(granted, grants[client - 1], token[client])
                 for client in range(clients)]
        waits.append((requests[0], -grants[0]))
        text.cube(*(lit for pair in waits[-clients:] for lit in pair))


def round_robin(circuit, token, requests, client):
    """Whether the client is the first from the token on that asks."""
    clients = len(token)
    reached = []
    for distance in range(clients):
        start = client - distance
        between = [-requests[(start + step) % clients] for step in range(distance)]
        reached.append(circuit.all_of([token[start % clients], *between]))
    return circuit.both(requests[client], circuit.any_of(reached))


# taps of shift registers of greatest period, counted from 1
TAPS = {8: [8, 6, 5, 4], 9: [9, 5], 10: [10, 7], 11: [11, 9], 12: [12, 6, 4, 1],
        13: [13, 4, 3, 1], 14: [14, 5, 3, 1], 15: [15, 14], 16: [16, 15, 13, 4],
        17: [17, 14], 18: [18, 11], 20: [20, 17], 24: [24, 23, 22, 17]}


def shift_register(text, width, steps):
    """A feedback shift register with any start but zero: can it be back after so many steps?"""
    circuit = Circuit(text)
    start = circuit.input(width)
    text.clause(*start)
    state = start
    for _ in range(steps):
        fed = -circuit.true
        for tap in TAPS[width]:
            fed = circuit.differ(fed, state[tap - 1])
        state = [fed, *state[:-1]]
        text.cube(circuit.equal(state, start))


def adders(text, width):
    """(a + b) + c beside a + (b + c): can this bit differ?"""
    circuit = Circuit(text)
    one, two, three = (circuit.input(width) for _ in range(3))
    left = circuit.sum(circuit.sum(one, two), three)
    right = circuit.sum(one, circuit.sum(two, three))
    for pair in zip(left, right):
        text.cube(circuit.differ(*pair))


def multipliers(text, width):
    """a * b beside b * a: can this bit of the low half differ?"""
    circuit = Circuit(text)
    one, other = circuit.input(width), circuit.input(width)
    for pair in zip(circuit.product(one, other), circuit.product(other, one)):
        text.cube(circuit.differ(*pair))


def multipliers_under_cubes(text, width, places):
    """The same with one job for each value of the first bits of a: can any bit differ?"""
    circuit = Circuit(text)
    one, other = circuit.input(width), circuit.input(width)
    pairs = zip(circuit.product(one, other), circuit.product(other, one))
    text.clause(*[circuit.differ(*pair) for pair in pairs])
    for value in range(2**places):
        text.cube(*[bit if value >> place & 1 else -bit
                    for place, bit in enumerate(one[:places])])
