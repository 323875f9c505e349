"""The texts that are measured: families of kinds, each kind in three sizes with fixed seeds."""
from collections import namedtuple

from combinatorics import (chains_and_stretches, growing_ternary, large_layers, large_ternary,
                           parity, pigeonhole, random_ternary, ternary_under_cubes, tiny_jobs)
from hardware import (adders, arbiter, counter, fifo, multipliers, multipliers_under_cubes,
                      shift_register)
from planning import robots, tiles

SIZES = ("small", "medium", "large")

# A family, the name of a kind of texts, what writes one, and its arguments for each of the sizes.
Kind = namedtuple("Kind", "family name write sizes")

CHAINS = "chains and stretches"
CHECKING = "bounded model checking"
RANDOM = "random 3-SAT"
COUNTING = "pigeons and parity"
CUBES = "cube and conquer"
LARGE = "large and easy"
STREAM = "streams of tiny jobs"
PLANNING = "planning"

KINDS = [
    # seed, implications, stretches of sixteen clauses and four cubes
    Kind(CHAINS, "chains", chains_and_stretches, [(1, 1000, 30), (1, 10000, 30), (1, 80000, 30)]),
    Kind(CHECKING, "counter", counter, [(5,), (7,), (8,)]),
    Kind(CHECKING, "fifo", fifo, [(2, 4, 8), (4, 2, 10), (4, 4, 12)]),
    Kind(CHECKING, "arbiter", arbiter, [(6, 20), (10, 24), (14, 30)]),
    Kind(CHECKING, "shift register", shift_register, [(9, 30), (10, 60), (10, 110)]),
    Kind(CHECKING, "adders", adders, [(12,), (96,), (256,)]),
    Kind(CHECKING, "multipliers", multipliers, [(5,), (6,), (7,)]),
    # seed, variables, ratio; of each pair of seeds one gives a text with a model
    Kind(RANDOM, "with a model", random_ternary, [(1, 110, 4.26), (1, 200, 4.26), (3, 250, 4.26)]),
    Kind(RANDOM, "without", random_ternary, [(1, 100, 4.26), (2, 200, 4.26), (2, 225, 4.26)]),
    Kind(RANDOM, "growing", growing_ternary,
         [(1, 100, 3.0, 4.4, 100), (1, 150, 3.0, 4.4, 100), (1, 175, 3.0, 4.4, 100)]),
    Kind(COUNTING, "pigeons", pigeonhole, [(6,), (7,), (8,)]),
    Kind(COUNTING, "parity", parity, [(1, 12), (1, 20), (1, 28)]),
    # seed, variables, ratio, variables of the cubes
    Kind(CUBES, "3-SAT, 32 cubes", ternary_under_cubes,
         [(1, 150, 4.5, 5), (1, 200, 4.5, 5), (1, 235, 4.5, 5)]),
    Kind(CUBES, "3-SAT, 64 cubes", ternary_under_cubes,
         [(2, 150, 4.5, 6), (2, 200, 4.5, 6), (2, 235, 4.5, 6)]),
    Kind(CUBES, "multipliers, 32 cubes", multipliers_under_cubes, [(6, 5), (7, 5), (8, 5)]),
    Kind(CUBES, "multipliers, 64 cubes", multipliers_under_cubes, [(6, 6), (7, 6), (8, 6)]),
    Kind(LARGE, "ternary", large_ternary,
         [(1, 100000, 2.5), (1, 300000, 2.5), (1, 1000000, 2.5)]),
    Kind(LARGE, "layers of gates", large_layers, [(1, 100000), (1, 300000), (1, 1000000)]),
    # seed, jobs, variables
    Kind(STREAM, "ternary", tiny_jobs, [(1, 10000, 100), (1, 30000, 100), (1, 100000, 100)]),
    Kind(STREAM, "ternary, 30 variables", tiny_jobs,
         [(2, 10000, 30), (2, 30000, 30), (2, 100000, 30)]),
    # seed, side of the grid, robots, steps
    Kind(PLANNING, "robots", robots, [(1, 5, 6, 12), (1, 6, 10, 14), (1, 8, 12, 16)]),
    # seed, rows, columns, moves that mix it up, steps
    Kind(PLANNING, "tiles", tiles, [(1, 3, 3, 12, 14), (1, 3, 3, 16, 18), (1, 3, 3, 20, 20)]),
]


def families():
    return list(dict.fromkeys(kind.family for kind in KINDS))
