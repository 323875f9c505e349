#!/usr/bin/env python3
"""What more workers bring: wall times of the built program with 1, 2 and 4 of them.

    bench/workers.py            # 32 cubes of one hard formula, and 10,000 small jobs
    bench/workers.py FILE       # another text; TARMO=PATH measures that program instead

The median of five runs each, and how many times as fast as one worker. All outputs have to have the
same verdicts. Ratios are within one run, and want as many free processors as there are workers.
"""
import statistics
import subprocess
import sys
import tempfile
import time

from families import KINDS
from programs import tarmo
from texts import Text

WORKERS = (1, 2, 4)
RUNS = 5

# Kinds of texts with the place of the size that is taken, and of how many jobs.
TEXTS = [("3-SAT, 32 cubes", 1), ("3-SAT, 32 cubes", 2), ("multipliers, 32 cubes", 1),
         ("ternary", 0)]


def write(name, place, path):
    kind = [kind for kind in KINDS if kind.name == name][-1]
    with open(path, "w") as file:
        kind.write(Text(file), *kind.sizes[place])
    return f"{kind.family}, {name}, {kind.sizes[place]}"


def run(program, workers, path):
    """The wall time of a run, and the first lines of its blocks."""
    start = time.monotonic()
    with open(path) as file:
        done = subprocess.run([*program.command, "--workers", str(workers)], stdin=file,
                              capture_output=True, text=True, check=True)
    seconds = time.monotonic() - start
    return seconds, [line for line in done.stdout.splitlines() if line[0] in "je"]


def measure(program, title, path):
    """Prints a line for the text; whether all verdicts agree."""
    verdicts, medians = [], []
    for workers in WORKERS:
        runs = [run(program, workers, path) for _ in range(RUNS)]
        verdicts += [told for _, told in runs]
        medians.append(statistics.median(seconds for seconds, _ in runs))
    shown = ", ".join(f"{workers}: {seconds:.3f} s ({medians[0] / seconds:.2f})"
                      for workers, seconds in zip(WORKERS, medians))
    print(f"{title}: {shown}", flush=True)
    return all(told == verdicts[0] for told in verdicts)


def main():
    program = tarmo()
    if program is None:
        sys.exit("the program isn't built; `make run` builds it")
    agree = True
    with tempfile.TemporaryDirectory() as folder:
        for name, place in TEXTS if not sys.argv[1:] else []:
            path = f"{folder}/text.icnf"
            title = write(name, place, path)
            agree = measure(program, title, path) and agree
        for path in sys.argv[1:]:
            agree = measure(program, path, path) and agree
    print("all verdicts agree" if agree else "VERDICTS DIFFER")
    return 0 if agree else 1


if __name__ == "__main__":
    sys.exit(main())
