#!/usr/bin/env python3
"""What three layouts of watch lists cost in one small solver: bench/drivers/layouts.cpp.

    bench/layouts.py            # the texts of medium size of all families
    bench/layouts.py small      # those of another size

For each text the seconds within propagation and the nanoseconds a propagated literal, of each
layout; at the end geometric means of the ratios to the first. The searches differ a little, since a
layout decides in which order clauses are found.
"""
import math
import re
import subprocess
import sys
import tempfile

from families import KINDS, SIZES
from programs import BUILT, compile_program
from texts import Text

LAYOUTS = ("links", "blockers", "vectors")
LIMIT = 60


def measured(layout, text):
    """Seconds in propagation and propagated literals, None where the time was over."""
    with open(text) as file:
        try:
            done = subprocess.run([BUILT / "layouts", layout], stdin=file, timeout=LIMIT,
                                  capture_output=True, text=True, check=True)
        except subprocess.TimeoutExpired:
            return None
    told = dict(re.findall(r"^(\w+) ([\d.]+)$", done.stderr, re.MULTILINE))
    heads = re.findall(r"^j .*$", done.stdout, re.MULTILINE)
    return float(told["propagating"]), int(told["propagations"]), heads


def main():
    size = SIZES.index(sys.argv[1] if len(sys.argv) > 1 else "medium")
    if not compile_program("layouts"):
        sys.exit("bench/drivers/layouts.cpp can't be compiled")
    ratios, wrong = {layout: [] for layout in LAYOUTS}, False
    with tempfile.TemporaryDirectory() as folder:
        for kind in KINDS:
            path = f"{folder}/text.icnf"
            with open(path, "w") as file:
                kind.write(Text(file), *kind.sizes[size])
            found = [measured(layout, path) for layout in LAYOUTS]
            title = f"{kind.family}, {kind.name}"
            if None in found:
                print(f"{title:<44} not ended")
                continue
            wrong = wrong or any(one[2] != found[0][2] for one in found)
            paces = [1e9 * seconds / max(count, 1) for seconds, count, _ in found]
            print(f"{title:<44}", *(f"{one[0]:8.3f} s {pace:7.1f} ns"
                                    for one, pace in zip(found, paces)), flush=True)
            if found[0][0] > 0.01:
                for layout, pace in zip(LAYOUTS, paces):
                    ratios[layout].append(math.log(pace / paces[0]))
    for layout, all_of_it in ratios.items():
        if all_of_it:
            print(f"{layout}: {math.exp(sum(all_of_it) / len(all_of_it)):.2f} of the time a literal"
                  f" that links take, over {len(all_of_it)} texts")
    sys.exit("verdicts differ" if wrong else 0)


if __name__ == "__main__":
    main()
