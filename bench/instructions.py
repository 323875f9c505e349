#!/usr/bin/env python3
"""How many instructions the built program takes for each literal that propagation forces.

    bench/instructions.py           # three texts of the bench, and the one of `--sum 1`
    bench/instructions.py FILE      # another text; TARMO=PATH measures that program instead

Beside it MiniSat on the same text, by its driver. Instructions are those of the whole run, counted
by valgrind's callgrind (`apt-get install valgrind`), under which a program is about fifty times
slower; so they say the same whatever else the machine does. Conflicts and propagations of Tarmo are
those that `tarmo_bench solver` counts (COUNTS=PATH names another one); MiniSat counts its decisions
as propagations too.
"""
import re
import shutil
import subprocess
import sys
import tempfile

import programs
from families import KINDS
from sums import text_of
from texts import Text

# Kinds of texts, with the place of the size that is taken.
TEXTS = [("without", 1), ("counter", 1), ("multipliers", 0)]


def write_all(folder):
    """The texts of the bench, each with a title."""
    for name, place in TEXTS:
        kind = next(kind for kind in KINDS if kind.name == name)
        path = f"{folder}/{name}.icnf"
        with open(path, "w") as file:
            kind.write(Text(file), *kind.sizes[place])
        yield f"{kind.family}, {name}, {kind.sizes[place]}", path
    path = f"{folder}/sum.icnf"
    with open(path, "w") as file:
        file.writelines(f"{line}\n" for line in text_of(1))
    yield "the text of --sum 1", path


def instructions(command, path):
    """What callgrind counts, and what the program says beside its blocks."""
    with tempfile.TemporaryDirectory() as folder, open(path) as file:
        done = subprocess.run(["valgrind", "--tool=callgrind",
                               f"--callgrind-out-file={folder}/out", *command], stdin=file,
                              stdout=subprocess.DEVNULL, stderr=subprocess.PIPE, text=True)
    return int(re.search(r"Collected : (\d+)", done.stderr).group(1)), done.stderr


def counts_of_tarmo(path):
    with open(path) as file:
        done = subprocess.run([programs.counts(), "solver"], stdin=file, capture_output=True, text=True)
    return programs.told("tarmo", done.stdout)


def show(name, count, counts):
    each = count / counts["propagations"]
    print(f"  {name}: {count / 1e6:,.0f} million instructions, {counts['conflicts']:,} conflicts, "
          f"{counts['propagations']:,} propagations: {each:.0f} each", flush=True)


def main():
    program = programs.tarmo()
    if None in (program, programs.counts(), shutil.which("valgrind")):
        sys.exit("a program isn't built, or valgrind isn't installed")
    minisat = programs.compile_program("minisat", "-lminisat")
    with tempfile.TemporaryDirectory() as folder:
        texts = [(path, path) for path in sys.argv[1:]] or write_all(folder)
        for title, path in texts:
            print(title)
            count, _ = instructions([*program.command, "--workers", "1"], path)
            show("tarmo", count, counts_of_tarmo(path))
            if minisat:
                count, messages = instructions([str(programs.BUILT / "minisat")], path)
                show("minisat", count, programs.told("minisat", messages))


if __name__ == "__main__":
    main()
