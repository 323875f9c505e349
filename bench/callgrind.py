#!/usr/bin/python3
"""Prints the twenty functions of the built program that take most instructions on a text.

    bench/callgrind.py FILE     # TARMO=PATH profiles that program instead of the built one

It needs valgrind (`apt-get install valgrind`), under which a program is about fifty times slower.
Instructions are those of a function itself, without the ones that it calls; a function that the
compiler put into its callers isn't seen.
"""
import os
import re
import shutil
import subprocess
import sys
import tempfile

from programs import TARMO

SHOWN = 20


def functions(report):
    """Instructions, their share and the name of each function, most first."""
    for line in report.splitlines():
        match = re.match(r" *([\d,]+) \(([ \d.]+)%\) +(.*)", line)
        if match and "PROGRAM TOTALS" not in line:
            name = re.sub(r" \[.*\]$", "", match.group(3)).partition(":")[2]
            yield match.group(1), match.group(2).strip(), name.replace("'2", " (recursive)")


def profiled(program, text, folder):
    """What callgrind counted, as callgrind_annotate lays it out."""
    out = os.path.join(folder, "callgrind.out")
    command = ["valgrind", "--tool=callgrind", f"--callgrind-out-file={out}", program]
    with open(text) as file:
        done = subprocess.run(command, stdin=file, stdout=subprocess.DEVNULL,
                              stderr=subprocess.PIPE, text=True)
    if done.returncode not in (0, 1, 2):
        sys.exit(f"{program}: status {done.returncode}\n{done.stderr}")
    annotate = ["callgrind_annotate", "--threshold=100", out]
    return subprocess.run(annotate, capture_output=True, text=True, check=True).stdout


def main():
    if len(sys.argv) != 2:
        sys.exit("one text is wanted: bench/callgrind.py FILE")
    program = os.environ.get("TARMO", str(TARMO))
    if not shutil.which(program):
        sys.exit(f"{program}: no such program; `make run` builds it")
    if not shutil.which("valgrind"):
        sys.exit("valgrind isn't installed: apt-get install valgrind")
    with tempfile.TemporaryDirectory() as folder:
        report = profiled(program, sys.argv[1], folder)
    total = re.search(r"([\d,]+) .*PROGRAM TOTALS", report)
    print(f"{total.group(1) if total else '?':>18}  instructions in all")
    for count, share, name in list(functions(report))[:SHOWN]:
        print(f"{count:>18} {share:>6}%  {name}")


if __name__ == "__main__":
    main()
