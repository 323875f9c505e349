#!/usr/bin/env python3
"""The summaries of `tarmo --sum N` beside what the peers answer on the same texts.

    bench/sums.py            # the numbers 1 to 21
    bench/sums.py 7 100      # the numbers 7 and 100

Each text is drawn here anew, from the definition in docs/FORMATS.md. The peers are the drivers of
`make bench`. The status is 1 where a summary isn't what the text and a peer say, or where one
worker and eight write different bytes. The times are wall times with start and printing.
"""
import subprocess
import sys
import tempfile
import time

from programs import compile_program, peers, tarmo

MASK = 2**64 - 1
STRETCHES, CLAUSES, CUBES = 30, 16, 4


def draws(number):
    """Knuth's generator for MMIX: its upper 31 bits."""
    state = number
    while True:
        state = (state * 6364136223846793005 + 1442695040888963407) & MASK
        yield state >> 33


def drawn(draw):
    value = next(draw)
    variable = 1 + value % 100
    return -variable if value // 100 % 2 else variable


def line(literals):
    """Literals as a set, by variable, the positive one of two first."""
    ordered = sorted(set(literals), key=lambda literal: (abs(literal), literal < 0))
    return " ".join(map(str, [*ordered, 0]))


def text_of(number):
    """The lines of the text that a number stands for."""
    draw = draws(number)
    yield "p inccnf"
    for variable in range(101, 10101):
        yield line([-variable, variable + 1])
    for _ in range(STRETCHES):
        for _ in range(CLAUSES):
            yield line([drawn(draw) for _ in range(3)])
        for _ in range(CUBES):
            yield "a " + line([drawn(draw), drawn(draw), 101])


def run(command, **options):
    """What a program printed, and its seconds."""
    start = time.monotonic()
    done = subprocess.run(command, capture_output=True, text=True, timeout=300, **options)
    return done.stdout, time.monotonic() - start


def summary(number, satisfiable, unsatisfiable):
    jobs = STRETCHES * CUBES
    return "".join(f"{told}\n" for told in (
        f"sum {number}", f"clauses {10000 + STRETCHES * CLAUSES}", f"jobs {jobs}",
        f"satisfiable {satisfiable}", f"unsatisfiable {unsatisfiable}", "unknown 0",
        "cancelled 0", "nomemory 0", f"end {jobs}"))


def faults_of(number, program, others, folder):
    """What is wrong with the summaries of a number."""
    path = f"{folder}/{number}.icnf"
    with open(path, "w") as file:
        file.writelines(f"{told}\n" for told in text_of(number))
    alone, seconds = run([*program.command, "--sum", str(number), "--workers", "1"])
    eight, _ = run([*program.command, "--sum", str(number), "--workers", "8"])
    told = [f"tarmo {seconds:.3f} s"]
    if alone != eight:
        yield f"{number}: one worker and eight write different bytes"
    for peer in others:
        with open(path) as file:
            output, seconds = run(peer.command, stdin=file)
        heads = [head.split()[2] for head in output.splitlines() if head.startswith("j ")]
        counts = heads.count("SATISFIABLE"), heads.count("UNSATISFIABLE")
        told.append(f"{peer.name} {seconds:.3f} s")
        if sum(counts) != STRETCHES * CUBES or alone != summary(number, *counts):
            yield f"{number}: {peer.name} answers {counts[0]} and {counts[1]}, not so the summary"
    print(f"{number}: {', '.join(alone.split(chr(10))[3:5])}: {', '.join(told)}", flush=True)


def main():
    numbers = [int(word) for word in sys.argv[1:]] or list(range(1, 22))
    program = tarmo()
    if program is None or not all(map(compile_program, ("stopwatch", "check"))):
        sys.exit("the program or the drivers aren't built: see bench/measure.py")
    others = [peer for peer in peers() if peer.blocks]
    with tempfile.TemporaryDirectory() as folder:
        wrong = [fault for number in numbers
                 for fault in faults_of(number, program, others, folder)]
    print(*wrong, sep="\n")
    print(f"{len(numbers)} numbers beside {len(others)} peers, {len(wrong)} wrong")
    sys.exit(1 if wrong or not others else 0)


if __name__ == "__main__":
    main()
