#!/usr/bin/env python3
"""How long a question through a pipe takes: a clause, a cube, a flush, and the block is read.

    bench/dialogue.py           # 1,000 questions, by 1, 2, 4 and 8 workers
    bench/dialogue.py 10000

Each question has one implication of a chain of ten variables and asks for a model with the last one
false, so that all are once the chain is there. The median of nine runs, in microseconds a question,
beside `cat` behind the same pipe, which answers each line with itself; the run on one thread, where
`tarmo_bench` is built; and the same text read as a whole by one worker. The status is 1 where an
answer is wrong. TARMO=PATH and COUNTS=PATH name other programs than the built ones.
"""
import statistics
import subprocess
import sys
import time

from programs import counts, tarmo

WORKERS = (1, 2, 4, 8)
RUNS = 9
VARIABLES = 10


def question(job):
    """The clause and the cube of a job."""
    variable = 1 + (job - 1) % (VARIABLES - 1)
    return b"%d %d 0\na %d 0\n" % (-variable, variable + 1, -VARIABLES)


def is_right(lines, job):
    """Whether a block has a model of all variables, each false once the whole chain is there."""
    values = lines[1].split()[1:-1]
    return lines[0] == b"j %d SATISFIABLE\n" % job and len(values) == VARIABLES \
        and (job < VARIABLES - 1 or all(value.startswith(b"-") for value in values))


def ask_all(command, head, count, lines):
    """Seconds that a program behind two pipes takes for all questions, and its answers."""
    with subprocess.Popen(command, stdin=subprocess.PIPE, stdout=subprocess.PIPE) as running:
        answers = []
        start = time.monotonic()
        running.stdin.write(head)
        for job in range(1, count + 1):
            running.stdin.write(question(job))
            running.stdin.flush()
            answers.append([running.stdout.readline() for _ in range(lines)])
        seconds = time.monotonic() - start
        running.stdin.close()
        running.stdout.read()
    return seconds, answers


def whole(command, count):
    """Seconds that a program takes for the same text as a whole."""
    text = b"p inccnf\n" + b"".join(question(job) for job in range(1, count + 1))
    start = time.monotonic()
    subprocess.run(command, input=text, stdout=subprocess.DEVNULL, check=True)
    return time.monotonic() - start


def shown(name, seconds, count):
    print(f"{name}: {statistics.median(seconds) / count * 1e6:.1f} us a question", flush=True)


def main(count=1000):
    program = tarmo()
    if program is None:
        sys.exit("the program isn't built; `make run` builds it")
    commands = {f"{workers} worker" + "s" * (workers > 1):
                [*program.command, "--workers", str(workers)] for workers in WORKERS}
    if counts() is not None:
        commands["no threads"] = [counts(), "alone"]
    right = True
    shown("cat", [ask_all(["cat"], b"", count, 2)[0] for _ in range(RUNS)], count)
    for name, command in commands.items():
        times = []
        for _ in range(RUNS):
            seconds, answers = ask_all(command, b"p inccnf\n", count, 2)
            times.append(seconds)
            right = right and all(is_right(lines, job) for job, lines in enumerate(answers, 1))
        shown(name, times, count)
    command = [*program.command, "--workers", "1"]
    shown("the whole text, 1 worker", [whole(command, count) for _ in range(RUNS)], count)
    print("all answers are right" if right else "WRONG ANSWERS")
    return 0 if right else 1


if __name__ == "__main__":
    sys.exit(main(*map(int, sys.argv[1:])))
