#!/usr/bin/env python3
"""The cubes of a text shared out among processes, on this machine or on others.

Each part has all clauses of the text and every n-th of its cubes, so no part needs another.

    side_by_side.py cut TEXT N            writes TEXT.1 to TEXT.N
    side_by_side.py join OUTPUT ..        joins the outputs of the parts, in the order of the jobs
    side_by_side.py run TEXT N PROGRAM [WORD ..]      does both, with N processes here
"""
import subprocess
import sys
from concurrent.futures import ThreadPoolExecutor


def statements(text):
    """The statements of a text without wrong place, one by one, as lists of tokens."""
    statement, seen_header = [], False
    for line in text.splitlines():
        words = line.split()
        if not words or words[0].startswith("c"):
            continue
        if not seen_header:
            seen_header = True
            continue
        for word in words:
            statement.append(word)
            if word == "0":
                yield statement
                statement = []


def cut(text, count):
    parts = [["p inccnf"] for _ in range(count)]
    cubes = 0
    for statement in statements(text):
        if statement[0] == "a":
            parts[cubes % count].append(" ".join(statement))
            cubes += 1
        else:
            for part in parts:
                part.append(" ".join(statement))
    return ["\n".join(part) + "\n" for part in parts]


def blocks(output):
    """The blocks of an output without their numbers, and its last line."""
    found = []
    for line in output.splitlines():
        if line.startswith("j "):
            found.append([line.split()[2]])
        elif line[:2] in ("v ", "f ", "t "):
            found[-1].append(line)
        else:
            return found, line
    return found, "no last line"


def join(outputs):
    parts = [blocks(output) for output in outputs]
    for part, (found, last) in enumerate(parts, start=1):
        if last != f"end {len(found)}":
            sys.exit(f"part {part} ends with {last}")
    total = sum(len(found) for found, _ in parts)
    for job in range(total):
        verdict, *lines = parts[job % len(parts)][0][job // len(parts)]
        print(f"j {job + 1} {verdict}", *lines, sep="\n")
    print(f"end {total}")


def read(name):
    with open(name) as text:
        return text.read()


match sys.argv[1:]:
    case ["cut", text, count]:
        for number, part in enumerate(cut(read(text), int(count)), start=1):
            with open(f"{text}.{number}", "w") as out:
                out.write(part)
    case ["join", *names] if names:
        join([read(name) for name in names])
    case ["run", text, count, *program] if program:

        def solve(part):
            return subprocess.run(program, input=part, capture_output=True, text=True).stdout

        parts = cut(read(text), int(count))
        with ThreadPoolExecutor(len(parts)) as pool:
            join(list(pool.map(solve, parts)))
    case _:
        sys.exit(__doc__)
