#!/usr/bin/env python3
"""The traces of an output as LRAT files, for a checker that isn't this project's.

    lrat.py TEXT OUTPUT FOLDER    # OUTPUT is what tarmo --trace wrote for TEXT

For each refuted job N it writes FOLDER/N.cnf, the clauses before the job and each literal of its
part as a clause of its own, and FOLDER/N.lrat, which refutes them: the lines of the trace, and
where the part isn't empty one more that ends in the empty clause.
"""
import pathlib
import sys


def jobs_of(text):
    """For each job how many clauses stand before it; and all clauses."""
    counts, clauses, statement = [], [], []
    for line in text.splitlines()[1:]:
        if line.lstrip().startswith("c"):
            continue
        for token in line.split():
            if token != "0":
                statement.append(token)
                continue
            if statement[:1] == ["a"]:
                counts.append(len(clauses))
            else:
                clauses.append(statement)
            statement = []
    return counts, clauses


def blocks_of(output):
    """The part and the trace lines of each refuted job, by its number."""
    blocks, number = {}, 0
    for line in output.splitlines():
        kind, *tokens = line.split()
        if kind == "j":
            number = int(tokens[0])
        elif kind == "f":
            blocks[number] = (tokens[:-1], [])
        elif kind == "t":
            blocks[number][1].append(tokens)
    return blocks


def cut(tokens):
    """The literals and the hints of a trace line, behind its number."""
    end = tokens.index("0", 1)
    return tokens[1:end], [int(hint) for hint in tokens[end + 1:-1]]


def proof(count, part, lines):
    """The lines of an LRAT file, over `count` clauses and then the literals of the part."""
    units = list(range(count + 1, count + len(part) + 1))
    moved = [len(part) if number > count else 0 for number in range(count + len(lines) + 1)]
    last = count + len(part)
    for tokens in lines:
        literals, hints = cut(tokens)
        if not hints:  # a part of two opposite literals: they refute each other
            yield [last + 1, 0, *units, 0]
            return
        last += 1
        yield [last, *literals, 0, *(hint + moved[hint] for hint in hints), 0]
    if part:
        yield [last + 1, 0, *units, last, 0]


def main(text, output, folder):
    counts, clauses = jobs_of(pathlib.Path(text).read_text())
    folder = pathlib.Path(folder)
    folder.mkdir(exist_ok=True)
    for number, (part, lines) in blocks_of(pathlib.Path(output).read_text()).items():
        held = clauses[:counts[number - 1]] + [[literal] for literal in part]
        greatest = max((abs(int(token)) for clause in held for token in clause), default=0)
        with open(folder / f"{number}.cnf", "w") as file:
            print("p cnf", greatest, len(held), file=file)
            for clause in held:
                print(*clause, 0, file=file)
        with open(folder / f"{number}.lrat", "w") as file:
            for line in proof(counts[number - 1], part, lines):
                print(*line, file=file)


if __name__ == "__main__":
    if len(sys.argv) != 4:
        sys.exit(__doc__)
    main(*sys.argv[1:])
