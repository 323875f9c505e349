#!/usr/bin/env python3
"""Which share of its time a worker spends in holds of the board, waiting for them, and importing.

    bench/holds.py              # 32 cubes of one hard formula by 1, 2 and 4 workers
    bench/holds.py FILE         # another text; TARMO=PATH measures that program instead

It wants Linux, root, nm and readelf: the kernel notes when a thread enters and leaves a few
functions of the program (uprobes), which costs a microsecond or two each time. A hold lasts from
where the turn was got to where the board is back; waiting is the call that gets the turn. What is
left is the search itself, and sleep where no job is to take.
"""
import argparse
import collections
import os
import re
import subprocess
import sys
import tempfile
import time
from pathlib import Path

from families import KINDS
from programs import tarmo
from texts import Text

WORKERS = (1, 2, 4)
TEXT = "3-SAT, 32 cubes"
SIZES = (1, 2)  # the medium one, and the large one
TRACING = Path("/sys/kernel/tracing")
BUFFER = 65536  # KiB of events a processor

# The functions that are noted, by a name for each.
FUNCTIONS = {
    "slice": r"worker_loop::slices::slice(::<.*>)?",
    "enter": r"turn_lock::lock::TurnLock::enter(::<.*>)?",
    "leave": r"service::service::Service::put_back",
    "import": r"worker_loop::importing::import_waiting",
}
EVENT = re.compile(r"-(\d+) +\[\d+\] +\S+ +(\d+\.\d+): (begin|end)_(\w+):")


def offsets(program):
    """Where each function begins in the program's file."""
    symbols = subprocess.run(["nm", program], capture_output=True, text=True, check=True).stdout
    segments = subprocess.run(["readelf", "-lW", program], capture_output=True, text=True,
                              check=True).stdout
    loads = [tuple(int(word, 16) for word in found) for found in re.findall(
        r"LOAD +(0x\w+) (0x\w+) 0x\w+ (0x\w+)", segments)]
    for name, pattern in FUNCTIONS.items():
        found = re.search(rf"^(\w+) \w {pattern}$", symbols, re.MULTILINE)
        if found is None:
            sys.exit(f"the program has no function {pattern}")
        address = int(found.group(1), 16)
        yield name, next(address - start + offset for offset, start, size in loads
                         if start <= address < start + size)


def note(program):
    """Says to the kernel what is noted."""
    (TRACING / "uprobe_events").write_text("".join(
        f"{kind}:tarmo/{word}_{name} {program}:{offset:#x}\n" for name, offset in offsets(program)
        for kind, word in (("p", "begin"), ("r", "end"))))
    (TRACING / "trace_clock").write_text("mono")
    (TRACING / "buffer_size_kb").write_text(str(BUFFER))
    (TRACING / "events/tarmo/enable").write_text("1")


def forget():
    """Takes that back."""
    (TRACING / "events/tarmo/enable").write_text("0")
    (TRACING / "uprobe_events").write_text("")


def run(command, text):
    """The wall time of a run, and its events as thread, time, whether it is a begin, and name."""
    (TRACING / "trace").write_text("")
    start = time.monotonic()
    with open(text) as file:
        subprocess.run(command, stdin=file, stdout=subprocess.DEVNULL, check=True)
    seconds = time.monotonic() - start
    events = [(int(thread), float(at), word == "begin", name) for thread, at, word, name
              in EVENT.findall((TRACING / "trace").read_text())]
    return seconds, events


def shares(events):
    """The seconds of all workers together in each kind of time, and how often they held."""
    workers = {thread for thread, _, _, name in events if name == "slice"}
    total, holds, began = collections.Counter(), 0, {}
    for thread, at, begins, name in events:
        if thread not in workers or name == "slice":
            continue
        if begins:
            began.setdefault((thread, name), at)
        elif name == "enter":
            total["waiting for a hold"] += at - began.pop((thread, name))
            began[thread, "hold"] = at
        elif name == "leave":
            total["inside holds"] += at - began.pop((thread, "hold"), at)
            began.pop((thread, name), None)
            holds += 1
        else:
            total["importing"] += at - began.pop((thread, name))
    return total, holds


def written(folder, size):
    """A text that is measured where none is given, with its title."""
    kind = next(kind for kind in KINDS if kind.name == TEXT)
    path = folder / f"text{size}.icnf"
    with open(path, "w") as file:
        kind.write(Text(file), *kind.sizes[size])
    return f"{kind.name}, {kind.sizes[size]}", path


def main():
    parser = argparse.ArgumentParser(description=__doc__.splitlines()[0])
    parser.add_argument("file", type=Path, nargs="?")
    asked = parser.parse_args()
    program = tarmo()
    if program is None:
        sys.exit("no built program; `make run` builds it")
    if not (TRACING / "uprobe_events").exists() or not os.access(TRACING, os.W_OK):
        sys.exit(f"{TRACING} isn't there for this user: mount -t tracefs nodev {TRACING}, as root")
    note(Path(program.command[0]).resolve())
    try:
        with tempfile.TemporaryDirectory() as name:
            texts = [(asked.file.name, asked.file)] if asked.file else \
                [written(Path(name), size) for size in SIZES]
            for title, text in texts:
                for count in WORKERS:
                    seconds, events = run([*program.command, "--workers", str(count)], text)
                    total, holds = shares(events)
                    print(f"{title}, workers {count}: {seconds:.3f} s, {holds} holds, of a "
                          "worker's time", ", ".join(f"{kind} {part / seconds / count:.2%}"
                                                     for kind, part in total.items()), flush=True)
    finally:
        forget()
    print(f"load {os.getloadavg()[0]:.1f}, {os.cpu_count()} processors")


if __name__ == "__main__":
    main()
