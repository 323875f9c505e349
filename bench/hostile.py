#!/usr/bin/env python3
"""The built program where files, pipes and memory fail it.

    bench/hostile.py             # all cases
    bench/hostile.py memory      # those whose names have this word

A line for each case, with what came of it. The status is 1 where an output, a status or an end
isn't what docs/FORMATS.md says.
"""
import itertools
import os
import resource
import signal
import subprocess
import sys
import tempfile
import threading
from pathlib import Path

from families import KINDS, SIZES
from programs import BUILT, compile_program, peers, tarmo
from texts import Text

LIMIT = 120  # seconds for a run
MIB = 2**20
TEXT = "p inccnf\n1 0\na 0\n-1 0\na 0\n"
OUTPUT = "j 1 SATISFIABLE\nv 1 0\nj 2 UNSATISFIABLE\nf 0\nend 2\n"
HALF = "p inccnf\n1 0\na 0\n"
FIRST_BLOCK = "j 1 SATISFIABLE\nv 1 0\n"


class Wrong(Exception):
    """What isn't as it should be."""


def expect(what, found, wanted):
    if found != wanted:
        raise Wrong(f"{what} {found!r} in place of {wanted!r}")


class Cases:
    """Each method is a case and gives a sentence of what came of it, or raises `Wrong`."""

    def __init__(self, program, folder):
        self._command, self._folder = program.command, folder

    def _run(self, *words, **given):
        given = {"stdin": subprocess.DEVNULL, "stdout": subprocess.PIPE, **given}
        return subprocess.run([*self._command, *words], stderr=subprocess.PIPE, timeout=LIMIT,
                              **given)

    def _in_shell(self, script):
        """What a shell says of a pipeline in which $TARMO is the program."""
        environment = {**os.environ, "TARMO": self._command[0]}
        return subprocess.run(["bash", "-c", script], env=environment, cwd=self._folder,
                              capture_output=True, text=True, timeout=LIMIT)

    def _many_jobs(self):
        (self._folder / "jobs").write_text("p inccnf\n1 2 0\n" + "a 1 0\n" * 200_000)

    def pipe_closed_by_its_reader(self):
        self._many_jobs()
        done = self._in_shell('"$TARMO" < jobs | head -n 1; echo ${PIPESTATUS[0]}')
        first, status = done.stdout.split("\n")[:2]
        expect("the first line is", first, "j 1 SATISFIABLE")
        expect("the messages are", done.stderr, "")
        expect("the status is", int(status), 4)
        return "status 4"

    def pipe_closed_by_its_reader_where_signals_are_ignored(self):
        self._many_jobs()
        done = self._in_shell("trap '' PIPE; \"$TARMO\" < jobs | head -n 1; echo ${PIPESTATUS[0]}")
        expect("the status is", int(done.stdout.split("\n")[1]), 4)
        return "status 4"

    def output_closed_from_the_start(self):
        done = self._in_shell(f"printf '{TEXT}' | \"$TARMO\" >&-; echo $? > status")
        expect("the messages are", done.stderr, "")
        expect("the status is", (self._folder / "status").read_text(), "4\n")
        return "status 4"

    def output_closed_and_the_text_in_a_file(self):
        (self._folder / "text").write_text(TEXT)
        self._in_shell('"$TARMO" text >&-; echo $? > status')
        expect("the status is", (self._folder / "status").read_text(), "4\n")
        expect("the text is", (self._folder / "text").read_text(), TEXT)
        return "status 4, and the file is as it was"

    def output_to_a_full_device(self):
        with open("/dev/full", "wb") as full:
            done = self._run(input=TEXT.encode(), stdin=None, stdout=full)
        expect("the status is", done.returncode, 4)
        return "status 4"

    def input_closed_from_the_start(self):
        done = self._in_shell('"$TARMO" <&-; echo $?')
        expect("the output is", done.stdout, "fault read\n3\n")
        return "fault read, status 3"

    def input_from_a_directory(self):
        done = self._in_shell('"$TARMO" < .; echo $?; "$TARMO" .; echo $?')
        expect("the output is", done.stdout, "fault read\n3\n" * 2)
        return "fault read, status 3"

    def input_from_a_file_that_is_not_there(self):
        done = self._run(str(self._folder / "nothing"))
        expect("the end is", (done.stdout, done.returncode), (b"fault read\n", 3))
        return "fault read, status 3"

    def file_replaced_while_it_is_read(self):
        pipe = self._folder / "pipe"
        os.mkfifo(pipe)
        writer = threading.Thread(target=self._replace_between, args=(pipe,))
        writer.start()
        done = self._run(str(pipe))
        writer.join()
        expect("the end is", (done.stdout.decode(), done.returncode), (OUTPUT, 0))
        return "the output of the file that was opened"

    def _replace_between(self, pipe):
        with open(pipe, "w") as file:
            file.write(HALF)
            file.flush()
            (self._folder / "other").write_text("p inccnf\n")
            os.replace(self._folder / "other", pipe)
            file.write(TEXT[len(HALF):])

    def input_that_never_ends(self):
        """Blocks come while it goes on, and it ends at the limit of clauses."""
        done = self._in_shell(f"(printf '{HALF}'; yes '1 0') | \"$TARMO\"; echo ${{PIPESTATUS[1]}}")
        expect("the output is", done.stdout, FIRST_BLOCK + "refused 16777219 too-many\n2\n")
        return "refused behind 16,777,216 clauses"

    def ended_by_a_signal(self):
        """What was written before is whole blocks."""
        for number in (signal.SIGTERM, signal.SIGINT, signal.SIGKILL):
            with subprocess.Popen(self._command, stdin=subprocess.PIPE,
                                  stdout=subprocess.PIPE) as process:
                process.stdin.write(HALF.encode())
                process.stdin.flush()
                front = process.stdout.read(len(FIRST_BLOCK)).decode()
                process.send_signal(number)
                front += process.stdout.read().decode()
                expect("the front is", front, FIRST_BLOCK)
                expect("the end is", process.wait(LIMIT), -number)
        return "the first block, and the signal"

    def words_refused_with_messages_closed(self):
        done = self._in_shell('"$TARMO" --fast 2>&-; echo $?')
        expect("the output is", done.stdout, "5\n")
        return "status 5"

    def memory_of_texts(self):
        """All limits, all texts: a right output, or `memory` or NOMEMORY with status 6."""
        peer = next(peer for peer in peers() if peer.blocks)
        told = dict.fromkeys(["whole", "memory"], 0)
        for kind, size in itertools.product(KINDS, range(len(SIZES) - 1)):
            with open(self._folder / "text", "w") as file:
                kind.write(Text(file), *kind.sizes[size])
            verdicts = self._verdicts_of(peer)
            for mebibytes, workers in itertools.product((64, 128, 256, 512), (1, 4, 16)):
                told[self._limited(kind.name, mebibytes, workers, verdicts)] += 1
        return f"{told['whole']} whole outputs, {told['memory']} that tell of want of memory"

    def _verdicts_of(self, peer):
        with open(self._folder / "text") as text:
            done = subprocess.run(peer.command, stdin=text, capture_output=True, text=True)
        return [line.split()[2] for line in done.stdout.splitlines() if line.startswith("j ")]

    def _limited(self, name, mebibytes, workers, verdicts):
        """Runs the program on the text with so many addresses."""
        label = f"{name}, {mebibytes} MiB, {workers} workers:"
        with open(self._folder / "text") as text, open(self._folder / "output", "wb") as output:
            try:
                done = self._run("--workers", str(workers), stdin=text, stdout=output,
                                 preexec_fn=lambda: limit_addresses(mebibytes))
            except subprocess.TimeoutExpired:
                raise Wrong(f"{label} no end") from None
        lines = (self._folder / "output").read_text().splitlines()
        heads = [line.split()[2] for line in lines if line.startswith("j ")]
        if done.returncode not in (0, 6):
            raise Wrong(f"{label} status {done.returncode}, {done.stderr[:200]!r}")
        if done.returncode == 0 and lines[-1] != f"end {len(heads)}":
            raise Wrong(f"{label} last line {lines[-1]!r}")
        if done.returncode == 6 and lines[-1] != "memory" and "NOMEMORY" not in heads:
            raise Wrong(f"{label} status 6 without a cause")
        if any(one not in (other, "NOMEMORY") for one, other in zip(heads, verdicts)):
            raise Wrong(f"{label} other verdicts than those of a peer")
        self._check_blocks(label)
        return "whole" if done.returncode == 0 else "memory"

    def _check_blocks(self, label):
        checked = subprocess.run([BUILT / "check", self._folder / "text", self._folder / "output",
                                  self._folder / "parts"], capture_output=True, text=True)
        if "wrong" in checked.stdout:
            raise Wrong(f"{label} {checked.stdout.splitlines()[-1]}")


def limit_addresses(mebibytes):
    resource.setrlimit(resource.RLIMIT_AS, (mebibytes * MIB, mebibytes * MIB))


def main(word=""):
    program = tarmo()
    if program is None or not compile_program("check"):
        print("the program isn't built (make run), or there is no g++")
        return 2
    failed = False
    for name in [name for name in vars(Cases) if not name.startswith("_") and word in name]:
        with tempfile.TemporaryDirectory() as folder:
            try:
                print(f"ok     {name}: {getattr(Cases(program, Path(folder)), name)()}", flush=True)
            except (Wrong, subprocess.TimeoutExpired) as wrong:
                failed = True
                print(f"WRONG  {name}: {wrong}", flush=True)
    return 1 if failed else 0


if __name__ == "__main__":
    sys.exit(main(*sys.argv[1:]))
