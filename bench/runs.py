"""Running one program on one text, and checking what it answered."""
import hashlib
import subprocess
from collections import namedtuple

from programs import BUILT, COUNTS, told

MEMORY = 4  # GiB of addresses that a run may take, so that no run harms the machine
PATIENCE = 3  # a peer that checks parts has so many times the limit of a run

# seconds: the wall time; the limit where not all jobs were answered in it, or in the memory.
# first: the seconds to the first output, None where none came. peak: MiB. ended: whether all jobs
# were answered and nothing is wrong. verdicts: a letter a job, S, U or ?, as far as the output
# goes. wrong: what is wrong with it, empty where nothing is. unchecked: how many parts no peer
# refuted in its time.
Run = namedtuple("Run", "seconds first processor peak ended verdicts counts wrong unchecked")

# What the stopwatch told: how the run ended ("exit", "signal", "limit") and with which number.
Watched = namedtuple("Watched", "how code wall first processor peak")

# whole: whether the output has its last line.
Judged = namedtuple("Judged", "verdicts whole wrong unchecked")


class Runner:
    """Runs programs on the text of one folder, `text.icnf`, which is written before."""

    def __init__(self, folder, limit, peers):
        self.text = folder / "text.icnf"
        self._folder, self._limit = folder, limit
        self._peers = [peer for peer in peers if peer.blocks]
        self.forget()

    def forget(self):
        """Another text comes: what was judged and how long it took says nothing of it."""
        self._judged = {}
        self._pace = {peer.name: 1 for peer in self._peers}  # seconds, a guess before the first run

    def run(self, program):
        watched = self._watch(program, self.text, "output", self._limit)
        self._pace[program.name] = watched.wall
        output = self._folder / "output"
        if program.blocks:
            judged = self._judge_once(program, output)
            messages = self._folder / "output.messages"
        else:
            judged = judged_alone(output)
            messages = output
        wrong = judged.wrong or fault(program, watched, judged.whole)
        ended = watched.how == "exit" and not wrong and "?" not in judged.verdicts
        return Run(seconds=watched.wall if ended else self._limit,
                   first=watched.first if watched.first >= 0 else None,
                   processor=watched.processor, peak=watched.peak / 1024, ended=ended,
                   verdicts=judged.verdicts,
                   counts=told(program.name, messages.read_text(errors="replace")),
                   wrong=wrong, unchecked=judged.unchecked)

    def tarmo_counts(self):
        """What `tarmo_bench solver` tells of the text, where there is such a program.

        It is asked for lines as `conflicts 12` and `propagations 345`.
        """
        if not COUNTS.exists():
            return {}
        with open(self.text) as file:
            try:
                done = subprocess.run([COUNTS, "solver"], stdin=file, capture_output=True,
                                      text=True, timeout=self._limit)
            except subprocess.TimeoutExpired:
                return {}
        return told("tarmo", done.stdout)

    def _watch(self, program, text, output, limit):
        command = [BUILT / "stopwatch", str(limit), str(MEMORY), self._folder / output,
                   self._folder / f"{output}.messages", *program.command]
        with open(text) as file:
            done = subprocess.run(command, stdin=file, capture_output=True, text=True, check=True)
        how, code, *numbers = done.stdout.split()
        return Watched(how, int(code), *map(float, numbers))

    def _judge_once(self, program, output):
        """An output that a program wrote before isn't judged again."""
        with open(output, "rb") as file:
            key = program.name, hashlib.file_digest(file, "sha256").digest()
        if key not in self._judged:
            self._judged[key] = self._judge(program, output)
        return self._judged[key]

    def _judge(self, program, output):
        parts = self._folder / "parts.icnf"
        command = [BUILT / "check", self.text, output, parts]
        lines = subprocess.run(command, capture_output=True, text=True).stdout.splitlines()
        found = dict(line.partition(" ")[::2] for line in lines)
        if "verdicts" not in found:
            return Judged("", False, "the check failed", 0)
        verdicts, whole = found["verdicts"], found["ended"] == "yes"
        wrong, unchecked = found.get("wrong", ""), 0
        if not wrong and "U" in verdicts:
            wrong, unchecked = self._check_parts(program, parts, verdicts.count("U"))
        return Judged(verdicts, whole, wrong, unchecked)

    def _check_parts(self, program, parts, refuted):
        """The fastest peer other than the program has to refute each part."""
        others = [peer for peer in self._peers if peer.name != program.name]
        if not others:
            return "", refuted
        peer = min(others, key=lambda other: self._pace[other.name])
        self._watch(peer, parts, "checked", PATIENCE * self._limit)
        with open(self._folder / "checked") as lines:
            heads = [line.split() for line in lines if line.startswith("j ")]
        if any(head[-1] == "SATISFIABLE" for head in heads):
            return f"{peer.name} finds a model of a part that is told to be refuted", 0
        return "", refuted - len(heads)


def judged_alone(output):
    """The verdicts of a program that tells them in its messages."""
    with open(output, errors="replace") as file:
        lines = file.readlines()
    cubes = [line.split()[3] for line in lines if line.startswith("c CUBE")]
    verdicts = "".join("U" if cube == "UNSATISFIABLE" else "S" for cube in cubes)
    return Judged(verdicts, any(line.startswith("s ") for line in lines), "", 0)


def fault(program, watched, whole):
    """An end that is neither an answer nor want of time or memory."""
    if watched.how == "limit":
        return ""
    if watched.how == "signal" and watched.code == 6 and program.name != "tarmo":
        return ""  # how a peer ends that finds no memory
    if watched.how == "signal" or watched.code not in ((0, 1, 6) if program.blocks else (10, 20)):
        return f"{watched.how} {watched.code}"
    return "" if whole or watched.code == 6 else "the last line is missing"
