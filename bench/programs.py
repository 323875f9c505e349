"""The programs that are measured: the built one, and drivers over the libraries of its peers."""
import os
import re
import shutil
import subprocess
from collections import namedtuple
from pathlib import Path

TOP = Path(__file__).resolve().parents[1]
SOURCES = TOP / "bench/drivers"
BUILT = TOP / "bench/out"
TARMO = TOP / "crates/tarmo_program/out/tarmo_program"
COUNTS = TOP / "crates/tarmo_bench/out/tarmo_bench"

# A peer's library, with the Debian package that has it and its headers.
PACKAGES = {"minisat": "minisat", "cadical": "libcadical-dev", "picosat": "picosat"}
READER = "cadical alone"
INSTALL = "apt-get install g++ minisat cadical libcadical-dev picosat python3-matplotlib"

# What a program tells of its work, as patterns over what it printed besides blocks.
TOLD = {
    "minisat": {"conflicts": r"^conflicts (\d+)", "propagations": r"^propagations (\d+)"},
    "cadical": {"conflicts": r"^c conflicts: +(\d+)", "propagations": r"^c propagations: +(\d+)"},
    "picosat": {"conflicts": r"^c (\d+) conflicts", "propagations": r"^c (\d+) propagations"},
    "tarmo": {"conflicts": r"\bconflicts:? +(\d+)", "propagations": r"\bpropagations:? +(\d+)"},
}

# A program reads a text on standard input. The one that tells verdicts alone has no blocks: it
# stops at the first model, so its texts have their cubes at the end and at most the last has one.
Program = namedtuple("Program", "name command blocks")


def compile_program(name, *libraries):
    """Compiles a program of bench/drivers where its sources are newer; whether it is there."""
    target, source = BUILT / name, SOURCES / f"{name}.cpp"
    newest = max(file.stat().st_mtime for file in (source, SOURCES / "icnf.hpp"))
    if target.exists() and target.stat().st_mtime > newest:
        return True
    BUILT.mkdir(exist_ok=True)
    command = ["g++", "-std=c++17", "-O2", "-o", target, source, *libraries]
    try:
        done = subprocess.run(command, capture_output=True, text=True)
    except FileNotFoundError:
        return False
    return done.returncode == 0


def peers():
    """The drivers that could be built, and CaDiCaL's own reader of incremental texts."""
    found = []
    for name, package in PACKAGES.items():
        if compile_program(name, f"-l{name}"):
            found.append(Program(name, [str(BUILT / name)], True))
        else:
            print(f"{name}: not installed (Debian's package {package}), skipped")
    if shutil.which("cadical"):
        found.append(Program(READER, ["cadical"], False))
    else:
        print("the program cadical: not installed (Debian's package cadical), skipped")
    return found


def tarmo():
    """The built program, or the one that TARMO names; None where there is none."""
    command = os.environ.get("TARMO", str(TARMO))
    return Program("tarmo", [command], True) if shutil.which(command) else None


def counts():
    """The built program that measures parts, or the one that COUNTS names; None for none."""
    command = os.environ.get("COUNTS", str(COUNTS))
    return command if shutil.which(command) else None


def told(name, messages):
    """The counts that a program printed, as far as it did."""
    counts = {}
    for count, pattern in TOLD.get(name.split()[0], {}).items():
        match = re.search(pattern, messages, re.MULTILINE)
        if match:
            counts[count] = int(match.group(1))
    return counts
