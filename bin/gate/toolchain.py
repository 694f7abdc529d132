"""The repository, the toolchain's own command and readers, and one run of the prover with what it took.

bin/refuse and the scripts of bench/gate stand on it.
"""
import functools
import importlib.machinery
import importlib.util
import os
import re
import shutil
import subprocess
import sys
import time

sys.dont_write_bytecode = True
TOP = os.path.dirname(os.path.dirname(os.path.dirname(os.path.realpath(__file__))))
TICKS = os.sysconf("SC_CLK_TCK")


def load(name, file):
    loader = importlib.machinery.SourceFileLoader(name, file)
    made = importlib.util.module_from_spec(importlib.util.spec_from_loader(name, loader))
    sys.modules[name] = made
    loader.exec_module(made)
    return made


def command():
    """Returns the file of the toolchain's command rt, or says that it is missing."""
    found = shutil.which("rt")
    if not found:
        sys.exit("there is no 'rt', the command of Rattle's toolchain: install it, and put its folder bin on PATH")
    return os.path.realpath(found)


# The toolchain's readers: of a wrong body's file, of a crate's files and libraries, of the functions of a file.
gate = load("rt_command", command())
library = gate.rtlib
# What a check says that met a limit, as the toolchain's own gate knows it where it does.
LIMITS = getattr(gate, "LIMITS", re.compile("could not tell|limit"))
reader = load("rt_reader", f"{os.path.dirname(command())}/rt-plant-bodies")
# Some toolchains take the sum of a crate once for each path to it. Nobody changes sources while a tool runs.
library.Crate.stamp = functools.lru_cache(None)(library.Crate.stamp)


def version():
    """Returns the line by which the toolchain names itself."""
    return library.text_of(f"{library.KIT}/KIT-ID").strip()


def crate_of(name):
    return library.Crate(f"{TOP}/crates/{name}", TOP, {})


def crates():
    return sorted(it for it in os.listdir(f"{TOP}/crates") if os.path.isdir(f"{TOP}/crates/{it}/src"))


def processor_seconds(session):
    """Returns the seconds that the processes of a session took, with those that have ended."""
    total = 0
    for number in filter(str.isdigit, os.listdir("/proc")):
        try:
            with open(f"/proc/{number}/stat", encoding="utf-8", errors="replace") as it:
                fields = it.read().rpartition(")")[2].split()
        except OSError:
            continue
        if int(fields[3]) == session:
            total += sum(map(int, fields[11:15]))
    return total / TICKS


class Check:
    """One run of the prover: its status, its seconds by processor and by the clock, what it said, and (seconds, function) of each function."""

    def __init__(self, words, folder):
        before, started, last = os.times(), time.monotonic(), 0.0
        self.functions, self.said = [], []
        how = {"stdout": subprocess.PIPE, "stderr": subprocess.STDOUT, "stdin": subprocess.DEVNULL}
        with subprocess.Popen([library.RATTLE, *words], cwd=folder, start_new_session=True, text=True, errors="replace", **how) as ran:
            for line in ran.stdout:
                self.said.append(line)
                function = re.match(r"checked (\S+), \d+ of \d+", line)
                if function:
                    now = processor_seconds(ran.pid)
                    self.functions.append((now - last, function[1]))
                    last = now
        after = os.times()
        self.status, self.clock = ran.returncode, time.monotonic() - started
        self.seconds = after.children_user + after.children_system - before.children_user - before.children_system


def stages_in(file):
    """Returns the seconds by the clock of each stage of a check, by its name."""
    with open(file, encoding="utf-8") as it:
        return {row.split()[1]: float(row.split()[2]) for row in it if row.startswith("stage")}
