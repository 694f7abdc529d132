"""Tries the wrong bodies of crates, side by side as processors and memory allow, and tells what came of each."""
import concurrent.futures
import contextlib
import os
import shutil
import signal
import subprocess
import sys
import tempfile
import threading
import time

import libraries
import toolchain
import trial
import verdicts
import wrong_bodies
from trial import Result

# The part of the memory of a check from nothing that a check of some functions takes, at most.
PART = 0.6
# What the reading of a library below costs, in lines of the crate, and what a check costs, in wrong bodies.
A_LIBRARY, A_CHECK = 50, 30
# The checks that run, and whether they were ended for good.
RUNNING, STOPPED = set(), threading.Event()


class Stopped(Exception):
    """The run was stopped, so that nothing is known of what it tried."""


def stop():
    """Ends all checks, with what they started."""
    STOPPED.set()
    for it in list(RUNNING):
        with contextlib.suppress(OSError):
            os.killpg(os.getpgid(it.pid), signal.SIGKILL)


def clock(seconds):
    minutes, seconds = divmod(round(seconds), 60)
    return f"{minutes} min {seconds} s" if minutes else f"{seconds} s"


class Tries:
    """The wrong bodies of one crate: what came of them, and what that took."""

    def __init__(self, crate, options, kept):
        self.crate, self.options, self.kept = crate, options, kept
        self.files, self.results = wrong_bodies.files_of(crate.folder), {}
        self.checks, self.seconds, self.known, self.memory = 0, 0.0, 0, 0
        self.started, self.need = time.monotonic(), PART * toolchain.gate.need(crate)

    def run(self, jobs):
        """Tries what no earlier run settled."""
        self.started = time.monotonic()
        lacking = [it.name for it in self.crate.below() if not libraries.is_built(it)]
        if lacking:
            why = f"{lacking[0]}, below it, is not proved here: bin/build {self.crate.name} proves what lies below"
            return self.results.update((it, Result(trial.UNTRIED, why)) for it in self.files)
        with self.kept.in_turn(self.crate, lambda: say(f"{self.crate.name}: another run tries it; waiting for it to end")):
            own = self.kept.sum_of(self.crate)
            found = {it: self.kept.known(own, it) for it in self.files}
            self.results = {it: result for it, result in found.items() if result}
            self.known = len(self.results)
            try:
                self.try_new([it for it in self.files if it not in self.results], jobs)
            except (OSError, shutil.Error) as error:
                self.results.update((it, Result(trial.UNTRIED, str(error))) for it in self.files if it not in self.results)
            for it in self.files:
                if not found[it]:
                    self.kept.keep(own, it, self.results[it])

    def try_new(self, files, jobs):
        """Tries these files: those of one function each together, and alone what is left."""
        if not files:
            return
        sources = wrong_bodies.Sources(self.crate)
        bodies = [wrong_bodies.WrongBody(sources, it) for it in files]
        self.results.update((it.file, Result(trial.BAD, it.why)) for it in bodies if it.why)
        with tempfile.TemporaryDirectory(prefix="refuse-") as room:
            together = [it for it in bodies if it.symbol and not it.why]
            self.try_together(sources, together, room, jobs)
            for it in bodies:
                if it.file not in self.results:
                    self.results[it.file] = self.try_alone(sources, it, room, jobs)

    def try_together(self, sources, bodies, room, jobs):
        """Tries wrong bodies in one check, and again without those that the check could not read."""
        label, left = "together", bodies
        while left:
            made = trial.Trial(sources, tempfile.mkdtemp(dir=room), left)
            found = made.results(*self.check(label, made.folder, made.only(), jobs))
            self.results.update((it.file, result) for it, result in found.items())
            bad = [it for it, result in found.items() if result.kind == trial.BAD]
            left = [it for it in left if it not in bad] if bad else []
            label += "-again"

    def try_alone(self, sources, body, room, jobs):
        """Tries one wrong body by itself: by its function, by the files that it changes, and with the whole crate."""
        result = Result(trial.UNTRIED, "no check was made")
        only = [it for it in ([body.symbol] if body.symbol else body.named, body.modules()) if it]
        for names in [*only, []]:
            made = trial.Trial(sources, tempfile.mkdtemp(dir=room), [body])
            flags = [it for name in names for it in ("--only", name)]
            result = made.result_alone(*self.check(body.name, made.folder, flags, jobs))
            if result.kind not in (trial.MISSED, trial.UNTRIED):
                break
        return result

    def check(self, label, folder, only, jobs):
        """Returns the status and the lines of a check in this folder."""
        words = [toolchain.library.RATTLE, "check", *self.crate.words(["--jobs", str(jobs)], keeps=False), *only]
        how = {"stdin": subprocess.DEVNULL, "stdout": subprocess.PIPE, "stderr": subprocess.STDOUT, "text": True, "errors": "replace"}
        for _ in range(2):
            with subprocess.Popen([*toolchain.library.guarded(), *words], cwd=folder, **how) as ran:
                RUNNING.add(ran)
                said = ran.stdout.read()
                _, status, used = os.wait4(ran.pid, 0)
                ran.returncode = os.waitstatus_to_exitcode(status)
                RUNNING.discard(ran)
            if STOPPED.is_set():
                raise Stopped
            self.checks, self.seconds = self.checks + 1, self.seconds + used.ru_utime + used.ru_stime
            self.memory = max(self.memory, used.ru_maxrss // 1000)
            # It was killed, most likely for memory: once more.
            if ran.returncode != -signal.SIGKILL:
                break
        if self.options["--log"]:
            os.makedirs(f"{self.options['--log']}/{self.crate.name}", exist_ok=True)
            with open(f"{self.options['--log']}/{self.crate.name}/{label}", "w", encoding="utf-8") as it:
                it.write(said)
        shutil.rmtree(folder, ignore_errors=True)
        return ran.returncode, said.rstrip("\n").split("\n")

    def lines(self):
        """Returns what is told of the crate: each wrong body that is not refused, or each, and a line that counts."""
        told = []
        for file, (kind, why) in self.results.items():
            if kind != trial.REFUSED or self.options.get("--each"):
                told.append(f"{self.crate.name}/{os.path.basename(file)[: -len('.edit')]}: {kind}: {why.strip()[:200]}")
        refused = sum(it.kind == trial.REFUSED for it in self.results.values())
        how = f"{self.checks} checks, {self.seconds:.0f} s of processors, {self.memory} MB" if self.checks else "no check"
        earlier = f", {self.known} of them by an earlier run" if self.known else ""
        took = clock(time.monotonic() - self.started)
        return [*told, f"{self.crate.name}: {refused} of {len(self.results)} wrong bodies refused{earlier} ({how}, {took})"]


def say(text):
    print(f"refuse: {text}", file=sys.stderr, flush=True)


def run(crates, options):
    """Tries the wrong bodies of these crates, and returns how many are refused and how many are not."""
    kept = verdicts.Verdicts(options.get("--anew"))
    tries = [Tries(it, options, kept) for it in crates]
    tries = sorted((it for it in tries if it.files), key=weight, reverse=True)
    results = in_lanes(tries, int(options["--jobs"]))
    kept.shrink()
    refused = sum(it.kind == trial.REFUSED for it in results)
    return refused, len(results) - refused


def weight(tries):
    """Returns a guess of what the tries of a crate cost, by which the dearest begin first.

    A check reads the crates below and the lines of the crate, and a wrong body that is tried alone has a check of its own.
    """
    sources = wrong_bodies.Sources(tries.crate)
    alone = sum(not wrong_bodies.WrongBody(sources, it).symbol for it in tries.files)
    lines = sum(len(toolchain.library.text_of(it).split("\n")) for it in toolchain.library.files_of(tries.crate.folder))
    return (lines + A_LIBRARY * len(tries.crate.below())) * (len(tries.files) + A_CHECK * alone + A_CHECK)


def in_lanes(left, lanes):
    """Runs the tries of crates side by side, tells each as it ends, and returns all results."""
    memory, count, running, started, results = 0.85 * toolchain.gate.free(), len(left), {}, time.monotonic(), []
    with concurrent.futures.ThreadPoolExecutor(lanes) as pool:
        try:
            while left or running:
                start_ready(pool, left, running, lanes, memory)
                ended, _ = concurrent.futures.wait(running, timeout=1, return_when=concurrent.futures.FIRST_COMPLETED)
                for future in ended:
                    future.result()
                    tries, _ = running.pop(future)
                    results += tries.results.values()
                    print("\n".join(tries.lines()), flush=True)
                show(count - len(left) - len(running), count, started, [it.crate.name for it, _ in running.values()])
        except BaseException:
            stop()
            raise
    return results


def start_ready(pool, left, running, lanes, memory):
    """Starts the tries for which there are a processor and memory."""
    for it in list(left):
        idle = lanes - sum(jobs for _, jobs in running.values())
        spare = memory - sum(other.need for other, _ in running.values())
        if idle > 0 and (not running or it.need <= spare):
            jobs = max(1, min(4, idle // len(left)))
            left.remove(it)
            running[pool.submit(it.run, jobs)] = it, jobs


def show(done, count, started, names):
    """Shows on a terminal how far the tries are."""
    if sys.stderr.isatty():
        text = f"refuse: {done} of {count} crates, {clock(time.monotonic() - started)}; trying {', '.join(sorted(names))}" if names else ""
        print(f"\r\033[K{text[: shutil.get_terminal_size().columns - 1]}", end="", file=sys.stderr, flush=True)
