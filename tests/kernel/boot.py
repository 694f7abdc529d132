"""Runs scripts in the twin's kernel: an ordinary process, with no privileges and no network."""
import os
import re
import shutil
import signal
import subprocess
import tempfile
import time
from collections import Counter
from concurrent.futures import ThreadPoolExecutor

from machine import Stop

PATIENCE = 30  # seconds without a new answer, after which the kernel hangs
GROUP = 400  # scripts of a boot
MEMORY = "mem=128M"
TRACING = ["trace_clock=mono", "trace_buf_size=4M"]  # of which the second is for each script


class Answers:
    """What a kernel says: of each script its answers, its journal and its trace events; scripts that ended it; warnings."""

    def __init__(self):
        self.answers, self.journals, self.events = {}, {}, {}
        self.ended, self.warnings, self.logs = [], Counter(), []
        self.release = None

    def add(self, other):
        self.answers.update(other.answers)
        self.journals.update(other.journals)
        self.events.update(other.events)
        self.ended += other.ended
        self.warnings += other.warnings
        self.logs += other.logs
        self.release = self.release or other.release


def wait_for(process, out):
    """Waits for the end of a boot, which is ended itself where it answers nothing for long. Returns whether it was."""
    size, since = -1, time.monotonic()
    while True:
        try:
            process.wait(0.05 if time.monotonic() - since < 2 else 0.5)
            return False
        except subprocess.TimeoutExpired:
            now = os.path.getsize(out) if os.path.exists(out) else 0
            if now != size:
                size, since = now, time.monotonic()
            elif time.monotonic() - since > PATIENCE:
                os.killpg(process.pid, signal.SIGKILL)
                process.wait()
                return True


def boot(vmlinux, scripts, options):
    """One boot. Returns the twin's output, the kernel's log, and whether it hung."""
    with tempfile.TemporaryDirectory() as room:
        with open(f"{room}/in", "w", encoding="ascii") as it:
            for name, text in scripts:
                it.write(f"@ {name}\n{text}")
        words = ["setarch", "-R", vmlinux, MEMORY, "con=none", "con0=fd:0,fd:2"]
        words += TRACING if "logs" in options else []
        words += [f"twin_in={room}/in", f"twin_out={room}/out", *(f"twin_{it}" for it in options)]
        with open(f"{room}/log", "wb") as log:
            process = subprocess.Popen(
                words, stdin=subprocess.DEVNULL, stdout=log, stderr=log, start_new_session=True, cwd=room
            )
            is_hung = wait_for(process, f"{room}/out")
        out = ""
        if os.path.exists(f"{room}/out"):
            with open(f"{room}/out", encoding="ascii", errors="replace") as it:
                out = it.read()
        with open(f"{room}/log", encoding="utf-8", errors="replace") as it:
            return out, it.read(), is_hung


def read_output(out):
    """Takes the twin's output apart. The last script is one that ended the kernel, where there is no end."""
    said, name, is_whole = Answers(), None, False
    for line in out.split("\n")[:-1]:
        if line == "@ end":
            is_whole = True
        elif line.startswith("@ "):
            name = line[2:]
            said.answers[name], said.journals[name], said.events[name] = [], [], []
        elif line.startswith("version "):
            said.release = line[8:]
        elif line.startswith("log "):
            said.events[name].append(line[4:])
        elif line.startswith("journal "):
            said.journals[name].append(line[8:])
        else:
            said.answers[name].append(line)
    return said, name, is_whole


def why_nothing(log):
    """A boot that answers nothing at all: one sentence."""
    last = " ".join(" ".join(log.strip().splitlines()[-3:]).split())[-400:]
    if re.search(r"setarch:.*(personality|permitted)", log):
        return f"setarch -R may not turn off random addresses here, which User Mode Linux wants: {last}"
    if re.search(r"check_ptrace :|ptrace: ", log):
        return f"this process may not use ptrace, which User Mode Linux wants: {last}"
    return f"the kernel answers nothing: {last}"


def why_ended(log, is_hung):
    """What the kernel said as it ended in the middle of a script."""
    if is_hung:
        return f"it hangs: {PATIENCE} seconds without an answer"
    found = re.findall(r"(BUG:? .*|kernel BUG at .*|Kernel panic.*|Oops.*|.*segfault.*|RIP:.*)", log)
    return "; ".join(it.strip() for it in found[:3]) or " ".join(log.strip().splitlines()[-2:])


def run_group(vmlinux, scripts, options):
    """Runs scripts in as few boots as can be: behind one that ends the kernel the rest gets a new boot."""
    whole, left = Answers(), list(scripts)
    while left:
        out, log, is_hung = boot(vmlinux, left, options)
        said, last, is_whole = read_output(out)
        if last is None:
            raise Stop(why_nothing(log))
        # User Mode Linux warns at each boot that it has no PCI device, which is none of ours
        said.warnings.update(re.findall(r"WARNING: CPU: \d+ PID: \d+ at (?!arch/um/)(\S+)", log))
        said.logs.append(log)
        if not is_whole:
            del said.answers[last], said.journals[last], said.events[last]
            said.ended.append((last, why_ended(log, is_hung)))
        whole.add(said)
        left = left[[it[0] for it in left].index(last) + 1 :] if not is_whole else []
    return whole


def run(vmlinux, scripts, options=()):
    """Runs scripts, pairs of name and text, in several boots side by side."""
    if not shutil.which("setarch"):
        raise Stop("there is no 'setarch': install util-linux")
    jobs = int(os.environ.get("JOBS", 0)) or min(4, os.cpu_count() or 1)
    size = max(1, min(GROUP, -(-len(scripts) // jobs)))
    groups = [scripts[at : at + size] for at in range(0, len(scripts), size)]
    whole = Answers()
    with ThreadPoolExecutor(jobs) as pool:
        for it in pool.map(lambda group: run_group(vmlinux, group, options), groups):
            whole.add(it)
    return whole
