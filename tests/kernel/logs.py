"""Judges what the kernel's own trace events say: `drmsim conform` reads the log of each script that the kernel answers.

The log is what the kernel shows in /sys/kernel/tracing/trace. One of a kernel as it is keeps all rules. A kernel with a
fault of log_faults/ breaks one: the fault leaves a mark in the log that names the entity or the fence, and the first
line that is told names one that was marked before, as does each that breaks the rule of the fault. Each answer is also
that of the second judge of tests/conform.
"""
import re
import sys

from place import HERE, TESTS

sys.path[:0] = [TESTS, f"{TESTS}/conform"]
import boot  # noqa: E402
import machine  # noqa: E402
import profiles  # noqa: E402
import program  # noqa: E402
import slow_judge  # noqa: E402

PROFILE = "everything"
MARK = re.compile(r"fault: ((?:entity|fence)=[0-9a-f]+)")
TOLD = re.compile(r"line (\d+): (.*)")


class Log:
    """The log of a script: what is asked of it, and what the program and the second judge say of it."""

    def __init__(self, name, script, answers, lines):
        self.name, self.lines = name, lines
        self.armed = sum(it.startswith("armed ") for it in answers)
        rings = [it.split(" ")[1] for it in script.splitlines() if it.startswith("ring ")]
        self.limits = [(f"ring {number}", int(limit)) for number, limit in enumerate(rings)]

    def judge(self):
        """Returns the broken rules that the program tells, as pairs of a line and words, and what is wrong otherwise."""
        text = "".join(f"{it}\n" for it in self.lines)
        words = ["conform", "--jobs", "--in-order", "--limit", ",".join(f"{ring}={most}" for ring, most in self.limits)]
        status, output, errors = program.run(words, text.encode())
        wanted = slow_judge.answer(text, True, in_order=True, limits=self.limits)
        said = output.decode().splitlines()
        told = [TOLD.fullmatch(it) for it in said if TOLD.fullmatch(it)]
        found = [(int(it[1]), it[2]) for it in told]
        if errors or (output.decode(), status) != wanted:
            return found, f"conform ends with {status} and tells {said[:3]}, and not {wanted[0].splitlines()[:3]}"
        if said[len(told)].split(" ")[0] != str(self.armed):
            return found, f"{self.armed} jobs were armed, and conform says '{said[len(told)]}'"
        return found, ""

    def is_marked(self, line):
        """Whether the fault has left a mark before a line, of its entity or its fence."""
        marks = [MARK.search(it) for it in self.lines[: line - 1]]
        return any(it and f"{it[1]}," in f"{self.lines[line - 1]},".replace(" ", ",") for it in marks)


def read(kernel, seeds):
    """The logs of random scripts."""
    scripts = [(f"{PROFILE}-{it}", profiles.make(PROFILE, it)) for it in seeds]
    said = boot.run(kernel, scripts, (*profiles.PROFILES[PROFILE].options, "logs"))
    logs = [Log(name, text, said.answers[name], said.events[name]) for name, text in scripts if name in said.answers]
    return logs, said


def keep(folder, log):
    if folder:
        machine.write_new(f"{folder}/{log.name}.trace", "".join(f"{it}\n" for it in log.lines).encode())


def run_plain(kernel, seeds, count, pool, folder):
    """The kernel as it is: no log breaks a rule."""
    logs, said = read(kernel, seeds)
    found = []
    for log, (told, wrong) in zip(logs, pool.map(Log.judge, logs, 8)):
        wrong = wrong or (f"line {told[0][0]}: {told[0][1]}" if told else "")
        found.append((log.name, wrong))
        if wrong:
            keep(folder, log)
    count.note_all(found + [(name, f"it ended the kernel: {why}") for name, why in said.ended])
    lines = sum(len(it.lines) for it in logs)
    print(f"logs: {len(logs)} scripts, {sum(it.armed for it in logs)} jobs, {lines} lines, no broken rule", flush=True)


def run_fault(name, builder, seeds, count, pool, folder):
    """A kernel with a fault: some logs break the rule, and each line that is told is one of what was marked."""
    fault = machine.Fault(name, "log_faults")
    logs, said = read(builder.vmlinux(fault), seeds)
    found, broken = [], []
    for log, (told, wrong) in zip(logs, pool.map(Log.judge, logs, 8)):
        # what is told behind the first may follow from it, as a ring that has too many jobs behind a job that ends twice
        other = [it for it in told if fault.tells not in it[1] or not log.is_marked(it[0])]
        other = [it for it in other if it is told[0] or fault.tells in it[1]]
        wrong = wrong or (f"line {other[0][0]} is none of the fault's: {other[0][1]}" if other else "")
        found.append((log.name, wrong))
        broken += [(log.name, *told[0])] if told else []
        if told or wrong:
            keep(folder, log)
    count.note_all(found)
    count.note(f"fault {name}", "" if broken else "no log tells it")
    print(f"fault {name}: {fault.says.strip()}")
    ended = f", {len(said.ended)} scripts end the kernel" if said.ended else ""
    print(f"  {len(broken)} of {len(logs)} logs tell it{ended}; the first, {broken[0][0] if broken else 'none'}:", flush=True)
    if broken:
        print(f"  line {broken[0][1]}: {broken[0][2]}", flush=True)


def run(kernel, builder, seeds, count, pool, folder):
    """Judges the logs of the kernel as it is, and then of the kernel with each fault."""
    run_plain(kernel, seeds, count, pool, folder)
    for name in machine.fault_names("log_faults"):
        run_fault(name, builder, seeds[: len(seeds) * 2 // 5], count, pool, folder and f"{folder}/{name}")
