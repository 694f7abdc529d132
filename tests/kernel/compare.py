"""Scripts through the proved program, the reference and the kernel, and what differs."""
import functools
import itertools
import os
import sys

from place import TESTS, TOP

sys.path.insert(0, TESTS)
import profiles  # noqa: E402
import program  # noqa: E402
import reference  # noqa: E402
import waiting  # noqa: E402

def commands_of(text):
    lines = text.splitlines()
    return lines[lines.index("go") + 1 :]


def difference(text, wanted, got):
    """Tells the first command to which two lists of answers differ, or nothing."""
    if wanted == got:
        return ""
    commands = commands_of(text)
    pairs = itertools.zip_longest(wanted, got, fillvalue="nothing")
    at, (one, other) = next((at, it) for at, it in enumerate(pairs) if it[0] != it[1])
    command = commands[at][:80] if at < len(commands) else "no command"
    return f"command {at}, '{command}': wanted is '{one[:60]}', the kernel says '{other[:60]}'"


def model_of(text):
    """The answers of the proved program, or nothing where it takes no such script."""
    status, output, _ = program.run(["replay"], text.encode("latin-1"))
    return output.decode().splitlines() if status == 0 else None


class Case:
    """A script with the answers of the proved program, of the reference without a rule, and of it with the rules."""

    def __init__(self, name, text, options=()):
        self.name, self.text, self.model = name, text, model_of(text)
        self.rules, self.kind = waiting.RULES_OF_WAITS if "wait" in options else reference.RULES_OF_ALL
        self.none = reference.replay(text) if self.model is not None else None

    @functools.cached_property
    def all(self):
        return reference.replay(self.text, self.rules, self.kind)

    def needed(self):
        """The rules without which the reference answers this script in another way than with all."""
        without = {left: [it for it in self.rules if it != left] for left in self.rules}
        return [left for left, rest in without.items() if reference.replay(self.text, rest, self.kind) != self.all]


def make_case(it):
    """A random script of a profile, with its answers, and the rules that it needs where the profile meets them."""
    profile, seed = it
    maker = profiles.PROFILES[profile]
    case = Case(f"{profile}-{seed}", profiles.make(profile, seed), maker.options)
    case.wanted = case.all if maker.meets_rules else case.model
    return case, case.needed() if maker.meets_rules else []


def journal_of(text, answers, told):
    """The journal of what the kernel did: the jobs by the commands that armed them, what became of them as it tells."""
    header = text.splitlines()[: text.splitlines().index("go") + 1]
    buffers = sum(it.startswith(("buffer ", "zero ")) for it in header)
    jobs, plans = [], {}
    for command, answer in zip(commands_of(text), answers):
        name, *words = command.split(" ")
        if answer == "planned":
            plans[words[0]] = " ".join(words[1:])
        elif answer.startswith("armed "):
            jobs.append(" ".join(words) if name == "submit" else plans[words[0]])
    became, finals = told[: len(told) - buffers], told[len(told) - buffers :]
    lines = [f"job {it} {job}" for it, job in zip(became, jobs)]
    lines += [it.replace("bytes", "final", 1) for it in finals]
    return "\n".join([*header, *lines, "end", ""]) if len(became) == len(jobs) else ""


def wrong_journal(it):
    """What is wrong with the memory that the kernel left: nothing, where it is that of the serial machine."""
    text, answers, told = it
    said = program.run(["check"], journal_of(text, answers, told).encode())
    return "" if said == (0, b"same\n", b"") else f"of the kernel's journal check says {said}"


def examples():
    """The scripts of examples/ which `replay` takes, with a name each."""
    for folder in ("examples", "examples/refused", "examples/threads", "examples/words"):
        for it in sorted(os.listdir(f"{TOP}/{folder}")):
            if it.endswith(".script"):
                yield f"{folder}/{it}", program.read(f"{folder}/{it}").decode("latin-1")


def keep(folder, name, text, wanted, got):
    """Keeps a script on which they differ, with both answers."""
    os.makedirs(folder, exist_ok=True)
    path = f"{folder}/{name.replace('/', '-').replace('.script', '')}"
    for end, lines in (("script", [text.rstrip("\n")]), ("wanted", wanted), ("kernel", got)):
        with open(f"{path}.{end}", "w", encoding="ascii") as it:
            it.write("\n".join([*lines, ""]))
