"""What `bin/build --install PREFIX` puts under a prefix: the program, its manual page and its completions for bash.

The page and the completions are made of what the program says of itself with `--help`, so they name what is there.
"""
import dataclasses
import os
import re
import subprocess

PROGRAM = "drmsim"


@dataclasses.dataclass
class Help:
    """The parts of one help text: its paragraphs, and the rows of its lists, by heading."""

    text: str
    about: list = dataclasses.field(default_factory=list)
    usage: str = ""
    lists: dict = dataclasses.field(default_factory=dict)

    def __post_init__(self):
        heading = None
        for part in re.split(r"\n{2,}", self.text.strip("\n")):
            first, _, rest = part.partition("\n")
            if first.startswith("Usage: "):
                self.usage = first[len("Usage: ") :]
            elif re.fullmatch(r"[A-Z][a-z ]*:", first):
                heading = first[:-1]
                self.lists[heading] = rest
            elif heading and part.startswith(" "):
                self.lists[heading] += f"\n{part}"
            else:
                self.about.append(part)

    def rows(self, heading):
        """Returns the rows of a list: what stands at the left, and what is said of it, beside it or below."""
        found = []
        for line in self.lists.get(heading, "").split("\n"):
            name = re.match(r" {2,6}(\S.*?)(?: {2,}(\S.*))?$", line)
            if name and not line.startswith(" " * 10):
                found.append((name[1], name[2] or ""))
            elif line.strip() and found:
                found[-1] = found[-1][0], " ".join([found[-1][1], line.strip()]).strip()
        return found


def help_of(program, *words):
    ran = subprocess.run([program, *words, "--help"], stdin=subprocess.DEVNULL, stdout=subprocess.PIPE, text=True, check=True)
    return Help(ran.stdout)


def commands_of(program):
    """Returns the help of the program, and that of each of its commands by name."""
    top = help_of(program)
    return top, {name: help_of(program, name) for name, _ in top.rows("Commands") if name != "help"}


def roff(text):
    """Returns a line of text as a manual page has it."""
    text = text.replace("\\", "\\e").replace("-", "\\-").replace("'", "\\(aq")
    return f"\\&{text}" if text.startswith(".") else text


def paragraphs(parts):
    """Returns paragraphs; those that hold a list or an example keep their lines."""
    for part in parts:
        lines = [roff(it) for it in part.split("\n")]
        yield from [".PP", ".nf", *lines, ".fi"] if len(lines) > 1 else [".PP", *lines]


def manual_page(program):
    """Returns the manual page of the program."""
    top, commands = commands_of(program)
    version = subprocess.run([program, "--version"], stdout=subprocess.PIPE, text=True, check=True).stdout.split()[1]
    lines = [f'.TH {PROGRAM.upper()} 1 "" "{PROGRAM} {version}"', ".SH NAME", f"{PROGRAM} \\- {roff(top.about[0])}", ".SH SYNOPSIS"]
    lines += [it for help in commands.values() for it in (".br", f".B {roff(help.usage)}")][1:]
    lines += [".SH COMMANDS"]
    for name, help in commands.items():
        lines += [f".SS {name}", *paragraphs(help.about)]
        if "Example" in help.lists:
            lines += [".PP", "Example:", ".nf", *map(roff, help.lists["Example"].split("\n")), ".fi"]
        for left, said in help.rows("Arguments") + help.rows("Options"):
            lines += [".TP", f".B {roff(left)}", roff(said)]
    lines += [".SH OPTIONS"]
    lines += [it for left, said in top.rows("Options") for it in (".TP", f".B {roff(left)}", roff(said))]
    for heading in ("Examples", "Exit status"):
        lines += [f".SH {heading.upper()}", ".nf", *map(roff, top.lists[heading].split("\n")), ".fi"]
    return "\n".join([*lines, *paragraphs(top.about[1:])]) + "\n"


def completions(program):
    """Returns the completions for bash: the commands, and the options of each."""
    top, commands = commands_of(program)
    flags = {name: re.findall(r"--[a-z-]+", " ".join(left for left, _ in help.rows("Options"))) for name, help in commands.items()}
    own = re.findall(r"--[a-z-]+", " ".join(left for left, _ in top.rows("Options")))
    cases = [f"        {name}) words='{' '.join(flags[name])}' ;;" for name in commands]
    return "\n".join(
        [
            f"# Completions of {PROGRAM} for bash.",
            f"_{PROGRAM}() {{",
            "    local words=",
            "    case ${COMP_WORDS[1]} in",
            *cases,
            "    esac",
            "    if ((COMP_CWORD == 1)); then",
            f"        words='{' '.join([*commands, 'help', *own])}'",
            "    fi",
            '    mapfile -t COMPREPLY < <(compgen -W "$words" -- "${COMP_WORDS[COMP_CWORD]}")',
            "}",
            f"complete -F _{PROGRAM} {PROGRAM}",
            "",
        ]
    )


def write(path, data, mode):
    """Writes a file beside its place and then moves it there, so that nobody meets half of it."""
    with open(f"{path}.new", "wb") as it:
        it.write(data)
    os.chmod(f"{path}.new", mode)
    os.replace(f"{path}.new", path)


def install(program, prefix):
    """Installs the program under the prefix, and returns the paths of what was written."""
    page, words = manual_page(program).encode(), completions(program).encode()
    with open(program, "rb") as it:
        body = it.read()
    files = [(f"bin/{PROGRAM}", body, 0o755), (f"share/man/man1/{PROGRAM}.1", page, 0o644)]
    files.append((f"share/bash-completion/completions/{PROGRAM}", words, 0o644))
    for path, data, mode in files:
        os.makedirs(os.path.dirname(f"{prefix}/{path}"), exist_ok=True)
        write(f"{prefix}/{path}", data, mode)
    return [f"{prefix}/{path}" for path, _, _ in files]
