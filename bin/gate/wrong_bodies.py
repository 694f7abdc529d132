"""Wrong bodies, and the functions of a crate that they change."""
import os
import re

import toolchain

# A reader's first look stands in must-fail/, where `rt ci` tries it too; all others stand in wrong/.
FOLDERS = ("must-fail", "wrong")


class Sources:
    """The texts of a crate's src/, and its functions as the toolchain reads them."""

    def __init__(self, crate):
        self.name, self.folder = crate.name, crate.folder
        self.source = toolchain.reader.Source(self.folder)
        self.source.read("src/main.rt" if crate.is_program else "src/lib.rt")

    def lines_of(self, path):
        """Returns the lines of a file of the crate."""
        return toolchain.library.text_of(f"{self.folder}/{path}").split("\n")

    def function_at(self, path, start, end):
        """Returns the function whose body holds these bytes, or None where there is none, or more than one."""
        found = [it for it in self.source.functions if it.file == path and it.has_body and it.opens < start and end <= it.end]
        return found[0] if len(found) == 1 else None

    def symbol_of(self, function):
        """Returns the prover's name of a function below its crate, or None where its text alone does not tell it."""
        if function.in_cycle or function.in_trait and "<" in function.block.trait:
            return None
        places = {function.module}
        if function.block:
            places = {where for where, *_ in self.source.declared.get(function.owner, [])}
        if len(places) != 1:
            return None
        # The prover names an impl by its type and its trait.
        owner = function.owner + (function.block.trait[-1] if function.in_trait else "")
        return "::".join([*places.pop(), *[owner] * bool(function.block), function.name])


class WrongBody:
    """A wrong body: what it changes in the crate's texts, line by line.

    One that changes a definition or a signature may name a function that it leaves unproved, by a line `of: FUNCTION`.
    """

    def __init__(self, sources, file):
        self.crate, self.file, self.name = sources.name, file, os.path.basename(file)[: -len(".edit")]
        self.named = re.findall(r"(?m)^of: (\S+)$", toolchain.library.text_of(file))
        self.function, self.symbol, self.lines = None, None, {}
        texts, self.why = toolchain.gate.read_edit(file, sources.folder)
        functions = [self.compare(sources, path, text) for path, text in sorted((texts or {}).items())]
        found = {it for of_file in functions for it in of_file}
        if len(found) == 1 and None not in found:
            self.function = found.pop()
            self.symbol = sources.symbol_of(self.function)

    def compare(self, sources, path, text):
        """Notes the lines of a file that it changes, and returns the functions in whose bodies they stand."""
        functions, at = set(), 0
        for number, (old, new) in enumerate(zip(sources.lines_of(path), text.split("\n"))):
            # A pair may only move a line, so that the text of the next pair stands once.
            if "".join(old.split()) != "".join(new.split()):
                self.lines[path, number] = new
                first = at + len(os.path.commonprefix([old, new]).encode())
                functions.add(sources.function_at(path, first, at + len(old.encode())))
            at += len(old.encode()) + 1
        return functions

    def modules(self):
        """Returns what --only takes for the files that it changes, or nothing where one is the crate's root or no code."""
        names = {re.sub(r"^src/|(/mod)?\.rt$", "", path).replace("/", "::") for path, _ in self.lines}
        is_code = all(path.startswith("src/") for path, _ in self.lines)
        return sorted(names) if is_code and not names & {"lib", "main"} else []


def files_of(folder):
    """Returns the files of a crate's wrong bodies."""
    found = []
    for part in FOLDERS:
        if os.path.isdir(f"{folder}/{part}"):
            found += [f"{folder}/{part}/{it}" for it in sorted(os.listdir(f"{folder}/{part}")) if it.endswith(".edit")]
    return found
