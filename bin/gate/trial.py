"""One check of a crate with many wrong bodies in it, and what it says of each.

A function is proved from its own body and from the contracts of what it calls, never from another body, and a check goes
on past a function that it does not prove. So the first wrong body of a function stands in its place. Each further one
stands in a copy of the function behind it, with its contract, its attributes and a copy of its proof files. A last copy
keeps the right body: it has to be proved, else nothing is taken from the copies.
"""
import collections
import os
import re
import shutil

import toolchain

REFUSED, LIMIT = "refused", "REFUSED BY A LIMIT ALONE"
NAME, BAD, MISSED, UNTRIED = "REFUSED BY A NAME ALONE", "BAD EDIT", "NOT REFUSED", "NOT TRIED"
Result = collections.namedtuple("Result", "kind why")

FUNCTION = re.compile(r"fn (\S+): (.*)")
PLACE = re.compile(r"(?:note: )?(?:\./)?((?:src|specs|proofs)/\S+?):(\d+):\d+: ")
GOAL = "it is not proved that"
# What the line of a function says of others: it calls, passes or names one that is not proved.
OF_OTHERS = re.compile(r";? ?(?:it calls|it passes)\b[^;]*?which (?:is|are) not (?:proved|assumed)")
# What is said of a name that a proof cites and the wrong body took away, and of what cites that proof.
OF_NAMES = re.compile(r"has no field|is not in scope|has no `|was not admitted|was not checked|can be named from here|unknown name")
# What the line of a function says that gives no reason, also with what it may do besides ("proved, may wait").
NO_REASON = re.compile(r"proved\b.*|not proved(, may [a-z ]+)?|no proof(, may [a-z ]+)?|.*could not tell.*")


class Trial:
    """A copy of a crate in a folder of its own, with wrong bodies of its functions in it."""

    def __init__(self, sources, folder, bodies):
        self.sources, self.folder, self.symbols, self.controls, self.owners = sources, folder, {}, {}, {}
        for part in toolchain.library.PARTS:
            if os.path.isdir(f"{sources.folder}/{part}"):
                shutil.copytree(f"{sources.folder}/{part}", f"{folder}/{part}")
        changed, behind, by_symbol = {}, collections.defaultdict(list), collections.defaultdict(list)
        for it in bodies:
            by_symbol[it.symbol].append(it)
        for symbol, (first, *others) in by_symbol.items():
            changed.update({place: (text, first) for place, text in first.lines.items()})
            self.symbols[first] = symbol
            # An impl of a trait takes no copy of a method: a second wrong body of one is left to be tried alone.
            if symbol and first.function.in_trait:
                continue
            for number, it in enumerate([*others, None] if others else [], 2):
                behind[first.function.file].append(self.copy(first, it, number))
        for path in {path for path, _ in changed}:
            self.write(path, changed, behind[path])

    def write(self, path, changed, copies):
        """Writes a file with these lines changed, and these copies of functions behind the lines where these end."""
        rows = [changed.get((path, number), (row, None)) for number, row in enumerate(self.sources.lines_of(path))]
        for last, text, body in sorted(copies, key=lambda it: it[0], reverse=True):
            rows[last + 1 : last + 1] = [("", None), *((row, body) for row in text)]
        self.owners.update({(path, number): body for number, (_, body) in enumerate(rows, 1) if body})
        with open(f"{self.folder}/{path}", "w", encoding="utf-8") as it:
            it.write("\n".join(row for row, _ in rows))

    def copy(self, first, body, number):
        """Makes a copy of a function with a wrong body, or with its own: returns the line where the function ends, its lines, and the body."""
        function, path = first.function, first.function.file
        data = self.sources.source.data[path]
        line_of = lambda at: data[:at].count(b"\n")
        start, named, end = line_of(function.first), line_of(function.named[0]), line_of(function.end - 1)
        name = f"{function.name}_wrong_{number}" if body else f"{function.name}_right"
        lines = body.lines if body else {}
        rows = [lines.get((path, at), row) for at, row in enumerate(self.sources.lines_of(path))]
        rows[named] = re.sub(rf"\bfn\s+{function.name}\b", f"fn {name}", rows[named], count=1)
        symbol = "::".join([*first.symbol.split("::")[:-1], name])
        self.copy_proofs(first.symbol, symbol)
        if body:
            self.symbols[body] = symbol
        else:
            self.controls[first.symbol] = symbol
        return end, rows[start : end + 1], body

    def copy_proofs(self, symbol, other):
        """Copies the proof files of a function, and of the closures in it, in which its name becomes the other."""
        for one, two in ((symbol, other), (closures_of(symbol), closures_of(other))):
            source, to = (f"{self.folder}/proofs/{it.replace('::', '/')}" for it in (one, two))
            if not os.path.isdir(source):
                continue
            shutil.copytree(source, to)
            own = rf"(Rattle\.{self.sources.name}\.(?:proofs|specs\.contracts)\.){re.escape(one.replace('::', '.'))}(?!\w)"
            for at, _, files in os.walk(to):
                for file in files:
                    text = toolchain.library.text_of(f"{at}/{file}")
                    with open(f"{at}/{file}", "w", encoding="utf-8") as it:
                        it.write(re.sub(own, rf"\g<1>{two.replace('::', '.')}", text))

    def only(self):
        """Returns the flags that have the check prove the changed functions, and what they call."""
        return [it for symbol in [*self.symbols.values(), *self.controls.values()] for it in ("--only", symbol)]

    def results(self, status, lines):
        """Returns the results of those wrong bodies that a check settles, by what it said."""
        found = self.unread(lines)
        if found or status not in (1, 3) or not any(map(FUNCTION.match, lines)):
            return found
        own = failures(self.sources.name, lines)
        refuted = {symbol for symbol, it in self.controls.items() if said_of(it, own)}
        for body, symbol in self.symbols.items():
            said = said_of(symbol, own)
            if said and (symbol == body.symbol or body.symbol not in refuted):
                found[body] = judge(said)
        return found

    def result_alone(self, status, lines):
        """Returns the result of the only wrong body, where each function that is not proved counts."""
        found = self.unread(lines)
        if found:
            return next(iter(found.values()))
        said = [it for reasons in failures(self.sources.name, lines).values() for it in reasons]
        # A crate of lemmas has no function: there the lemma itself is refused.
        if not any(map(FUNCTION.match, lines)) and (self.sources.source.functions or not said):
            return Result(BAD if status == 1 else UNTRIED, next((it for it in lines if "error" in it), lines[-1]))
        if status == 1 and said:
            return judge(said)
        limit = next(filter(toolchain.LIMITS.search, lines), None)
        if status == 3 and limit:
            return Result(LIMIT, limit)
        return Result(MISSED if status == 0 else UNTRIED, lines[-1])

    def unread(self, lines):
        """Returns the wrong bodies whose text the front end or the prover could not read.

        An error may stand on a line that was not changed. In a check of one wrong body it belongs to that one.
        """
        found, changed = {}, {path for path, _ in self.owners}
        alone = next(iter(self.symbols)) if len(self.symbols) == 1 else None
        for line in lines:
            place = PLACE.match(line)
            if place and is_unread(line, place[1], changed):
                body = self.owners.get((place[1], int(place[2])), alone)
                if body:
                    found.setdefault(body, Result(BAD, line))
        return found


def is_unread(line, path, changed):
    """Returns whether a line says that a text could not be read. Definitions have no proofs, so each error in specs/ says so."""
    return "error[" in line or path.startswith("specs/") and ": error" in line or toolchain.gate.unread(line, changed)


def closures_of(symbol):
    """Returns the module of a function's closures."""
    *places, name = symbol.split("::")
    return "::".join([*places, "fn", name])


def said_of(symbol, own):
    """Returns what is said of a function or of a closure in it."""
    inside = (f"{symbol}::", f"{closures_of(symbol)}::")
    return [it for name, said in own.items() if name == symbol or name.startswith(inside) for it in said]


def failures(crate, lines):
    """Returns what is said of each function that is not proved for a goal of its own, and of other places by their files."""
    own, told = collections.defaultdict(list), []
    for line in lines:
        found, place = FUNCTION.match(line), PLACE.match(line)
        if found:
            reasons = OF_OTHERS.sub("", found[2]).strip(" :;")
            if not NO_REASON.fullmatch(reasons):
                own[without_crate(crate, found[1])] += [*told, reasons]
            told = []
        elif place and ": error" in line:
            # The errors of a function's proof files stand in the folder of its name.
            inside = place[1].startswith("proofs/") and place[1].count("/") > 1
            own["::".join(place[1].split("/")[1:-1]) if inside else place[1]].append(line)
        elif place and GOAL in line:
            told.append(line)
    return own


def without_crate(crate, name):
    return name[len(crate) + 2 :] if name.startswith(f"{crate}::") else name


def judge(said):
    """Returns the result of a wrong body whose function is not proved, by what is said of the function."""
    goals = [it for it in said if not OF_NAMES.search(it)]
    return Result(REFUSED if goals else NAME, (goals or said)[0])
