"""A second reader of scripts and journals, written from docs/FORMATS.md and not from the program: regular expressions for
the words, a table for the lines. It says what the program has to say of a text: that it is one, or its first fault."""
import re

NUMBER = re.compile(rb"0|[1-9][0-9]*")
BYTES = re.compile(rb"(?:[0-9a-f]{2})+")
PRINTABLE = re.compile(rb"[^\x20-\x7e]")
SHORT, LONG, MOMENT = 2**16 - 1, 2**32 - 1, 2**64 - 1
LONGEST = 1048576

PRIORITIES = {b"kernel", b"high", b"normal", b"low"}
STATUSES = {b"0", b"1", b"-125", b"-3"}
# the greatest number of each field; 'byte' is one byte of two digits
PACKETS = {
    b"fill": (LONG, LONG, LONG, "byte"),
    b"copy": (LONG,) * 5,
    b"add": (LONG,) * 5,
    b"stall": (SHORT,),
}
# the words behind a command: a thing of the device by its kind, a moment, a number, or a whole job
COMMANDS = {
    b"submit": ("job",),
    b"begin": ("context",),
    b"try": ("context", "buffer"),
    b"done": ("context",),
    b"drop": ("context", "buffer"),
    b"end": ("context",),
    b"plan": ("context", "job"),
    b"arm": ("context",),
    b"pick": ("ring", MOMENT),
    b"step": ("ring",),
    b"finish": ("ring", MOMENT),
    b"timeout": ("ring", MOMENT),
    b"cancel": ("entity",),
    b"reap": ("entity",),
    b"read": ("context", "buffer"),
    b"fence": (LONG,),
    b"dump": ("buffer",),
}
HEADER = {b"buffer": 0, b"zero": 0, b"ring": 1, b"entity": 2, b"jobs": 3, b"go": 4}
KNOWN = {*HEADER, *COMMANDS, b"job", b"final"}
WORD, VALUE, NO_SUCH, ORDER, TOO_LONG, NO_END, NOT_TEXT, BAD_JOB = range(70, 78)


class Fault(Exception):
    """What the program writes to standard error, with status 2."""


class Line:
    """The words of one line, taken from left to right."""

    def __init__(self, number, text):
        self.number, self.text, self.words, self.next, self.column = number, text, text.split(b" "), 0, 1

    def fault(self, kind, column=None):
        return Fault(f"line {self.number} column {self.column if column is None else column}: fault {kind}")

    def has_more(self):
        return self.next < len(self.words)

    def word(self):
        """Takes the next word; `column` is then that of its first byte."""
        if not self.has_more():
            raise self.fault(WORD, len(self.text) + 1)
        self.column = 1 + sum(len(it) + 1 for it in self.words[: self.next])
        self.next += 1
        if not self.words[self.next - 1]:
            raise self.fault(WORD)
        return self.words[self.next - 1]

    def value(self, text, most):
        """The number that a text spells, where it is at most so great."""
        if most == "byte":
            if not BYTES.fullmatch(text) or len(text) != 2:
                raise self.fault(VALUE)
            return int(text, 16)
        if not NUMBER.fullmatch(text) or int(text) > most:
            raise self.fault(VALUE)
        return int(text)

    def bytes(self):
        text = self.word()
        if not BYTES.fullmatch(text):
            raise self.fault(VALUE)
        return bytes.fromhex(text.decode())

    def end(self):
        if self.has_more():
            self.word()
            raise self.fault(WORD)


def lines(text):
    """The lines of a text, each judged as it is reached."""
    if len(text) > LONGEST:
        raise Fault(f"line 0 column 0: fault {TOO_LONG}")
    whole = text.split(b"\n")
    for number, line in enumerate(whole, 1):
        is_last = number == len(whole)
        if is_last and not line:
            break
        bad = PRINTABLE.search(line)
        if bad:
            raise Fault(f"line {number} column {bad.start() + 1}: fault {NOT_TEXT}")
        if is_last:
            raise Fault(f"line {number} column {len(line) + 1}: fault {NO_END}")
        yield Line(number, line)
    raise Fault(f"line {len(whole)} column 1: fault {ORDER}")


def first_word(line, allowed):
    word = line.word()
    if word not in allowed:
        raise line.fault(ORDER if word in KNOWN else WORD)
    return word


class Device:
    """What a header describes."""

    def __init__(self):
        self.buffers, self.rings, self.entities, self.jobs = [], [], [], 0

    def take(self, word, line):
        """Reads what stands behind the first word of a line of the header."""
        if word == b"buffer":
            self.buffers.append(line.bytes())
        elif word == b"zero":
            self.buffers.append(bytes(line.value(line.word(), SHORT)))
        elif word == b"ring":
            self.rings.append(tuple(line.value(line.word(), most) for most in (SHORT, LONG, LONG)))
        elif word == b"entity":
            rings = [line.value(part, LONG) for part in line.word().split(b",")]
            if line.word() not in PRIORITIES:
                raise line.fault(WORD)
            self.entities.append((rings, line.words[line.next - 1]))
        elif word == b"jobs":
            self.jobs = line.value(line.word(), LONG)
        line.end()

    def refused(self):
        """Yields part and index of each limit that is not met."""
        if not 1 <= len(self.buffers) <= 64:
            yield 0, 0
        yield from ((1, i) for i, it in enumerate(self.buffers) if not 1 <= len(it) <= 4096)
        if not 1 <= len(self.rings) <= 8:
            yield 2, 0
        yield from ((3, i) for i, it in enumerate(self.rings) if it[0] < 1)
        yield from ((4, i) for i, it in enumerate(self.rings) if it[1] < 1)
        yield from ((5, i) for i, it in enumerate(self.rings) if it[2] > 1000)
        if not 1 <= len(self.entities) <= 64:
            yield 6, 0
        for i, (rings, _) in enumerate(self.entities):
            if len(rings) > 8 or len(set(rings)) != len(rings) or any(it >= len(self.rings) for it in rings):
                yield 7, i
        if not 1 <= self.jobs <= 65535:
            yield 8, 0


def read_header(rest):
    device, place = Device(), 0
    for line in rest:
        # lines of a kind that has passed do not come again, `jobs` stands once, and `go` behind it alone
        allowed = {word for word, kind in HEADER.items() if place <= kind < 4} if place < 3 else {b"go"}
        word = first_word(line, allowed)
        device.take(word, line)
        place = HEADER[word]
        if word == b"go":
            break
    for part, index in device.refused():
        raise Fault(f"refused 1 {part} {index}")
    return device


class Job:
    """The words of a job: entity, credits, declarations, fences, packets."""

    def __init__(self, line):
        self.entity, self.credits = line.value(line.word(), LONG), line.value(line.word(), SHORT)
        self.declared, self.after, self.packets = [], [], []
        while line.has_more():
            word = line.word()
            if b":" in word:
                name, *fields = word.split(b":")
                if len(PACKETS.get(name, ())) != len(fields):
                    raise line.fault(WORD)
                self.packets.append((name, *(line.value(*it) for it in zip(fields, PACKETS[name]))))
            elif word[:1] in (b"r", b"w", b"h", b"m"):
                if self.after or self.packets:
                    raise line.fault(WORD)
                self.declared.append((word[:1], line.value(word[1:], LONG)))
            elif word[:1] == b"a":
                if self.packets:
                    raise line.fault(WORD)
                self.after.append(line.value(word[1:], LONG))
            else:
                raise line.fault(WORD)

    def touched(self, packet):
        """The ranges that a packet reads, and those that it writes."""
        name, *fields = packet
        if name == b"fill":
            return [], [tuple(fields[:3])]
        if name == b"stall":
            return [], []
        source, start, target, offset, size = fields
        written = [(target, offset, size)]
        return [(source, start, size)] + (written if name == b"add" else []), written

    def is_sound(self, device):
        if self.entity >= len(device.entities) or self.credits < 1:
            return False
        if len(self.declared) > 16 or len(self.after) > 16 or len(self.packets) > 64:
            return False
        access = {buffer: kind for kind, buffer in self.declared}
        if len(access) != len(self.declared) or any(it >= len(device.buffers) for it in access):
            return False
        if b"m" in access.values() and device.entities[self.entity][1] != b"kernel":
            return False
        for packet in self.packets:
            reads, writes = self.touched(packet)
            if any(access.get(buffer) not in (b"r", b"w", b"m") for buffer, _, _ in reads):
                return False
            if any(access.get(buffer) not in (b"w", b"m") for buffer, _, _ in writes):
                return False
            if any(size < 1 or start + size > len(device.buffers[buffer]) for buffer, start, size in reads + writes):
                return False
        return True

    def run(self, memory, count):
        """Runs the first packets on the memory: what the machine does that runs one job after another."""
        for name, *fields in self.packets[:count]:
            if name == b"fill":
                buffer, start, size, byte = fields
                memory[buffer][start : start + size] = bytes([byte]) * size
            elif name in (b"copy", b"add"):
                source, start, target, offset, size = fields
                read, old = bytes(memory[source][start : start + size]), memory[target][offset : offset + size]
                memory[target][offset : offset + size] = read if name == b"copy" else bytes((a + b) % 256 for a, b in zip(read, old))


def read_command(line, device):
    things = {"context": 64, "ring": len(device.rings), "entity": len(device.entities), "buffer": len(device.buffers)}
    for kind in COMMANDS[first_word(line, COMMANDS)]:
        if kind == "job":
            Job(line)
        elif kind in things:
            if line.value(line.word(), LONG) >= things[kind]:
                raise line.fault(NO_SUCH)
        else:
            line.value(line.word(), kind)
    line.end()


def rest_of(rest):
    """The lines that are left, of a text that may end at each of them."""
    try:
        yield from rest
    except Fault as end:
        if not str(end).endswith(f"column 1: fault {ORDER}"):
            raise


def read_script(text):
    """Returns the number of commands of a script; raises its first fault."""
    rest = lines(text)
    device = read_header(rest)
    count = 0
    for line in rest_of(rest):
        read_command(line, device)
        count += 1
    return count


def read_run(text):
    """Returns the device and the jobs of a script for threads; raises its first fault."""
    rest = lines(text)
    device = read_header(rest)
    jobs = []
    for line in rest_of(rest):
        first_word(line, {b"submit"})
        jobs.append(Job(line))
        if len(jobs) > device.jobs or jobs[-1].after or not jobs[-1].is_sound(device):
            raise line.fault(BAD_JOB, 1)
    return device, jobs


def read_journal_job(line, device, number):
    ran, status = line.value(line.word(), LONG), line.word()
    if status not in STATUSES:
        raise line.fault(WORD)
    job = Job(line)
    is_turn = {b"0": True, b"-125": True, b"1": ran == len(job.packets), b"-3": ran == 0}[status]
    if (
        number >= device.jobs
        or not job.is_sound(device)
        or any(it >= number for it in job.after)
        or ran > len(job.packets)
        or not is_turn
    ):
        raise line.fault(BAD_JOB, 1)
    return job, ran


def read_journal(text):
    """Returns the bytes that the jobs of a journal leave, and those that it tells; raises its first fault."""
    rest = lines(text)
    device = read_header(rest)
    memory, finals, count = [bytearray(it) for it in device.buffers], [], 0
    for line in rest:
        allowed = [b"end"] if len(finals) == len(device.buffers) else [b"final"]
        word = first_word(line, allowed + [b"job"] * (not finals))
        if word == b"job":
            job, ran = read_journal_job(line, device, count)
            job.run(memory, ran)
            count += 1
        elif word == b"final":
            told = line.bytes()
            if len(told) != len(memory[len(finals)]):
                raise line.fault(VALUE)
            finals.append(told)
            line.end()
        else:
            line.end()
            break
    for line in rest_of(rest):
        first_word(line, ())
    return [bytes(it) for it in memory], finals
