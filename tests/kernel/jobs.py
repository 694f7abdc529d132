"""The jobs of a script in plain Python: their words, the checks of a submission, and their packets."""

# the usages of a fence, strongest first: what a job with an access waits for, and what it adds
KERNEL, WRITE, READ, BOOKKEEP = range(4)
WANTS = {"r": WRITE, "w": READ, "h": KERNEL, "m": BOOKKEEP}
ADDS = {"r": READ, "w": WRITE, "h": BOOKKEEP, "m": KERNEL}
MOST = ((16, "declared"), (16, "after"), (64, "packets"))


class Job:
    """A job: what it declares, what it waits for, its packets, and how far it is."""

    __slots__ = (
        "entity", "credits", "declared", "after", "packets", "number", "ring", "dependencies", "looked_at", "waits_for",
        "phase", "status", "ran", "resets", "karma", "is_skipped",
    )  # fmt: skip

    def __init__(self, entity, credits):
        self.entity, self.credits, self.declared, self.after, self.packets = entity, credits, [], [], []
        self.number = self.ring = self.waits_for = None
        self.dependencies = []
        self.looked_at = self.phase = self.status = self.ran = self.resets = self.karma = 0
        self.is_skipped = False

    def is_complete(self):
        return self.is_skipped or self.ran == len(self.packets)


def read_packet(word):
    name, *fields = word.split(":")
    if name == "fill":
        return (name, *map(int, fields[:3]), int(fields[3], 16))
    return (name, *map(int, fields))


def read_job(words):
    """Reads a job. Its entity is a number until the job was checked."""
    job = Job(int(words[0]), int(words[1]))
    for word in words[2:]:
        if ":" in word:
            job.packets.append(read_packet(word))
        elif word[0] == "a":
            job.after.append(int(word[1:]))
        else:
            job.declared.append((word[0], int(word[1:])))
    return job


def ranges_of(packet):
    """The source range of a packet, where it has one, and the target range."""
    name, *fields = packet
    if name == "fill":
        return None, tuple(fields[:3])
    source, start, target, offset, length = fields
    return (source, start, length), (target, offset, length)


def packet_fault(packet, number, access, memory):
    if packet[0] == "stall":
        return None
    source, target = ranges_of(packet)
    touched = [it for it in (source, target) if it]
    kinds = [access.get(buffer) for buffer, _, _ in touched]
    if None in kinds:
        return f"refused 16 {number}"
    if "h" in kinds:
        return f"refused 21 {number}"
    if access[target[0]] == "r":
        return f"refused 17 {number}"
    if any(length < 1 or start + length > len(memory[buffer]) for buffer, start, length in touched):
        return f"refused 18 {number}"
    return None


def declaration_fault(job, device):
    buffers = [it for _, it in job.declared]
    for it in buffers:
        if it >= len(device.memory):
            return f"refused 14 {it}"
    for at, it in enumerate(buffers):
        if it in buffers[:at]:
            return f"refused 15 {it}"
    for access, buffer in job.declared:
        if access == "m" and device.entities[job.entity].priority != 0:
            return f"refused 19 {buffer}"
    return None


def fault_of(job, device):
    """Returns the refusal of a job's first fault, or gives the job its entity."""
    if job.entity >= len(device.entities):
        return "refused 10"
    if job.credits < 1:
        return "refused 11"
    for what, (most, name) in enumerate(MOST):
        if len(getattr(job, name)) > most:
            return f"refused 13 {what}"
    fault = declaration_fault(job, device)
    access = {buffer: kind for kind, buffer in job.declared}
    for number, packet in enumerate(job.packets):
        fault = fault or packet_fault(packet, number, access, device.memory)
    if not fault:
        job.entity = device.entities[job.entity]
    return fault


def run_packet(memory, packet):
    """Runs a packet on the memory."""
    name, *fields = packet
    if name == "fill":
        buffer, start, length, byte = fields
        memory[buffer][start : start + length] = bytes([byte]) * length
    elif name in ("copy", "add"):
        source, start, target, offset, length = fields
        read = bytes(memory[source][start : start + length])
        old = memory[target][offset : offset + length]
        new = read if name == "copy" else bytes((a + b) % 256 for a, b in zip(old, read))
        memory[target][offset : offset + length] = new
