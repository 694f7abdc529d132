"""A second reading of why jobs wait, written from docs/MODEL.md and not from the program: it follows a device by the answers
that the program gives to a script, and says of each job why it waits, or what it does."""
import second_reader

PRIORITIES = [b"kernel", b"high", b"normal", b"low"]
# of the usages of a fence, weakest first: what each access adds, and the weakest one that it waits for
ADDS = {b"h": 0, b"r": 1, b"w": 2, b"m": 3}
WAITS_FOR = {b"m": 0, b"w": 1, b"r": 2, b"h": 3}
DOES = {b"r": "reads", b"w": "writes", b"h": "holds", b"m": "moves"}
ENDED = {"1": "has ended: it is done", "-125": "has ended: it was skipped", "-3": "has ended: it was stopped"}


class Job:
    """An armed job, as far as its reason is of interest."""

    def __init__(self, words, fence, ring):
        self.words, self.fence, self.ring = words, fence, ring
        self.entity, self.credits, self.after = words.entity, words.credits, words.after
        self.phase, self.ran, self.skipped, self.resets, self.status = "queued", 0, False, 0, None

    def is_complete(self):
        return self.skipped or self.ran >= len(self.words.packets)

    def stalls(self):
        packet = self.words.packets[self.ran]
        return packet[0] == b"stall" and self.resets < packet[1]

    def clash(self, earlier):
        """The buffer by which an earlier job holds this one up, with what both do there."""
        for does, buffer in earlier.words.declared:
            for wants, other in self.words.declared:
                if buffer == other and ADDS[does] >= WAITS_FOR[wants]:
                    return buffer, does, wants
        return None

    def comes_after(self, earlier):
        return self.clash(earlier) is not None or earlier.fence in self.after


class Device:
    """A device that its answers tell."""

    def __init__(self, spec):
        self.spec, self.jobs, self.plans = spec, [], {}
        self.pending = [[] for _ in spec.rings]
        self.stopped = set()

    # ---- what happens

    def ring_for(self, entity):
        for job in self.jobs:
            if job.entity == entity and job.phase != "ended":
                return job.ring
        load = [sum(it.ring == ring and it.phase != "ended" for it in self.jobs) for ring in range(len(self.spec.rings))]
        return min(self.spec.entities[entity][0], key=lambda ring: load[ring])

    def arm(self, words, fence):
        assert fence == len(self.jobs)
        self.jobs.append(Job(words, fence, self.ring_for(words.entity)))

    def take(self, command, answer):
        """Takes a command, as its words, with the words of its answer."""
        name, said = command.words[0], answer[0]
        number = int(command.words[1])
        if name in (b"submit", b"plan"):
            command.next = 1 if name == b"submit" else 2
            words = second_reader.Job(command)
            if said == "planned":
                self.plans[number] = words
            elif said == "armed":
                self.arm(words, int(answer[1]))
        elif said == "armed":
            self.arm(self.plans[number], int(answer[1]))
        elif said == "picked":
            job = self.jobs[int(answer[1])]
            assert job.ring == number
            job.phase, job.skipped = "pending", answer[2] == "skip"
            self.pending[number].append(job)
        elif said == "ran":
            self.jobs[int(answer[1])].ran = int(answer[2]) + 1
        elif said == "finished":
            job = self.pending[number].pop(0)
            assert job.fence == int(answer[1])
            job.phase, job.status = "ended", answer[2]
        elif said in ("resumed", "guilty"):
            self.pending[number][0].resets += 1
            for job in self.pending[number]:
                job.skipped |= said == "guilty" and job.entity == int(answer[1])
        elif name == b"cancel" and said == "ok":
            self.stopped.add(number)
        elif said == "reaped":
            job = self.jobs[int(answer[1])]
            job.phase, job.status = "ended", "-3"

    # ---- why

    def queue(self, entity):
        return [it for it in self.jobs if it.entity == entity and it.phase == "queued"]

    def unmet(self, job):
        """The earlier jobs that this one comes after and that are not met for it."""
        return [
            it
            for it in self.jobs[: job.fence]
            if job.comes_after(it) and it.phase != "ended" and (it.phase == "queued" or it.ring != job.ring)
        ]

    def choice(self, ring):
        """The job that the ring takes next: of those that are ready the one of the highest priority, of these the first."""
        heads = [self.queue(it)[0] for it in range(len(self.spec.entities)) if it not in self.stopped and self.queue(it)]
        ready = [it for it in heads if it.ring == ring and not self.unmet(it)]
        return min(ready, key=lambda it: (PRIORITIES.index(self.spec.entities[it.entity][1]), it.fence), default=None)

    def counted(self, job):
        return min(job.credits, self.spec.rings[job.ring][0])

    def reason(self, fence):
        """Why the job waits, or what it does, and the fence of the job that holds it up."""
        if fence >= len(self.jobs):
            return "is not armed", None
        job = self.jobs[fence]
        if job.phase == "ended":
            return ENDED[job.status], None
        return self.queued(job) if job.phase == "queued" else self.on_ring(job)

    def queued(self, job):
        if job.entity in self.stopped:
            before = [it for it in self.jobs[: job.fence] if it.phase != "ended" and (job.comes_after(it) or it.entity == job.entity)]
            if not before:
                return "is of a stopped entity, and a reap ends it", None
            return f"is of a stopped entity, and waits for fence {before[0].fence} to end", before[0].fence
        head = self.queue(job.entity)[0]
        if head is not job:
            return f"waits behind fence {head.fence}, the first in the queue of its entity", head.fence
        unmet = self.unmet(job)
        if unmet:
            return self.waiting(job, unmet[0]), unmet[0].fence
        following = self.choice(job.ring)
        if following is not job:
            return f"waits behind fence {following.fence}, which comes first on ring {job.ring}", following.fence
        free = self.spec.rings[job.ring][0] - sum(map(self.counted, self.pending[job.ring]))
        if free < self.counted(job):
            return f"needs {self.counted(job)} credits, and ring {job.ring} has {free} left", None
        return f"is the next that ring {job.ring} takes", None

    def waiting(self, job, earlier):
        clash = job.clash(earlier)
        how = ", which this job names" if clash is None else f", which {DOES[clash[1]]} buffer {clash[0]} that this job {DOES[clash[2]]}"
        return f"waits for fence {earlier.fence}{how}, and is {earlier.phase}{' for' if earlier.phase == 'queued' else ' on'} ring {earlier.ring}"

    def on_ring(self, job):
        ring = self.pending[job.ring]
        if job.is_complete():
            front = ring[0]
        else:
            front = next(it for it in ring if not it.is_complete())
        if front is not job:
            return f"is pending behind fence {front.fence} on ring {job.ring}", front.fence
        if job.is_complete():
            return f"is complete, and the first to finish on ring {job.ring}", None
        return f"{'stalls at' if job.stalls() else 'runs'} packet {job.ran} on ring {job.ring}", None

    # ---- what is told of all

    def line(self, fence):
        return f"fence {fence} {self.reason(fence)[0]}\n"

    def chain(self, fence):
        """The jobs that hold this one up, one the other. One that is no earlier job ends them."""
        held = self.reason(fence)[1]
        while held is not None:
            yield held
            held, fence = self.reason(held)[1] if held < fence else None, held

    def jobs_text(self):
        return "".join(self.line(it) for it in range(len(self.jobs)))

    def doing(self, ring):
        """What the ring does, and the fence that holds up the first job that is queued for it."""
        if self.pending[ring]:
            return "busy", None
        if self.choice(ring):
            return "ready", None
        queued = [it for it in self.jobs if it.phase == "queued" and it.ring == ring]
        if not queued:
            return "unused", None
        if queued[0].entity in self.stopped:
            return "stopped", None
        return "held", self.reason(queued[0].fence)[1]


class Words:
    """What `replay --words` tells behind the sentence of each answer: names and reasons, command by command."""

    def __init__(self, spec):
        self.device, self.holders = Device(spec), {}

    def job(self, fence, role):
        return f": fence {fence} of entity {self.device.jobs[fence].entity}{role} {self.device.reason(fence)[0]}"

    def heads(self):
        """The first job in the queue of each entity."""
        queues = map(self.device.queue, range(len(self.device.spec.entities)))
        return [it[0].fence for it in queues if it]

    def missing(self, command):
        """The first buffer that the job of a plan declares and its context does not hold."""
        context, command.next = int(command.words[1]), 2
        declared = second_reader.Job(command).declared
        return next((buffer for _, buffer in declared if self.holders.get(buffer) != context), None)

    def waiting_for(self, fence):
        """The first jobs of queues that wait for this fence."""
        return [it for it in self.heads() if self.device.reason(it)[0].startswith(f"waits for fence {fence},")]

    def refused(self, command, answer):
        """Why the command is refused, where that is told."""
        name, number = command.words[0].decode(), int(command.words[1])
        if (answer[1], name) == ("40", "pick"):
            queued = [it.fence for it in self.device.jobs if it.phase == "queued" and it.ring == number]
            return self.job(queued[0], ", first in line,") if queued else ": none is queued for it"
        if answer[1] == "41":
            return self.job(self.device.choice(number).fence, ", next in line,")
        if answer[1] == "44":
            return f": {self.device.line(self.device.queue(number)[0].fence)[:-1]}"
        if answer[1] == "46":
            return f", which {self.device.reason(int(answer[2]))[0]}"
        if answer[1] == "53":
            buffer = self.missing(command)
            holder = self.holders.get(buffer)
            return f": no context holds buffer {buffer}" if holder is None else f": context {holder} holds buffer {buffer}"
        if answer[1] == "57":
            return f": context {self.holders[int(answer[2])]} holds it"
        return ""

    def take(self, command, answer):
        """Takes a command with the words of its answer, and returns what is told behind the sentence of that."""
        if answer[0] == "refused":
            return self.refused(command, answer)
        waited = self.waiting_for(int(answer[1])) if answer[0] == "finished" else []
        self.device.take(command, answer)
        if answer[0] == "held":
            self.holders[int(command.words[2])] = int(command.words[1])
        if command.words[0] == b"drop":
            self.holders[int(command.words[2])] = None
        if answer[0] == "armed":
            fence = int(answer[1])
            return f" for ring {self.device.jobs[fence].ring}: it {self.device.reason(fence)[0]}"
        free = [it for it in waited if not self.device.reason(it)[0].startswith("waits for fence")]
        return "".join(f", and lets fence {it} of entity {self.device.jobs[it].entity} go" for it in free)


def moment(command):
    """The moment that a command tells, if it tells one."""
    return int(command.words[2]) if command.words[0] in (b"pick", b"finish", b"timeout") else None


def text(command):
    """The text of a command, up to the entity of its job."""
    most = {b"submit": 2, b"plan": 3}.get(command.words[0], len(command.words))
    return b" ".join(command.words[:most]).decode()


class Lives:
    """The lives of jobs in a script, command by command."""

    def __init__(self, script, answers):
        rest = second_reader.lines(script)
        self.device = Device(second_reader.read_header(rest))
        commands = list(second_reader.rest_of(rest))
        answers = answers.decode().splitlines()
        assert len(answers) == len(commands)
        self.count, self.clock, self.changes, self.rows = len(commands), 0, {}, []
        for place, (command, answer) in enumerate(zip(commands, answers)):
            self.device.take(command, answer.split(" "))
            self.look(place, command)

    def look(self, place, command):
        now = moment(command)
        self.clock = self.clock if now is None else now
        self.rows.append((self.clock, [self.device.doing(it) for it in range(len(self.device.spec.rings))]))
        for fence in range(len(self.device.jobs)):
            reason = self.device.reason(fence)[0]
            changes = self.changes.setdefault(fence, [])
            if not changes or changes[-1][3] != reason:
                links = [self.device.line(it) for it in self.device.chain(fence)]
                changes.append((place, self.clock, text(command) + ("" if now is None else f", at moment {now}"), reason, links))

    def life(self, fence):
        """What is to be told of a job."""
        changes = self.changes.get(fence, [])
        told = [f"{place} {command}: {reason}\n" for place, _, command, reason, _ in changes] or [f"fence {fence} is not armed\n"]
        ends = [it[:2] for it in changes[1:]] + [(self.count, self.clock)]
        spans = [(end[0] - it[0], max(0, end[1] - it[1])) for it, end in zip(changes, ends)]
        for (_, _, _, reason, _), (commands, moments) in zip(changes, spans):
            if not reason.startswith("has ended"):
                told.append(f"for {commands} commands and {moments} moments: {reason}\n")
        held = [(-span[0], place) for place, (change, span) in enumerate(zip(changes, spans)) if change[4]]
        if held:
            _, place = min(held)
            commands, moments = spans[place]
            told += [f"held up longest, for {commands} commands and {moments} moments, by\n", *changes[place][4]]
        return "".join(told)

    # ---- rings

    def total(self, ring, *does):
        """For how many commands and moments the ring did this, and by which fence, where that is asked."""
        ends = [clock for clock, _ in self.rows[1:]] + [self.clock]
        held = [max(0, end - clock) for (clock, doings), end in zip(self.rows, ends) if doings[ring][: len(does)] == does]
        return len(held), min(sum(held), 2**64 - 1)

    def ring_line(self, ring):
        commands, moments = self.total(ring, "busy")
        told = f"ring {ring}: busy for {commands} commands and {moments} moments, idle"
        for does, how in ("unused", " with nothing queued"), ("ready", ", with a job to take"), ("stopped", ", with a stopped job"), ("held", ", held up by fences"):
            commands, moments = self.total(ring, does)
            told += f"{how} for {commands} and {moments}"
        fences = [doings[ring][1] for _, doings in self.rows if doings[ring][0] == "held"]
        if fences:
            longest = max(fences, key=lambda it: self.total(ring, "held", it)[0])
            commands, moments = self.total(ring, "held", longest)
            told += f", longest by fence {longest}, for {commands} and {moments}"
        return told + "\n"

    def rings_text(self):
        return "".join(map(self.ring_line, range(len(self.device.spec.rings))))
