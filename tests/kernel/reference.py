"""The machine of docs/MODEL.md in plain Python, with the rules of the kernel as switches.

With no rule it answers a script as `drmsim replay` does. With all of RULES it answers as drm_sched, dma_resv and
ww_mutex do. So each difference between the two has a name, and one that has none is found.
"""
from jobs import ADDS, WANTS, fault_of, read_job, run_packet

# what the kernel does in another way than the model, and which function of it does so
RULES = {
    "rearm": "each start of a job arms the ring's timer again (drm_sched_job_begin)",
    "guilty_first": "the first hang of a job marks its entity (drm_sched_increase_karma)",
    "credits_first": "a head that does not fit holds its ring, ready or not (drm_sched_rq_select_entity_fifo)",
    "look_once": "a head that was found waiting is passed over, whatever its credits (drm_sched_entity_is_ready)",
    "pipeline_error": "behind an error on the own ring the end is waited for (drm_sched_entity_add_dependency_cb)",
    "error_once": "that error is looked for once, as the dependency is come to (drm_sched_job_dependency)",
    "complete_rearm": "a timeout that finds a complete head arms the timer again (drm_sched_job_timedout)",
    "score_entities": "the load of a ring counts the entities on its run queues too (drm_sched_rq_add_entity)",
    "score_leak": "a killed job stays in the load of its ring (drm_sched_entity_kill_jobs_work)",
    "compact": "a reservation's list that has to grow drops what has ended (dma_resv_reserve_fences)",
    "kill_at_once": "the queued jobs of a stopped entity end by themselves (drm_sched_entity_kill)",
}
QUEUED, SCHEDULED, ENDED = range(3)
GOOD, SKIPPED, STOPPED = 1, -125, -3
PRIORITIES = ("kernel", "high", "normal", "low")
WRITE = 1  # of the usages: kernel 0, write 1, read 2, bookkeep 3
MOST_RESETS = 65535


class Ring:
    """A ring: what it may hold, its pending jobs, and the moment from which its head's age counts."""

    def __init__(self, number, limit, timeout, hang_limit):
        self.number, self.limit, self.timeout, self.hang_limit = number, limit, timeout, hang_limit
        self.pending, self.counted, self.since = [], 0, 0
        self.jobs, self.entities = 0, 0  # what makes its load


class Entity:
    """An entity: its queue, and the ring on which it is."""

    def __init__(self, number, rings, priority):
        self.number, self.rings, self.ring, self.priority = number, rings, rings[0], priority
        self.queue, self.left = [], 0
        self.is_stopped = self.is_guilty = self.is_listed = False
        self.killed = []


class Context:
    """A context that has begun."""

    def __init__(self, ticket):
        self.ticket, self.held, self.is_sealed, self.plan = ticket, set(), False, None
        self.waits = self.came = None  # of waiting.py alone


class Reservation:
    """The entries of a buffer, each a job with its usage, and the room of the list."""

    def __init__(self):
        self.entries, self.room, self.holder = [], 0, None

    def reserve(self, drops_ended):
        """Makes room for one entry more. The sizes are those of the kernel's allocator."""
        if self.room and len(self.entries) < self.room:
            return
        wanted = max(len(self.entries) + 1, 2 * self.room) if self.room else 4
        size = 32
        while size < 24 + 8 * wanted:
            size *= 2
        self.room = (size - 24) // 8
        if drops_ended:
            self.entries = [it for it in self.entries if it[0].phase != ENDED]

    def add(self, job, usage):
        """The first entry that has ended, or that the new one stands for, gives it its place."""
        for at, (old, old_usage) in enumerate(self.entries):
            if old.phase == ENDED or (old.entity is job.entity and old_usage >= usage):
                self.entries[at] = (job, usage)
                return
        self.entries.append((job, usage))


class Device:
    """A device, whose commands are its methods named `do_`; each returns its answer."""

    def __init__(self, rules):
        for rule in RULES:
            setattr(self, rule, rule in rules)
        self.memory, self.reservations, self.rings, self.entities = [], [], [], []
        self.most_jobs, self.jobs, self.contexts, self.tickets = 0, [], {}, 0

    def take(self, name, words):
        """Takes a line of the header."""
        if name in ("buffer", "zero"):
            self.memory.append(bytearray(int(words[0])) if name == "zero" else bytearray.fromhex(words[0]))
            self.reservations.append(Reservation())
        elif name == "ring":
            self.rings.append(Ring(len(self.rings), *map(int, words)))
        elif name == "entity":
            rings = [self.rings[int(it)] for it in words[0].split(",")]
            self.entities.append(Entity(len(self.entities), rings, PRIORITIES.index(words[1])))
        elif name == "jobs":
            self.most_jobs = int(words[0])

    def answer(self, line):
        """Does a command and returns its answer."""
        name, words = words_of(line)
        return getattr(self, f"do_{name}")(*words)

    # jobs

    def wait_for(self, job, earlier):
        """Adds what the job waits for: of each entity one, the latest."""
        for at, it in enumerate(job.dependencies):
            if it.entity is earlier.entity:
                if earlier.number > it.number:
                    job.dependencies[at] = earlier
                return
        job.dependencies.append(earlier)

    def plan_job(self, job):
        for access, buffer in job.declared:
            reservation = self.reservations[buffer]
            for earlier, usage in reservation.entries:
                if usage <= WANTS[access]:
                    self.wait_for(job, earlier)
            reservation.reserve(self.compact)

    def arming_fault(self, job):
        if job.entity.is_stopped:
            return "refused 30"
        if len(self.jobs) >= self.most_jobs:
            return "refused 31"
        for it in job.after:
            if it >= len(self.jobs):
                return f"refused 20 {it}"
        return None

    def load(self, ring):
        return ring.jobs + (ring.entities if self.score_entities else 0)

    def place(self, entity):
        """An entity with no job left moves to the least loaded of its rings, of equal ones to the first."""
        if not entity.left:
            best = min(entity.rings, key=self.load)
            if best is not entity.ring:
                self.unlist(entity)
                entity.ring = best

    def unlist(self, entity):
        if entity.is_listed:
            entity.is_listed = False
            entity.ring.entities -= 1

    def arm_job(self, job):
        entity = job.entity
        for it in job.after:
            self.wait_for(job, self.jobs[it])
        self.place(entity)
        job.number, job.ring = len(self.jobs), entity.ring
        job.credits = min(job.credits, job.ring.limit)
        self.jobs.append(job)
        for access, buffer in job.declared:
            self.reservations[buffer].add(job, ADDS[access])
        entity.queue.append(job)
        entity.left += 1
        entity.ring.jobs += 1
        if not entity.is_listed:
            entity.is_listed = True
            entity.ring.entities += 1
        return f"armed {job.number}"

    def end_job(self, job, status):
        job.phase, job.status = ENDED, status
        job.entity.left -= 1
        if not (status == STOPPED and self.score_leak):
            job.ring.jobs -= 1

    def do_submit(self, *words):
        job = read_job(words)
        fault = fault_of(job, self)
        if fault:
            return fault
        for _, buffer in job.declared:
            if self.reservations[buffer].holder:
                return f"refused 57 {buffer}"
        fault = self.arming_fault(job)
        if fault:
            return fault
        self.plan_job(job)
        return self.arm_job(job)

    # rings

    def waiting(self, job):
        """What a head was found to wait for, as long as that has not come: a job and its phase."""
        if job.waits_for and job.waits_for[0].phase >= job.waits_for[1]:
            job.waits_for = None
        return job.waits_for

    def is_ready(self, job):
        """Looks at what a head waits for; notes the first that has not come."""
        if self.waiting(job):
            return False
        for at in range(job.looked_at if self.error_once else 0, len(job.dependencies)):
            earlier = job.dependencies[at]
            if earlier.entity is job.entity:
                continue
            is_behind = earlier.ring is job.ring and not (self.pipeline_error and earlier.is_skipped)
            phase = SCHEDULED if is_behind else ENDED
            if earlier.phase < phase:
                job.waits_for, job.looked_at = (earlier, phase), at + 1
                return False
        job.looked_at = len(job.dependencies)
        return True

    def choose(self, ring):
        """Returns the job that the ring takes next, or why it takes none."""
        heads = [it.queue[0] for it in self.entities if it.queue and it.ring is ring and not it.is_stopped]
        for job in sorted(heads, key=lambda it: (it.entity.priority, it.number)):
            if self.look_once and self.waiting(job):
                continue
            is_fit = job.credits <= ring.limit - ring.counted
            if (is_fit or not self.credits_first) and not self.is_ready(job):
                continue
            if not is_fit:
                return None, f"refused 41 {job.credits} {ring.limit - ring.counted}"
            return job, None
        return None, "refused 40"

    def do_pick(self, ring, now):
        ring = self.rings[int(ring)]
        job, refusal = self.choose(ring)
        if refusal:
            return refusal
        job.entity.queue.pop(0)
        if self.rearm or not ring.pending:
            ring.since = int(now)
        ring.pending.append(job)
        ring.counted += job.credits
        job.phase, job.is_skipped = SCHEDULED, job.entity.is_guilty
        return f"picked {job.number} {'skip' if job.is_skipped else 'run'}"

    def do_step(self, ring):
        for job in self.rings[int(ring)].pending:
            if job.is_complete():
                continue
            packet = job.packets[job.ran]
            if packet[0] == "stall" and job.resets < packet[1]:
                return f"stalled {job.number}"
            run_packet(self.memory, packet)
            job.ran += 1
            return f"ran {job.number} {job.ran - 1}"
        return "refused 40"

    def do_finish(self, ring, now):
        ring = self.rings[int(ring)]
        if not ring.pending:
            return "refused 40"
        job = ring.pending[0]
        if not job.is_complete():
            return "refused 42"
        ring.pending.pop(0)
        ring.counted -= job.credits
        if ring.pending:
            ring.since = int(now)
        self.end_job(job, SKIPPED if job.is_skipped else GOOD)
        self.settle()
        return f"finished {job.number} {job.status}"

    def do_timeout(self, ring, now):
        ring, now = self.rings[int(ring)], int(now)
        age = max(0, now - ring.since)
        if not ring.pending:
            return "empty"
        if age < ring.timeout:
            return f"notyet {ring.timeout - age}"
        job = ring.pending[0]
        if not job.is_complete():
            ring.since = now
            return self.hang(ring, job)
        if self.complete_rearm:
            ring.since = now
        return "complete"

    def hang(self, ring, job):
        job.resets = min(job.resets + 1, MOST_RESETS)
        if PRIORITIES[job.entity.priority] != "kernel":
            job.karma = min(job.karma + 1, MOST_RESETS)
            job.entity.is_guilty |= self.guilty_first
        if job.karma <= ring.hang_limit:
            return "resumed"
        job.entity.is_guilty = True
        for it in ring.pending:
            it.is_skipped |= it.entity is job.entity
        return f"guilty {job.entity.number}"

    # entities

    def may_stop(self, job):
        """Everything that a queued job comes after has ended: its dependencies, and the job before it."""
        before = self.jobs[: job.number]
        return all(it.phase == ENDED for it in job.dependencies) and not any(
            it.entity is job.entity and it.phase != ENDED for it in before
        )

    def settle(self):
        """Ends the queued jobs of stopped entities, where they end by themselves."""
        if not self.kill_at_once:
            return
        stopped = [it for it in self.entities if it.is_stopped]
        is_new = True
        while is_new:
            is_new = False
            for entity in stopped:
                while entity.queue and self.may_stop(entity.queue[0]):
                    self.end_job(entity.queue[0], STOPPED)
                    entity.killed.append(entity.queue.pop(0))
                    is_new = True

    def do_cancel(self, entity):
        entity = self.entities[int(entity)]
        if entity.is_stopped:
            return "refused 43"
        entity.is_stopped = True
        self.unlist(entity)
        self.settle()
        return "ok"

    def do_reap(self, entity):
        entity = self.entities[int(entity)]
        if entity.killed:
            return f"reaped {entity.killed.pop(0).number}"
        if not entity.is_stopped or not entity.queue:
            return "refused 45"
        job = entity.queue[0]
        if not self.may_stop(job):
            return "refused 44"
        entity.queue.pop(0)
        self.end_job(job, STOPPED)
        return f"reaped {job.number}"

    # contexts

    def do_begin(self, context):
        if int(context) in self.contexts:
            return "refused 50"
        self.tickets += 1
        self.contexts[int(context)] = Context(self.tickets)
        return f"ticket {self.tickets}"

    def do_try(self, context, buffer):
        own, reservation = self.contexts.get(int(context)), self.reservations[int(buffer)]
        if not own:
            return "refused 51"
        if own.is_sealed:
            return "refused 55"
        if reservation.holder is own:
            return "refused 114"
        if reservation.holder:
            ticket = reservation.holder.ticket
            return f"{'older' if ticket < own.ticket else 'younger'} {ticket}"
        reservation.holder = own
        own.held.add(int(buffer))
        return "held"

    def do_done(self, context):
        own = self.contexts.get(int(context))
        if not own:
            return "refused 51"
        if own.is_sealed:
            return "refused 55"
        own.is_sealed = True
        return "ok"

    def do_drop(self, context, buffer):
        own, buffer = self.contexts.get(int(context)), int(buffer)
        if not own:
            return "refused 51"
        if buffer not in own.held:
            return f"refused 52 {buffer}"
        own.held.remove(buffer)
        own.plan = self.reservations[buffer].holder = None
        return "ok"

    def do_end(self, context):
        own = self.contexts.get(int(context))
        if not own:
            return "refused 51"
        if own.held:
            return f"refused 56 {min(own.held)}"
        del self.contexts[int(context)]
        return "ok"

    def do_plan(self, context, *words):
        own = self.contexts.get(int(context))
        if not own:
            return "refused 51"
        job = read_job(words)
        fault = fault_of(job, self)
        if fault:
            return fault
        if any(buffer not in own.held for _, buffer in job.declared):
            return "refused 53"
        self.plan_job(job)
        own.plan, own.is_sealed = job, True
        return "planned"

    def do_arm(self, context):
        own = self.contexts.get(int(context))
        if not own:
            return "refused 51"
        if not own.plan:
            return "refused 54"
        fault = self.arming_fault(own.plan)
        if fault:
            return fault
        job, own.plan = own.plan, None
        return self.arm_job(job)

    def do_read(self, context, buffer):
        own, buffer = self.contexts.get(int(context)), int(buffer)
        if not own:
            return "refused 51"
        if buffer not in own.held:
            return f"refused 52 {buffer}"
        entries = self.reservations[buffer].entries
        writers = [job.number for job, usage in entries if usage <= WRITE and job.phase != ENDED]
        return f"refused 46 {min(writers)}" if writers else self.do_dump(buffer)

    def do_fence(self, fence):
        if int(fence) >= len(self.jobs):
            return f"refused 20 {fence}"
        return f"fence {self.jobs[int(fence)].status}"

    def do_dump(self, buffer):
        return f"bytes {self.memory[int(buffer)].hex()}"


def words_of(line):
    """The first word of a line, and those behind it."""
    name, *words = line.split(" ")
    return name, words


def replay(text, rules=(), kind=Device):
    """Returns the answers to a script, a list of lines."""
    device, lines = kind(rules), text.splitlines()
    first = lines.index("go") + 1
    for line in lines[:first]:
        device.take(*words_of(line))
    return [device.answer(it) for it in lines[first:]]


RULES_OF_ALL = (tuple(RULES), Device)
