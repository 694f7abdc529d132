"""Random logs as a scheduler writes them: jobs of entities on rings, which wait for one another, run and end. And logs of
what `drmsim replay` does with random scripts."""
import random

import program
import random_script
import reference

LOSSES = ("CPU:1 [LOST 12 EVENTS]", "CPU:1 [LOST EVENTS]", "CPU:3 [7 EVENTS DROPPED]", "##### CPU 2 buffer started ####")
RINGS = ("gfx", "sdma", "comp 1.0.1", "vcn_dec")


class Kernel:
    """A scheduler that keeps the rules, and the lines that it prints. Rings end their jobs in any order, or in theirs."""

    def __init__(self, it, in_order):
        self.it, self.in_order = it, in_order
        self.by_address = it.random() < 0.5
        self.rings = RINGS[: it.randint(1, len(RINGS))]
        self.entities = [(30 + place, it.choice(self.rings)) for place in range(it.randint(1, 4))]
        self.limits = {ring: it.randint(1, 3) for ring in self.rings}
        self.ids = dict.fromkeys(self.rings, 0)
        self.numbers = dict.fromkeys((entity for entity, _ in self.entities), 0)
        self.free = [0xFFFF000000000000 + 64 * place for place in range(12)]
        self.jobs, self.lines, self.time = [], [], 100 * 10**9

    def put(self, event, fields):
        """Prints a line."""
        self.time += self.it.randint(0, 30) * 1000
        cpu = self.it.randint(0, 3)
        task = self.it.choice(("kworker/u8:1-77", "<idle>-0", "Web Content-1234", "a: b [x]-9"))
        stamp = f"{self.time // 10**9}.{self.time % 10**9 // 1000:06}"
        self.lines.append(f"{task:>22} [{cpu:03}] ..... {stamp}: {event}: {' ' * self.it.choice((0, 0, 7))}{fields}")

    def queue(self):
        """A job is queued, and maybe waits for earlier ones."""
        if len(self.free) == 0:
            return
        entity, ring = self.it.choice(self.entities)
        self.ids[ring] += 1
        self.numbers[entity] += 1
        job = {"entity": entity, "ring": ring, "id": self.ids[ring], "number": self.numbers[entity], "fence": self.free.pop(0), "state": "queued"}
        job["after"] = self.it.sample(self.jobs[-6:], min(len(self.jobs[-6:]), self.it.randint(0, 2)))
        self.tell_job(job, "queue")
        for other in job["after"]:
            self.tell_wait(job, other)
        self.jobs.append(job)

    def tell_job(self, job, step):
        """A job is queued, or runs."""
        if self.by_address:
            event = {"queue": "drm_sched_job", "run": "drm_run_job"}[step]
            self.put(event, f"entity={0xAAAA0000 + job['entity']:016x}, id={job['id']}, fence={job['fence']:016x}, ring={job['ring']}, job count:1, hw job count:0")
        else:
            self.put(f"drm_sched_job_{step}", f"dev=0000:03:00.0, fence={job['entity']}:{job['number']}, ring={job['ring']}, job count:1, hw job count:0, client_id:5")

    def tell_wait(self, job, other):
        """A job waits for another, which has not ended."""
        if other["state"] == "ended":
            return
        if self.by_address:
            self.put("drm_sched_job_wait_dep", f"job ring={job['ring']}, id={job['id']}, depends fence={other['fence']:016x}, context={other['entity']}, seq={other['number']}")
        else:
            self.put("drm_sched_job_add_dep", f"fence={job['entity']}:{job['number']} depends on fence={other['entity']}:{other['number']}")

    def is_met(self, job, other):
        """Whether a job need not wait for another any more."""
        return other["state"] == "ended" or (other["state"] == "runs" and other["ring"] == job["ring"])

    def heads(self):
        """The jobs that may run: the first of each entity, where all is met and the ring has room."""
        seen = set()
        for job in self.jobs:
            if job["state"] != "queued" or job["entity"] in seen:
                continue
            seen.add(job["entity"])
            busy = sum(1 for it in self.jobs if it["state"] == "runs" and it["ring"] == job["ring"])
            if busy < self.limits[job["ring"]] and all(self.is_met(job, it) for it in job["after"]):
                yield job

    def run(self):
        """A job runs."""
        heads = list(self.heads())
        if heads:
            job = self.it.choice(heads)
            job["state"], job["place"] = "runs", len(self.lines)
            self.tell_job(job, "run")

    def end(self):
        """A job ends, and its fence's address is free again."""
        running = sorted((it for it in self.jobs if it["state"] == "runs"), key=lambda it: it["place"])
        if not running:
            return
        job = self.it.choice(running)
        if self.in_order:
            job = next(it for it in running if it["ring"] == job["ring"])
        job["state"] = "ended"
        self.free.append(job["fence"])
        if self.by_address:
            self.put("drm_sched_process_job", f"fence={job['fence']:016x} signaled")
        else:
            self.put("drm_sched_job_done", f"fence={job['entity']}:{job['number']} signaled")

    def other(self):
        """A line of something else, which may be that events were lost."""
        if self.it.random() < 0.1:
            self.lines.append(self.it.choice(LOSSES))
        else:
            self.put("sched_switch", "prev_comm=swapper/0 prev_pid=0 ==> next_comm=cat next_pid=7")


def log_of(seed, steps):
    """A log that keeps all rules, as lines; whether its rings keep their order; and their limits."""
    it = random.Random(seed)
    kernel = Kernel(it, it.random() < 0.5)
    for _ in range(steps):
        it.choice((kernel.queue, kernel.queue, kernel.run, kernel.run, kernel.end, kernel.end, kernel.other))()
    return kernel.lines, kernel.in_order, kernel.limits


class Told:
    """The log of a run, line by line."""

    def __init__(self):
        self.lines = []

    def put(self, event, fields):
        time = 100 * 10**6 + 13 * len(self.lines)
        self.lines.append(f"  drmsim-1  [000] ..... {time // 10**6}.{time % 10**6:06}: {event}: {fields}")

    def fence(self, job):
        return f"fence={20 + job.entity.number}:{job.number}"

    def take(self, device, command, answer):
        """Tells what an answer says of a job."""
        name, *words = answer.split(" ")
        if name not in ("armed", "picked", "finished", "reaped"):
            return
        job = device.jobs[int(words[0])]
        fields = f"dev=0000:03:00.0, {self.fence(job)}, ring=ring {job.ring.number}, job count:1, hw job count:0, client_id:5"
        if name == "armed":
            self.put("drm_sched_job_queue", fields)
            for earlier in job.dependencies:
                self.put("drm_sched_job_add_dep", f"{self.fence(job)} depends on {self.fence(earlier)}")
        elif name == "picked":
            self.put("drm_sched_job_run", fields)
        else:
            self.put("drm_sched_job_done", f"{self.fence(job)} signaled")


def log_of_run(seed):
    """The log of what `drmsim replay` does with a random script. A second reader tells what each job waits for, and has to
    give the same answers; else there is no log."""
    header, commands = random_script.Maker(random.Random(f"run {seed}")).lines()
    text = "\n".join([*header, *commands, ""])
    status, output, _ = program.run(["replay"], text.encode())
    answers, device, told = output.decode().splitlines(), reference.Device(()), Told()
    for line in header:
        device.take(*reference.words_of(line))
    for command, answer in zip(commands, answers):
        if device.answer(command) != answer:
            return None
        told.take(device, command, answer)
    return told.lines if status == 0 and len(answers) == len(commands) else None


def damaged(it, lines):
    """The lines with one moved, doubled or lost, or a front or a back that is lost."""
    lines = list(lines)
    if not lines:
        return lines
    place = it.randrange(len(lines))
    kind = it.choice(("move", "double", "lose", "begin", "end"))
    if kind == "move":
        line = lines.pop(place)
        lines.insert(it.randrange(len(lines) + 1), line)
    elif kind == "double":
        lines.insert(it.randrange(len(lines) + 1), lines[place])
    elif kind == "lose":
        lines.pop(place)
    elif kind == "begin":
        lines = lines[place:]
    else:
        lines = lines[:place]
    return lines
