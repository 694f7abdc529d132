"""A second judge of logs, slow on purpose: it was written from the rules, and not from the program. A regular expression for
each event, and for each rule a search over all lines of the log. It says what the program has to write of a log."""
import re

NUMBER = r"(0|[1-9][0-9]*)(?![0-9])"
ADDRESS = r"(?:0x)?([0-9a-f]+)"
MOST = 2**64 - 1
# each event with its fields: what stands behind its name
NUMBERED = {
    "drm_sched_job_queue": ("queue", rf"dev=(?:(?!, fence=).)*, fence={NUMBER}:{NUMBER}, ring=(.*?), job count:"),
    "drm_sched_job_run": ("run", rf"dev=(?:(?!, fence=).)*, fence={NUMBER}:{NUMBER}, ring=(.*?), job count:"),
    "drm_sched_job_done": ("end", rf"fence={NUMBER}:{NUMBER} signaled"),
    "drm_sched_job_add_dep": ("wait", rf"fence={NUMBER}:{NUMBER} depends on fence={NUMBER}:{NUMBER}"),
    "drm_sched_job_unschedulable": ("wait", rf"fence={NUMBER}:{NUMBER} depends on unsignalled fence={NUMBER}:{NUMBER}"),
}
ADDRESSED = {
    "drm_sched_job": ("queue", rf"entity={ADDRESS}, id={NUMBER}, fence={ADDRESS}, ring=(.*?), job count:"),
    "drm_run_job": ("run", rf"entity={ADDRESS}, id={NUMBER}, fence={ADDRESS}, ring=(.*?), job count:"),
    "drm_sched_process_job": ("end", rf"fence={ADDRESS} signaled"),
    "drm_sched_job_wait_dep": ("wait", rf"job ring=((?:(?!, id=).)*), id={NUMBER}, depends fence={ADDRESS}, context={NUMBER}, seq={NUMBER}"),
}
NAMES = "|".join(sorted([*NUMBERED, *ADDRESSED], key=len, reverse=True))
EVENT = re.compile(rf": ({NAMES}): *")
LOSS = re.compile(r"\[(LOST )?([0-9]+ )?EVENTS( DROPPED)?\]|##### CPU [0-9]+ buffer started ####")
TIME = re.compile(r"(0|[1-9][0-9]{0,9})\.([0-9]{6}|[0-9]{9})")


class NoLog(Exception):
    """The text is none that the program reads."""


class Line:
    """A line that tells of a job. `job` and `on` are names; `ring` and `entity` stand where a job is queued or runs."""

    def __init__(self, line, time, what, job, **more):
        self.line, self.time, self.what, self.job = line, time, what, job
        self.entity, self.number, self.ring, self.on = (more.get(it) for it in ("entity", "number", "ring", "on"))


def time_of(word):
    """The nanoseconds of a time."""
    found = TIME.fullmatch(word)
    if not found:
        raise NoLog("time")
    return int(found[1]) * 10**9 + int(found[2].ljust(9, "0"))


def numbers(words):
    """Numbers of 64 bits."""
    found = [int(word) for word in words]
    if max(found) > MOST:
        raise NoLog("number")
    return found


def address(word):
    """An address of 64 bits."""
    if int(word, 16) > MOST:
        raise NoLog("address")
    return int(word, 16)


def numbered(line, time, what, fields):
    """A line of a kernel that names fences by context and number."""
    if what == "wait":
        a, b, c, d = numbers(fields.groups())
        return Line(line, time, what, (a, b), on=(c, d))
    context, number = numbers(fields.groups()[:2])
    if what == "end":
        return Line(line, time, what, (context, number))
    return Line(line, time, what, (context, number), entity=context, number=number, ring=fields[3])


def addressed(line, time, what, fields, holders):
    """A line of a kernel that names fences by address, or none where no line before names the fence."""
    if what == "end":
        job = holders.get(address(fields[1]))
        return job and Line(line, time, what, job)
    if what == "wait":
        numbers(fields.groups()[3:])
        (number,), on = numbers([fields[2]]), holders.get(address(fields[3]))
        return on and Line(line, time, what, (fields[1], number), on=on)
    entity, (number,), fence, ring = address(fields[1]), numbers([fields[2]]), address(fields[3]), fields[4]
    holders[fence] = (ring, number)
    return Line(line, time, what, (ring, number), entity=(entity, ring), number=number, ring=ring)


def read(text):
    """The lines of a log, the names of its rings in their order, those of its jobs, how many lines it has, and the last one
    that tells that events were lost."""
    lines = text.split("\n")
    if not lines[-1]:
        lines.pop()
    log, rings, jobs, holders, kinds, lost = [], [], [], {}, set(), None
    for place, bytes_of in enumerate(lines, 1):
        found = EVENT.search(bytes_of)
        if not found:
            lost = place if LOSS.search(bytes_of) else lost
            continue
        table = NUMBERED if found[1] in NUMBERED else ADDRESSED
        kinds.add(table is NUMBERED)
        if len(kinds) > 1:
            raise NoLog("kernels")
        time = time_of(bytes_of[: found.start()].split(" ")[-1])
        what, form = table[found[1]]
        fields = re.match(form, bytes_of[found.end() :])
        if not fields:
            raise NoLog("fields")
        told = numbered(place, time, what, fields) if table is NUMBERED else addressed(place, time, what, fields, holders)
        if not told:
            continue
        log.append(told)
        for job in (told.job, told.on):
            if job is not None and job not in jobs:
                jobs.append(job)
        if told.ring is None and what == "wait" and table is ADDRESSED and told.job[0] not in rings:
            rings.append(told.job[0])
        if told.ring is not None and told.ring not in rings:
            rings.append(told.ring)
    return log, rings, jobs, len(lines), lost


class Judge:
    """A log under demands, of which the tolerance is in microseconds. Times are in nanoseconds."""

    def __init__(self, text, tolerance=0, in_order=False, limits=()):
        self.log, self.rings, self.jobs, self.count, self.lost = read(text)
        self.tolerance, self.in_order = tolerance * 1000, in_order
        self.limits = {}
        for ring, most in limits:
            self.limits.setdefault(ring, most)

    def first(self, what, job):
        """The first line that tells this of the job."""
        return next((it for it in self.log if it.what == what and it.job == job), None)

    def near(self, a, b):
        """Whether two lines may stand in either order."""
        return abs(a.time - b.time) < self.tolerance

    def precedes(self, a, b):
        """Whether a line stands before another, or may."""
        return a.line < b.line or self.near(a, b)

    def name(self, job):
        """A job in words."""
        return f"{job[0]}:{job[1]}"

    def begins(self, it):
        """Whether the line begins its job."""
        return it.what == "run" and it is self.first("run", it.job)

    def ring_ended(self, it):
        """The ring on which the line ends its job: that of the run before it."""
        run = self.first("run", it.job)
        return run.ring if it.what == "end" and it is self.first("end", it.job) and run and run.line < it.line else None

    def met(self, wait):
        """Whether the job that waits ran once what it waits for was met, as far as the log shows."""
        run, other, end = self.first("run", wait.job), self.first("run", wait.on), self.first("end", wait.on)
        if not run or not other:
            return True
        return bool(end and self.precedes(end, run)) or (other.ring == run.ring and self.precedes(other, run))

    def before(self, it, passes):
        """The last line before this one that passes."""
        return next((e for e in reversed(self.log) if e.line < it.line and passes(e)), None)

    def told(self, it, words):
        """A broken rule in a line."""
        ring = f" on {it.ring}" if it.what == "run" else ""
        return f"line {it.line}: job {self.name(it.job)}{ring} {words}"

    def behind(self, before, words):
        """A job with its line, and how it stands to another."""
        return f"job {self.name(before.job)} (line {before.line}) of its {words}"

    def of_queue(self, it):
        first = self.first("queue", it.job)
        if first is not it:
            yield f"is queued again: it was queued in line {first.line}"
        before = self.before(it, lambda e: e.what == "queue" and e.entity == it.entity)
        if before and before.number > it.number and not self.near(before, it):
            yield f"is queued behind {self.behind(before, 'entity, which comes later')}"

    def of_run(self, it):
        first, queue = self.first("run", it.job), self.first("queue", it.job)
        if first is not it:
            yield f"runs again: it ran in line {first.line}"
        if queue and not self.precedes(queue, it):
            yield f"runs before it is queued in line {queue.line}"
        before = self.before(it, lambda e: e.what == "run" and e.entity == it.entity)
        if before and before.number > it.number and not self.near(before, it):
            yield f"runs behind {self.behind(before, 'entity, which comes later')}"
        wait = next((e for e in self.log if e.what == "wait" and e.job == it.job and not self.met(e)), None)
        if wait and first is it:
            end = self.first("end", wait.on)
            where = f" (line {end.line})" if end else ""
            yield f"runs before job {self.name(wait.on)}, for which it waits (line {wait.line}), has ended{where}"
        most = self.limits.get(it.ring)
        begun = sum(1 for e in self.log if e.line < it.line and self.begins(e) and e.ring == it.ring)
        over = sum(1 for e in self.log if e.line < it.line and self.ring_ended(e) == it.ring)
        if most is not None and begun - over >= most:
            yield "runs while its ring has as many jobs as it may have"

    def of_end(self, it):
        first, run = self.first("end", it.job), self.first("run", it.job)
        if first is not it:
            yield f"ends again: it ended in line {first.line}"
        if run and not self.precedes(run, it):
            yield f"ends before it runs in line {run.line}"
        ring = self.ring_ended(it)
        if self.in_order and ring is not None:
            before = self.before(it, lambda e: self.ring_ended(e) == ring)
            if before and self.first("run", before.job).line > run.line and not self.near(before, it):
                yield f"ends behind {self.behind(before, 'ring, which ran later')}"

    def broken(self):
        """Each broken rule, in a line."""
        rules = {"queue": self.of_queue, "run": self.of_run, "end": self.of_end, "wait": lambda it: ()}
        return [self.told(it, words) for it in self.log for words in rules[it.what](it)]

    def times(self, job):
        """How long a job waited for fences and for its turn, and ran; or nothing where the log does not show all."""
        queue, run, end = (self.first(what, job) for what in ("queue", "run", "end"))
        if not queue or not run or not end:
            return None
        ends = [self.first("end", e.on) for e in self.log if e.what == "wait" and e.job == job]
        ready = max([queue.time, *(e.time for e in ends if e and e.line < run.line)])
        return run.ring, [ready - queue.time, max(run.time - ready, 0), max(end.time - run.time, 0)]


def count(n, one, many):
    return f"{n} {one if n == 1 else many}"


def answer(text, jobs=False, **demands):
    """What is written of a log, and the status."""
    judge = Judge(text, **demands)
    broken = judge.broken()
    shown = [job for job in judge.jobs if judge.first("queue", job) or judge.first("run", job)]
    early = sum(1 for job in shown if not judge.first("queue", job))
    late = sum(1 for job in shown if not judge.first("end", job))
    said = [*broken, f"{count(len(shown), 'job', 'jobs')}, {count(len(broken), 'broken rule', 'broken rules')}"]
    said.append(f"passed over: {count(judge.count - len(judge.log), 'line', 'lines')}; queued before the log begins: {count(early, 'job', 'jobs')}; not ended where it ends: {count(late, 'job', 'jobs')}")
    if judge.lost:
        said.append(f"events were lost before line {judge.lost}: a rule may look broken for want of them")
    if judge.tolerance:
        said.append(f"lines less than {judge.tolerance // 1000} us apart may stand in either order")
    times = [(job, judge.times(job)) for job in judge.jobs]
    for ring in judge.rings:
        all_of = [it[1][1] for it in times if it[1] and it[1][0] == ring]
        fences, turn, ran = (min(sum(it[place] for it in all_of), MOST) // 1000 for place in range(3))
        said.append(f"ring {ring}: {count(len(all_of), 'whole job', 'whole jobs')}, waited for fences {fences}, for their turn {turn}, ran {ran} us")
    for job, told in times if jobs else ():
        if told:
            fences, turn, ran = (it // 1000 for it in told[1])
            said.append(f"job {judge.name(job)} on {told[0]}: waited for fences {fences}, for its turn {turn}, ran {ran} us")
    return "\n".join(said) + "\n", 1 if broken else 0
