"""Random scripts by profile. All but `everything` and `waiting` keep away from what the kernel does in another way, so
that the proved program itself and the kernel have to give the same answers to them."""
import random
import sys

from place import TESTS

sys.path.insert(0, TESTS)
import random_script  # noqa: E402
import reference  # noqa: E402

KINDS = {name: kinds for _, name, kinds in random_script.COMMANDS}
LAST = ("moment", "job")
UNLIMITED = 65535


def has_work(device, ring):
    return any(it.queue and it.ring is device.rings[ring] for it in device.entities)


def has_step(device, ring):
    return any(not it.is_complete() for it in device.rings[ring].pending)


def has_finish(device, ring):
    return any(it.is_complete() for it in device.rings[ring].pending[:1])


def has_pending(device, ring):
    return bool(device.rings[ring].pending)


def has_begun(device, context, _=None):
    return context in device.contexts


def is_held(device, context, buffer):
    return context in device.contexts and buffer in device.contexts[context].held


# what makes a command do something; most of the others are drawn again
SENSIBLE = {
    "pick": has_work,
    "step": has_step,
    "finish": has_finish,
    "timeout": has_pending,
    "begin": lambda device, context: context not in device.contexts,
    "try": lambda device, context, buffer: has_begun(device, context) and not device.contexts[context].is_sealed,
    "done": has_begun,
    "end": lambda device, context: has_begun(device, context) and not device.contexts[context].held,
    "plan": has_begun,
    "arm": lambda device, context: has_begun(device, context) and device.contexts[context].plan,
    "drop": is_held,
    "read": is_held,
    "reap": lambda device, entity: device.entities[entity].is_stopped,
}


class Maker(random_script.Maker):
    """What the profiles have in common: which commands come, how often, and of how many contexts. The model's device
    runs beside, so that most commands find something to do."""

    weights, contexts, longest = {}, 1, 150
    meets_rules, options = False, ()

    def __init__(self, chance):
        super().__init__(chance)
        self.names, self.chances = zip(*self.weights.items())
        self.device = reference.Device(())

    def word(self, kind):
        if kind == "context":
            return str(self.random.randrange(self.contexts))
        if kind == "fence" and self.device.jobs and self.random.random() < 0.9:
            return str(self.random.randrange(len(self.device.jobs)))
        return super().word(kind)

    def job(self):
        """A job that waits for one of the last jobs, mostly, where it names one."""
        count, chance = len(self.device.jobs), self.random
        words = super().job().split(" ")
        for at, it in enumerate(words):
            if it[0] == "a" and ":" not in it and count and chance.random() < 0.9:
                words[at] = f"a{chance.randrange(max(0, count - 6), count)}"
        return " ".join(words)

    def is_sensible(self, name, words):
        return name not in SENSIBLE or SENSIBLE[name](self.device, *map(int, words))

    def command(self):
        """A command and what it speaks of, drawn until that makes sense, mostly; then its moment, or its job."""
        while True:
            name = self.random.choices(self.names, self.chances)[0]
            words = [self.word(it) for it in KINDS[name] if it not in LAST]
            if self.is_sensible(name, words) or self.random.random() > 0.93:
                return " ".join([name, *words, *(self.word(it) for it in KINDS[name] if it in LAST)])

    def lines(self):
        """The header, and then commands, each drawn by what the ones before it have left."""
        header, commands = list(self.header()), []
        for line in header:
            self.device.take(*reference.words_of(line))
        for _ in range(self.random.randint(10, self.longest)):
            commands.append(self.command())
            self.device.answer(commands[-1])
        return header, self.last(commands) + [f"dump {it}" for it in range(len(self.sizes))]

    def last(self, commands):
        return commands

    def text(self):
        header, commands = self.lines()
        return "\n".join([*header, *commands, ""])


def stop_at_the_end(maker, commands):
    """Stops one entity behind all other events, and takes its jobs at once: in the model they wait for their reap."""
    entity = maker.random.randrange(maker.entities)
    if maker.random.random() < 0.5:
        commands += [f"cancel {entity}", *[f"reap {entity}"] * 4, f"cancel {entity}", f"submit {entity} 1", "fence 0"]
    return commands


class OneRing(Maker):
    """Entities of all priorities on one ring, whose jobs count the same credits; nothing hangs."""

    weights = {"submit": 20, "pick": 20, "step": 30, "finish": 16, "fence": 4, "dump": 2}

    def __init__(self, chance):
        super().__init__(chance)
        self.rings, self.entities, self.credits = 1, chance.randint(1, 6), chance.randint(1, 3)

    def header(self):
        for line in super().header():
            if line.startswith("ring"):
                line = f"ring {self.random.randint(1, 9)} 10 0"
            yield f"jobs {self.random.randint(5, 40)}" if line.startswith("jobs") else line

    def packet(self, declared):
        return super().packet(declared).replace("stall:1", "stall:0").replace("stall:2", "stall:0")

    def job(self):
        entity, _, *rest = super().job().split(" ")
        return " ".join([entity, str(self.credits), *rest])

    def last(self, commands):
        return stop_at_the_end(self, commands)


class Rings(Maker):
    """Several rings, each entity on one of them, and credits for all. In half of the scripts each ring has one entity,
    and jobs hang; then a timeout comes so late that each rule of the timer finds the head due, or at moment 0."""

    weights = {"submit": 20, "pick": 24, "step": 30, "finish": 16, "timeout": 6, "fence": 3, "dump": 2}

    def __init__(self, chance):
        super().__init__(chance)
        self.rings, self.is_hanging = chance.randint(2, 4), chance.random() < 0.5
        self.entities = self.rings if self.is_hanging else chance.randint(2, 7)

    def header(self):
        pick, entity = self.random, 0
        for line in super().header():
            if line.startswith("ring"):
                line = f"ring {UNLIMITED} 10 0"
            elif line.startswith("entity"):
                ring = entity if self.is_hanging else pick.randrange(self.rings)
                line, entity = f"entity {ring} {line.split(' ')[2]}", entity + 1
            yield f"jobs {pick.randint(1, 40)}" if line.startswith("jobs") else line

    def packet(self, declared):
        packet = super().packet(declared)
        return packet if self.is_hanging or not packet.startswith("stall") else "stall:0"

    def word(self, kind):
        if kind == "moment":
            self.now += self.random.choice((0, 0, 1, 2, 5))
            return str(self.now)
        return super().word(kind)

    def command(self):
        command = super().command()
        if not command.startswith("timeout"):
            return command
        if not self.is_hanging:
            return f"step {self.word('ring')}"
        if self.random.random() < 0.2:
            return f"timeout {self.word('ring')} 0"
        self.now += self.random.randint(10, 20)
        return f"timeout {self.word('ring')} {self.now}"

    def last(self, commands):
        return stop_at_the_end(self, commands)


class Locks(Rings):
    """Contexts that lock, plan, arm and read beside submissions and rings. No buffer has more than five entries."""

    weights = {
        "submit": 8, "begin": 8, "try": 16, "done": 0.5, "drop": 8, "end": 4, "plan": 10, "arm": 10, "pick": 14,
        "step": 20, "finish": 12, "read": 10, "fence": 2, "dump": 1,
    }  # fmt: skip
    contexts = 3

    def __init__(self, chance):
        super().__init__(chance)
        self.is_hanging = False
        # entries of a buffer: one for each usage of each entity
        self.entities, self.accesses = chance.choice(((2, "rw"), (2, "rww"), (5, "w"), (1, "rwhm")))

    def header(self):
        for line in super().header():
            if line.startswith("entity") and "m" in self.accesses:
                line = " ".join([*line.split(" ")[:2], "kernel"])
            yield line

    def job(self):
        words = super().job().split(" ")
        return " ".join(
            self.random.choice(self.accesses) + it[1:] if it[0] in "rwhm" and it[1:].isdigit() else it for it in words
        )


class Contended(Maker):
    """Many contexts and few buffers, and no job."""

    weights = {"begin": 12, "try": 60, "drop": 21, "end": 6, "done": 1}

    def __init__(self, chance):
        super().__init__(chance)
        self.contexts, self.sizes = chance.randint(3, 8), [1] * chance.randint(2, 4)


class Waiting(Contended):
    """The same, where a try that has to wait goes on waiting behind its answer."""

    meets_rules, options = True, ("wait",)


class Everything(Maker):
    """All commands on devices on which all of them collide: the rules of the kernel are met here. In each sixth script
    entities crowd on a few buffers, each of which is read behind each submission: so lists of reservations grow."""

    weights = {
        "submit": 20, "begin": 3, "try": 6, "done": 0.2, "drop": 5, "end": 2, "plan": 3, "arm": 3, "pick": 20,
        "step": 22, "finish": 14, "timeout": 7, "cancel": 0.6, "reap": 2, "read": 5, "fence": 3, "dump": 1,
    }  # fmt: skip
    crowded = {"submit": 40, "pick": 20, "finish": 12, "fence": 1}
    contexts, longest = 2, 200
    meets_rules = True

    def __init__(self, chance):
        super().__init__(chance)
        self.entities, self.rings, self.next = chance.randint(1, 8), chance.choice((1, 1, 2, 2, 3)), []
        self.is_crowded = chance.random() < 0.17
        if self.is_crowded:
            self.entities, self.sizes, self.rings, self.next = chance.randint(5, 7), [1] * 4, 3, ["begin 0"]
            self.names, self.chances = zip(*self.crowded.items())

    def header(self):
        for line in super().header():
            if line.startswith("ring") and self.is_crowded:
                line = f"ring {UNLIMITED} 10 0"
            yield f"jobs {self.random.randint(30, 90)}" if line.startswith("jobs") else line

    def packet(self, declared):
        return f"stall:{self.random.randint(0, 3)}" if self.random.random() < 0.12 else super().packet(declared)

    def job(self):
        if self.is_crowded:
            buffer = self.random.randrange(len(self.sizes))
            self.next = [f"{it} 0 {buffer}" for it in ("try", "read", "drop")]
            return f"{self.random.randrange(self.entities)} 1 {self.random.choice('rrrwwh')}{buffer}"
        return super().job()

    def command(self):
        return self.next.pop(0) if self.next else super().command()


PROFILES = {
    "one_ring": OneRing,
    "rings": Rings,
    "locks": Locks,
    "contended": Contended,
    "waiting": Waiting,
    "everything": Everything,
}


def make(profile, seed):
    """Returns the text of the script of a profile that has this seed."""
    return PROFILES[profile](random.Random(f"{profile} {seed}")).text()
