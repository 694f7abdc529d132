"""Random scripts in which everything collides: few and small buffers, few rings, entities, contexts, credits and moments."""

# how often a command comes, and what stands behind it: a thing by its kind, or a whole job
COMMANDS = (
    (12, "submit", ("job",)),
    (5, "begin", ("context",)),
    (7, "try", ("context", "buffer")),
    (0.5, "done", ("context",)),
    (6, "drop", ("context", "buffer")),
    (3, "end", ("context",)),
    (5, "plan", ("context", "job")),
    (5, "arm", ("context",)),
    (14, "pick", ("ring", "moment")),
    (28, "step", ("ring",)),
    (16, "finish", ("ring", "moment")),
    (3, "timeout", ("ring", "moment")),
    (0.3, "cancel", ("entity",)),
    (2, "reap", ("entity",)),
    (3, "read", ("context", "buffer")),
    (3, "fence", ("fence",)),
    (2, "dump", ("buffer",)),
)
WEIGHTS = [it[0] for it in COMMANDS]


class Maker:
    """Makes the lines of one script out of a stream of random numbers."""

    def __init__(self, random):
        self.random, self.now = random, 0
        self.sizes = [random.randint(1, 4) for _ in range(random.randint(1, 3))]
        self.rings = random.randint(1, 3)
        self.entities = random.randint(1, 4)

    def header(self):
        pick = self.random
        for size in self.sizes:
            yield f"zero {size}" if pick.random() < 0.3 else f"buffer {bytes(pick.choices(range(256), k=size)).hex()}"
        for _ in range(self.rings):
            yield f"ring {pick.randint(1, 4)} {pick.randint(1, 6)} {pick.randint(0, 2)}"
        for _ in range(self.entities):
            rings = pick.sample(range(self.rings), pick.randint(1, self.rings))
            yield f"entity {','.join(map(str, rings))} {pick.choice(('kernel', 'high', 'normal', 'normal', 'low'))}"
        yield f"jobs {pick.randint(1, 12)}"
        yield "go"

    def packet(self, declared):
        pick = self.random
        if pick.random() < 0.12:
            return f"stall:{pick.randint(0, 2)}"
        target, source = ([it for it in declared if it[0] in kinds] or declared or ["r0"] for kinds in ("wm", "rwm"))
        target, source = int(pick.choice(target)[1:]), int(pick.choice(source)[1:])
        sizes = [self.sizes[it] for it in (target, source) if it < len(self.sizes)] or [1]
        length = pick.randint(1, min(sizes)) if pick.random() < 0.97 else pick.randint(0, 5)
        start, offset = (pick.randint(0, max(0, min(sizes) - length)) for _ in range(2))
        if pick.random() < 0.4:
            return f"fill:{target}:{offset}:{length}:{pick.randrange(256):02x}"
        return f"{pick.choice(('copy', 'add'))}:{source}:{start}:{target}:{offset}:{length}"

    def job(self):
        pick = self.random
        entity = pick.randrange(self.entities) if pick.random() < 0.98 else self.entities
        buffers = pick.sample(range(len(self.sizes)), pick.randint(0, len(self.sizes)))
        declared = [f"{pick.choice('rrwwwhm' if pick.random() < 0.3 else 'rww')}{it}" for it in buffers]
        after = [f"a{pick.randrange(6)}" for _ in range(pick.choice((0, 0, 0, 0, 0, 1, 2)))]
        usable = [it for it in declared if it[0] in "wm"]
        packets = [self.packet(declared) for _ in range(pick.randint(0, 4) if usable else pick.random() < 0.1)]
        return " ".join([str(entity), str(pick.choice((1, 1, 1, 2, 3))), *declared, *after, *packets])

    def word(self, kind):
        pick = self.random
        if kind == "job":
            return self.job()
        if kind == "moment":
            self.now = max(0, self.now + pick.choice((-1, 0, 0, 1, 1, 2, 5)))
            return str(self.now)
        most = {"context": 2, "buffer": len(self.sizes), "ring": self.rings, "entity": self.entities, "fence": 12}[kind]
        return str(pick.randrange(most))

    def command(self):
        _, name, kinds = self.random.choices(COMMANDS, WEIGHTS)[0]
        return " ".join([name, *map(self.word, kinds)])

    def lines(self):
        """The header, and then commands, of which the last ones dump every buffer."""
        header = list(self.header())
        commands = [self.command() for _ in range(self.random.randint(10, 150))]
        return header, commands + [f"dump {it}" for it in range(len(self.sizes))]
