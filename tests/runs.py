"""What has to be true of the journal of a run whose workers run in threads."""
import collections

import program
import second_reader

MOST_TURNS = 1_000_000_000


def words(submitters, turns=MOST_TURNS):
    return ["run", "--threads", str(submitters), "--turns", str(turns)]


def parts(text):
    """The device of a script or journal, and the lines behind its header."""
    return vars(second_reader.read_header(second_reader.lines(text))), text.partition(b"\ngo\n")[2].splitlines()


def are_dealt(jobs, done, submitters):
    """Whether these jobs were done, each once, and those of each submitter in their order: number k is dealt to number k
    modulo the submitters. Jobs of equal words can't be told apart, so only of the others the order is looked at."""
    counts = collections.Counter(jobs)
    if counts != collections.Counter(done):
        return False
    number = {job: it for it, job in enumerate(jobs) if counts[job] == 1}
    armed = [number[job] for job in done if job in number]
    shares = ([it for it in armed if it % submitters == share] for share in range(submitters))
    return all(share == sorted(share) for share in shares)


def wrong_journal(script, journal, submitters):
    """Returns what is wrong with the journal of a run of a script, or nothing."""
    device, lines = parts(script)
    told, records = parts(journal)
    jobs = [it.removeprefix(b"submit ") for it in lines]
    done = [it.split(b" ", 3)[3] for it in records if it.startswith(b"job ")]
    if told != device:
        return "its device differs"
    if not are_dealt(jobs, done, submitters):
        return "its jobs are not those of the script, or not in the order of their submitters"
    said = program.run(["check"], journal)
    if said != (0, b"same\n", b""):
        return f"check says {said}"
    left, final = second_reader.read_journal(journal)
    return "" if left == final else "the second reader finds other bytes"


def journal_of(text):
    """The journal of a run of a script by one submitter, each of whose jobs ends well. It tells each buffer by its bytes."""
    device, jobs = second_reader.read_run(text)
    memory = [bytearray(it) for it in device.buffers]
    rest = text.split(b"\n", len(memory))[-1]
    told = (b"".join(b"buffer %s\n" % it.hex().encode() for it in memory) + rest).split(b"submit ")
    for place, job in enumerate(jobs, 1):
        job.run(memory, len(job.packets))
        told[place] = b"job %d 1 %s" % (len(job.packets), told[place])
    return b"".join([*told, *(b"final %s\n" % it.hex().encode() for it in memory), b"end\n"])
