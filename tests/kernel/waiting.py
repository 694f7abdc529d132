"""The reference where a try that has to wait goes on waiting behind its answer, as ww_mutex_lock does.

A lock that is dropped goes to the oldest context that waits for it. By the rule `older_waiters` a context that holds
something backs off for an older one that waits, and not for an older holder alone (__ww_mutex_add_waiter).
"""
import reference

OLDER_WAITERS = "older_waiters"
RULES = {OLDER_WAITERS: "a context backs off for an older one that waits, too (__ww_mutex_add_waiter)"}


class WaitingDevice(reference.Device):
    """A device whose contexts wait: `waits` is the buffer, and `came` what came of it: held, died, or nothing yet."""

    def __init__(self, rules):
        super().__init__(rules)
        self.older_waiters = OLDER_WAITERS in rules

    def asleep(self, buffer):
        """The contexts that wait for a buffer, the oldest first."""
        waiters = [it for it in self.contexts.values() if it.waits == buffer and not it.came]
        return sorted(waiters, key=lambda it: it.ticket)

    def stop_waiting(self, own):
        own.waits = own.came = None

    def answer(self, line):
        """All that a context does but its first line and a try ends its wait."""
        name, words = reference.words_of(line)
        own = self.contexts.get(int(words[0]))
        if name in ("done", "drop", "end", "plan", "arm", "read") and own:
            self.stop_waiting(own)
        return super().answer(line)

    def older_than(self, own, buffer):
        """The ticket of the older one for whom a context backs off: the holder, else the oldest that waits."""
        holder = self.reservations[buffer].holder
        if holder and holder.ticket < own.ticket:
            return holder.ticket
        older = [it.ticket for it in self.asleep(buffer) if it.ticket < own.ticket]
        return older[0] if older and self.older_waiters else 0

    def tell_wait(self, own, buffer):
        ticket = self.reservations[buffer].holder.ticket
        return f"{'older' if ticket < own.ticket else 'younger'} {ticket}"

    def do_try(self, context, buffer):
        own, number = self.contexts.get(int(context)), int(buffer)
        if own and own.waits == number:
            return self.tell_again(own, number)
        if own:
            self.stop_waiting(own)
        holder = self.reservations[number].holder
        if not own or own.is_sealed or not holder or holder is own:
            return super().do_try(context, buffer)
        for it in self.asleep(number):
            if it.ticket > own.ticket and it.held and self.older_waiters:
                it.came = "died"
        older = self.older_than(own, number)
        if own.held and older:
            return f"older {older}"
        own.waits = number
        return self.tell_wait(own, number)

    def tell_again(self, own, buffer):
        """A context that waits already tries again."""
        came = own.came
        if not came:
            return self.tell_wait(own, buffer)
        self.stop_waiting(own)
        return "held" if came == "held" else f"older {self.older_than(own, buffer)}"

    def do_drop(self, context, buffer):
        answer = super().do_drop(context, buffer)
        waiters = self.asleep(int(buffer))
        if answer == "ok" and waiters:
            first = waiters[0]
            first.came, self.reservations[int(buffer)].holder = "held", first
            first.held.add(int(buffer))
        return answer


RULES_OF_WAITS = (tuple(RULES), WaitingDevice)
