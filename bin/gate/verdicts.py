"""Verdicts on wrong bodies that are kept on the machine, each under a sum of all that it rests on."""
import contextlib
import fcntl
import hashlib
import json
import os
import tempfile

import libraries
import toolchain
import trial

# Verdicts are removed, the longest unused first, when there are more.
MOST = 20_000


class Verdicts:
    """The verdicts of earlier runs, in a folder of the user's cache."""

    def __init__(self, anew):
        cache = os.environ.get("XDG_CACHE_HOME") or os.path.expanduser("~/.cache")
        self.folder, self.anew = f"{cache}/drmsim/refused", anew
        with contextlib.suppress(OSError):
            os.makedirs(self.folder, exist_ok=True)

    def sum_of(self, crate):
        """Returns a sum of what each verdict on this crate rests on: the toolchain, this tool, the crate, and the statements of those below."""
        total = hashlib.sha256(libraries.sum_of_sources(crate).encode())
        total.update(repr([libraries.sum_of(it) for it in crate.below()]).encode())
        for file in ("toolchain", "wrong_bodies", "trial", "libraries"):
            total.update(toolchain.library.text_of(f"{os.path.dirname(__file__)}/{file}.py").encode())
        return total.hexdigest()

    def file_of(self, sum_of_crate, body):
        """Returns where the verdict on a wrong body is kept: its file's name and text count."""
        with open(body, "rb") as it:
            name = hashlib.sha256(repr((sum_of_crate, os.path.basename(body), it.read())).encode()).hexdigest()
        return f"{self.folder}/{name}"

    def known(self, sum_of_crate, body):
        """Returns the verdict of an earlier run, or None."""
        if self.anew:
            return None
        file = self.file_of(sum_of_crate, body)
        try:
            with open(file, encoding="utf-8") as it:
                found = trial.Result(*json.load(it))
            os.utime(file)
        except (OSError, ValueError, TypeError):
            return None
        return found if found.kind == trial.REFUSED else None

    def keep(self, sum_of_crate, body, result):
        """Keeps a refusal, which alone is the same wherever the same is tried.

        It is written apart and then renamed, so that no other run meets half of one.
        """
        if result.kind != trial.REFUSED:
            return
        with contextlib.suppress(OSError):
            with tempfile.NamedTemporaryFile("w", dir=self.folder, prefix="new-", delete=False, encoding="utf-8") as it:
                json.dump(result, it)
            os.replace(it.name, self.file_of(sum_of_crate, body))

    @contextlib.contextmanager
    def in_turn(self, crate, wait):
        """Keeps other runs from trying the same crate meanwhile. wait: what is called once where another one does."""
        held = None
        with contextlib.suppress(OSError):
            held = open(f"{self.folder}/lock-{crate.name}", "w", encoding="utf-8")
            try:
                fcntl.flock(held, fcntl.LOCK_EX | fcntl.LOCK_NB)
            except BlockingIOError:
                wait()
                fcntl.flock(held, fcntl.LOCK_EX)
        with held or contextlib.nullcontext():
            yield

    def shrink(self):
        """Removes the verdicts that were used longest ago, where there are too many."""
        with contextlib.suppress(OSError):
            found = sorted((it.stat().st_mtime, it.path) for it in os.scandir(self.folder) if not it.name.startswith("lock-"))
            for _, file in found[: max(0, len(found) - MOST)]:
                os.remove(file)
