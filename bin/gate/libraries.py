"""The proved libraries that a check reads, and a sum of what a refusal rests on in them."""
import functools
import hashlib
import os

import toolchain


def changed_at(crate):
    """Returns when a file or folder of the crate's sources changed last."""
    times = [os.stat(f"{toolchain.TOP}/crates.txt").st_mtime]
    for part in toolchain.library.PARTS:
        for at, _, files in os.walk(f"{crate.folder}/{part}"):
            times += [os.stat(it).st_mtime for it in (at, *(f"{at}/{file}" for file in files))]
    return max(times)


# Whether `rt ci` has just passed here, so that each library which it left is that of the sources.
LEFT_BY_CI = False


@functools.lru_cache(maxsize=None)
def is_built(crate):
    """Returns whether the library in the crate's out/ was proved from the sources that lie there.

    What bin/build and rt's own checks build has a stamp of these. What `rt ci` leaves has none: it is newer than they are,
    or was kept from an earlier run.
    """
    stamp, made = f"{crate.folder}/out/rlib/stamp", f"{crate.rlib}/format"
    if os.path.isfile(stamp):
        return crate.is_built()
    if not os.path.isfile(made):
        return False
    return LEFT_BY_CI or os.stat(made).st_mtime > max(map(changed_at, [crate, *crate.below()]))


@functools.lru_cache(maxsize=None)
def sum_of(crate):
    """Returns a sum of a library's interface and statements: a refusal above rests on these, and on no body below."""
    total = hashlib.sha256(crate.name.encode())
    for part in ("interface", "below", "lang"):
        for at, folders, files in os.walk(f"{crate.rlib}/{part}"):
            folders.sort()
            for file in sorted(files):
                if file != "made.json":
                    with open(f"{at}/{file}", "rb") as it:
                        total.update(repr((os.path.relpath(f"{at}/{file}", crate.rlib), it.read())).encode())
    return total.hexdigest()


def sum_of_sources(crate):
    """Returns a sum of all that a check of the crate reads beside the libraries below it."""
    total = hashlib.sha256(repr((toolchain.version(), crate.name, crate.said, crate.of_kit, [it.name for it in crate.deps])).encode())
    for part in toolchain.library.PARTS:
        for at, folders, files in os.walk(f"{crate.folder}/{part}"):
            folders.sort()
            for file in sorted(files):
                with open(f"{at}/{file}", "rb") as it:
                    total.update(repr((os.path.relpath(f"{at}/{file}", crate.folder), it.read())).encode())
    return total.hexdigest()
