"""Tries wrong bodies with the toolchain's own `rt must-fail`, for whoever trusts no script of ours: each in a check of its own.

`rt must-fail` reads the folder must-fail/ alone. So it runs in a copy of the repository in which each wrong body stands
there. What was proved here is lent to the copy by links, so that only the wrong bodies are tried.
"""
import os
import re
import shutil
import subprocess
import tempfile

import toolchain
import wrong_bodies

TOLD = re.compile(r"must-fail (\w+)/(\S+)\.edit: (refused|NOT REFUSED|BAD EDIT|NOT TRIED)(.*)")
BY_A_NAME = "only because a proof file names what the edit took away"


def link(one, other):
    try:
        os.link(one, other)
    except OSError:
        shutil.copy2(one, other)


def make_copy(to):
    """Copies the repository's crates, with each wrong body in must-fail/ and what was proved."""
    shutil.copytree(f"{toolchain.TOP}/crates", f"{to}/crates", ignore=lambda at, names: {"out"} & {*names} if at.count("/") == toolchain.TOP.count("/") + 2 else ())
    for file in ("crates.txt", "HANDLES"):
        shutil.copy2(f"{toolchain.TOP}/{file}", f"{to}/{file}")
    os.mkdir(f"{to}/.git")
    for name in toolchain.crates():
        for file in wrong_bodies.files_of(f"{to}/crates/{name}"):
            os.makedirs(f"{to}/crates/{name}/must-fail", exist_ok=True)
            shutil.move(file, f"{to}/crates/{name}/must-fail/{os.path.basename(file)}")
        for part in ("rlib", "incremental"):
            source = f"{toolchain.TOP}/crates/{name}/out/{part}"
            if os.path.isdir(source):
                shutil.copytree(source, f"{to}/crates/{name}/out/{part}", copy_function=link)


def run(crates, options):
    """Tries the wrong bodies of these crates, and returns how many are refused and how many are not."""
    passed, wanted = 0, sum(len(wrong_bodies.files_of(it.folder)) for it in crates)
    with tempfile.TemporaryDirectory(prefix="refuse-") as room:
        make_copy(f"{room}/copy")
        # Only a toolchain that keeps what passed has a word for trying all again.
        keeps = "--anew" in subprocess.run(["rt", "help"], stdout=subprocess.PIPE, stderr=subprocess.STDOUT, text=True).stdout
        words = ["rt", "must-fail", *["--anew"] * (keeps and options.get("--anew", False)), *(it.name for it in crates)]
        how = {"stdin": subprocess.DEVNULL, "stdout": subprocess.PIPE, "stderr": subprocess.STDOUT, "text": True, "errors": "replace"}
        with subprocess.Popen(words, cwd=f"{room}/copy", env={**os.environ, "RT_JOBS": options["--jobs"]}, **how) as ran:
            for line in ran.stdout:
                told = TOLD.search(line)
                if not told:
                    print(line, end="", flush=True)
                    continue
                passed += told[3] == "refused"
                if told[3] != "refused" or BY_A_NAME in told[4] or options.get("--each"):
                    print(f"{told[1]}/{told[2]}: {told[3]}{told[4].rstrip()[:200]}", flush=True)
    return passed, wanted - passed
