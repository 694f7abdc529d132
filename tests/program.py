"""The program as the tests in Python run it."""
import os
import shutil
import subprocess
import sys

TOP = os.path.dirname(os.path.dirname(os.path.realpath(__file__)))
PATH = f"{TOP}/crates/drmsim/out/drmsim"


def stop(why):
    """Ends a test that can't be run."""
    print(f"FAILED: {why}\n0 passed, 1 failed")
    sys.exit(1)


def want():
    """The program has to be there, and to be that of the sources."""
    if subprocess.run([f"{TOP}/bin/proved", "check"], check=False).returncode:
        stop("the program is not proved and built here: run bin/build")


def run(words, text, **how):
    """Returns status, output and errors of the program with these words on a text."""
    ended = subprocess.run([PATH, *words], input=text, capture_output=True, check=False, **how)
    return ended.returncode, ended.stdout, ended.stderr


def read(path):
    """Returns the bytes of a file of the repository."""
    with open(f"{TOP}/{path}", "rb") as it:
        return it.read()


def build_library(room, name):
    """Compiles a library to load before the program, and returns its path."""
    if not shutil.which("cc"):
        stop("there is no 'cc': install a C compiler (gcc)")
    words = ["cc", "-Wall", "-shared", "-fPIC", "-O1", "-o", f"{room}/{name}.so", f"{TOP}/tests/{name}.c", "-ldl"]
    if subprocess.run(words, check=False).returncode:
        stop(f"tests/{name}.c does not compile: install the headers of the C library (libc6-dev)")
    return f"{room}/{name}.so"


def end(said):
    """Ends a test: `said` has for each thing that it looked at what is wrong with it, or nothing."""
    wrong = [it for it in said if it]
    for it in wrong[:20]:
        print(f"FAILED: {it}")
    print(f"{len(said) - len(wrong)} passed, {len(wrong)} failed")
    sys.exit(bool(wrong))
