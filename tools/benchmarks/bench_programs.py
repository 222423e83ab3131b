"""Which programs are measured: this one, and one that it is compared with."""
import os
import shutil
import subprocess
import sys

TOP = os.path.realpath(os.path.join(os.path.dirname(os.path.abspath(__file__)), "..", ".."))
MADE = os.path.join("crates", "ifsvm", "out", "ifsvm")
PROGRAM = os.path.join(TOP, MADE)
KEPT = os.path.join(TOP, "out", "against")


def is_program(path):
    return os.path.isfile(path) and os.access(path, os.X_OK)


def commit_of(name):
    """The hash of the commit of that name."""
    words = ["git", "-C", TOP, "rev-parse", "--verify", "--quiet", "--end-of-options", f"{name}^{{commit}}"]
    found = subprocess.run(words, stdout=subprocess.PIPE)
    if found.returncode != 0:
        sys.exit(f"{name}: neither a program's file nor a commit")
    return found.stdout.decode().strip()


def run(*words):
    if subprocess.run(words, stdout=sys.stderr).returncode != 0:
        sys.exit(f"{' '.join(words)}: failed")


def build(commit, program):
    """Builds the program at a commit in a clone by its own `make run`, keeps it and drops the clone."""
    clone = os.path.join(KEPT, commit)
    print(f"building the program at {commit} in {clone}: half an hour or so", file=sys.stderr, flush=True)
    if not os.path.isdir(clone):
        os.makedirs(KEPT, exist_ok=True)
        run("git", "clone", "--quiet", "--no-checkout", TOP, clone)
    run("git", "-C", clone, "checkout", "--quiet", "--detach", commit)
    run("make", "-C", clone, "run")
    shutil.copy2(os.path.join(clone, MADE), program + ".part")
    os.replace(program + ".part", program)
    shutil.rmtree(clone)


def other(name):
    """The program of that path, or that at the commit of that name, which is built once."""
    if is_program(name):
        return os.path.abspath(name)
    commit = commit_of(name)
    program = os.path.join(KEPT, f"ifsvm-{commit}")
    if not is_program(program):
        build(commit, program)
    return program


def chosen(against):
    """The paths of this program and of the one that it is compared with, if there is one."""
    if not is_program(PROGRAM):
        sys.exit(f"{PROGRAM}: not there; `make run` builds it")
    return [PROGRAM, other(against)] if against else [PROGRAM]
