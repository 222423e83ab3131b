"""Runs of built programs, and what the commands of this folder share: rooms, definitions, seconds, workers and verdicts."""
import collections
import contextlib
import functools
import multiprocessing
import os
import resource
import subprocess
import tempfile
from pathlib import Path

TOP = Path(__file__).resolve().parents[2]
EXAMPLES = TOP / "examples"
# a program that runs longer does not end
SECONDS = 120
# the most bytes of a file
MOST_BYTES = 16_777_216


class Wrong(Exception):
    """What does not hold of a run."""


def holds(is_so, what):
    if not is_so:
        raise Wrong(what)


class Ran(collections.namedtuple("Ran", "status output error")):
    """The status of a run, and what is on its standard output and standard error."""

    def texts(self, errors="strict"):
        """The same, with texts in place of bytes."""
        try:
            return Ran(self.status, self.output.decode(errors=errors), self.error.decode(errors=errors))
        except UnicodeDecodeError as error:
            raise Wrong(f"it prints what is no UTF-8: {error}") from error


def ran(program, *words, env=None, **streams):
    """A run of a program in the present folder. Its environment is empty, and so is its standard input, unless they are given."""
    streams = {"stdout": subprocess.PIPE, "stderr": subprocess.PIPE, **streams}
    if "input" not in streams:
        streams.setdefault("stdin", subprocess.DEVNULL)
    try:
        done = subprocess.run(["ifsvm", *words], executable=program, env=env or {}, timeout=SECONDS, **streams)
    except subprocess.TimeoutExpired:
        raise Wrong(f"no end within {SECONDS} seconds") from None
    return Ran(done.returncode, done.stdout or b"", done.stderr or b"")


def ran_on(program, line, **how):
    """A run of a program on the words of a line."""
    return ran(program, *line.split(), **how)


def limited():
    """Leaves a program less memory than a file of the greatest length takes."""
    resource.setrlimit(resource.RLIMIT_AS, (MOST_BYTES, MOST_BYTES))


def cut_off():
    """Lets a program write 50 bytes to a file and no more. The system sends a signal that ends it where it tries to."""
    resource.setrlimit(resource.RLIMIT_FSIZE, (50, 50))


def timed(program, *words, **how):
    """A run of a program, and the seconds of a processor that it takes."""
    before = resource.getrusage(resource.RUSAGE_CHILDREN)
    run = ran(program, *words, **how)
    after = resource.getrusage(resource.RUSAGE_CHILDREN)
    return run, after.ru_utime + after.ru_stime - before.ru_utime - before.ru_stime


def defining(definitions):
    """The words that define macros by texts or bytes `NAME=VALUE`, or by pairs."""
    given = (it if isinstance(it, (str, bytes)) else "=".join(it) for it in definitions)
    return [word for definition in given for word in ("-D", definition)]


def contents(path):
    with open(path, "rb") as file:
        return file.read()


def write(path, data):
    with open(path, "wb") as file:
        file.write(data)


def absolute(programs):
    """The paths of programs, for runs in any folder."""
    return [os.path.abspath(program) for program in programs]


def policies_of_examples():
    """The paths of the policies of the examples."""
    return sorted(EXAMPLES.glob("*/policy"))


@contextlib.contextmanager
def in_room(prefix="ifsvm-"):
    """Works in a new folder, which goes away at the end."""
    with tempfile.TemporaryDirectory(prefix=prefix) as room:
        os.chdir(room)
        try:
            yield Path(room)
        finally:
            os.chdir("/")


@contextlib.contextmanager
def workers(*shared):
    """A process for each processor, each in a new folder. Gives what calls a function there, for each number up to a count, with
    what is shared and the number: the results are in the order of the numbers."""
    with tempfile.TemporaryDirectory(prefix="ifsvm-") as room:
        with multiprocessing.Pool(os.cpu_count(), begin, (shared, room)) as pool:
            yield lambda call, count, some=16: pool.imap(functools.partial(with_shared, call), range(count), some)


def begin(shared, room):
    """Gives a worker what is shared, and a folder of its own."""
    global SHARED
    SHARED = shared
    os.chdir(tempfile.mkdtemp(dir=room))


def with_shared(call, number):
    return call(*SHARED, number)


def verdict(wrong, said):
    """Prints what is wrong, a line for each, and then what is said of all, with how much failed. The exit status: 1 if any did."""
    print("".join(f"{line}\n" for line in wrong), end="")
    print(f"{said} {len(wrong)} FAILED")
    return 1 if wrong else 0
