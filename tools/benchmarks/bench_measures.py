"""How long programs run, how many machine instructions they execute, and how much memory they take at most.

Times are the least of several runs, and the runs that are compared go by turns. Machine instructions are those that
valgrind's callgrind counts. The memory is `VmHWM`, the greatest resident set of the process, as the kernel counts it:
its own pages, and those of the program's file and of libraries that it touched. It is read when the process is about
to end: it is traced, so that the system stops it there. What the kernel tells of a process that has ended is no less
than what the one that started it took, and that is more. Where a program gave memory back before its end, the kernel
knows the most until then by steps of up to 32 pages, so the number may be some 128 kB short.
"""
import ctypes
import itertools
import os
import random
import re
import shutil
import subprocess
import sys
import time

# each task runs for so many seconds, and at least so often
SECONDS = 1.5
RUNS = 7
# so many runs are tried until the memory of so many was seen
TRIES, LOOKS = 25, 3
# of Linux's sys/personality.h and sys/ptrace.h
ASKS, ADDR_NO_RANDOMIZE = 0xFFFFFFFF, 0x0040000
PTRACE_CONT, PTRACE_SEIZE, PTRACE_O_TRACEEXIT, PTRACE_EVENT_EXIT = 7, 0x4206, 0x40, 6
LIBRARY = ctypes.CDLL(None)
LIBRARY.ptrace.argtypes = [ctypes.c_long, ctypes.c_long, ctypes.c_void_p, ctypes.c_void_p]
LIBRARY.personality.argtypes = [ctypes.c_ulong]
NUMBERS = itertools.count()


def write(name, data):
    with open(name, "wb") as file:
        file.write(data)
    return name


class Task:
    """Words after a program, its input, and what tells its answer from a wrong one."""

    def __init__(self, words, given, is_right):
        self.words, self.is_right = words, is_right
        self.source = write(f"given{next(NUMBERS)}", given) if given else os.devnull

    def of(self, program):
        """All words of a run, and the file of its input."""
        return [program, *self.words], self.source

    def checked(self, program):
        """A program's answer, which has to be right."""
        words, source = self.of(program)
        with open(source, "rb") as given:
            ran = subprocess.run(words, stdin=given, stdout=subprocess.PIPE)
        if ran.returncode != 0 or not self.is_right(ran.stdout.decode()):
            sys.exit(f"{' '.join(words)}: not answered as it has to be: {ran.stdout[:200]}")
        return ran.stdout.decode()

    def executed(self, program):
        """The instructions of the machine that the replies of a session tell."""
        return sum(int(cost) for cost in re.findall(r" cost (\d+) ", self.checked(program)))


def ended(words, status):
    if status != 0:
        sys.exit(f"{' '.join(words)}: ended with status {os.waitstatus_to_exitcode(status)}")


def started(words, given, made):
    """The process of these words, with open files for its input and output."""
    streams = [(os.POSIX_SPAWN_DUP2, given.fileno(), 0), (os.POSIX_SPAWN_DUP2, made.fileno(), 1)]
    return os.posix_spawnp(words[0], words, os.environ, file_actions=streams)


def once(words, source):
    """The milliseconds of a run with files for its input and output."""
    with open(source, "rb") as given, open("written", "wb") as made:
        start = time.perf_counter()
        status = os.waitpid(started(words, given, made), 0)[1]
        took = (time.perf_counter() - start) * 1e3
    ended(words, status)
    return took


def by_turns(calls, seconds=SECONDS, runs=RUNS):
    """What each of these calls answered, which go by turns until there are so many answers and seconds for each. What
    ran just before makes a run a tenth of a millisecond slower or faster, so each turn has an order of its own."""
    end = time.monotonic() + seconds * len(calls)
    answers, order, chance = [[] for _ in calls], list(range(len(calls))), random.Random("turns")
    while len(answers[0]) < runs or time.monotonic() < end:
        chance.shuffle(order)
        for place in order:
            answers[place].append(calls[place]())
    return answers


def least(runs):
    """The least milliseconds of each of these runs."""
    return [min(each) for each in by_turns([lambda run=run: once(*run) for run in runs])]


def can_count():
    """Whether valgrind is installed."""
    return shutil.which("valgrind") is not None


def counted(words, source):
    """The machine instructions of a run, where valgrind is installed."""
    if not can_count():
        return None
    tool = ["valgrind", "--tool=callgrind", "--callgrind-out-file=/dev/null"]
    streams = {"stdout": subprocess.DEVNULL, "stderr": subprocess.PIPE}
    with open(source, "rb") as given:
        ran = subprocess.run([*tool, *words], stdin=given, check=True, **streams)
    return int(re.search(rb"Collected : (\d+)", ran.stderr)[1])


def most_memory(process):
    """The kilobytes that a process took at most so far."""
    with open(f"/proc/{process}/status") as file:
        return int(re.search(r"VmHWM:\s+(\d+) kB", file.read())[1])


def with_fixed_addresses(start):
    """The process that a call starts, whose addresses are not made by chance, where the system lets that be."""
    before = LIBRARY.personality(ASKS)
    LIBRARY.personality(before | ADDR_NO_RANDOMIZE)
    process = start()
    LIBRARY.personality(before)
    return process


def taken(words, source):
    """The kilobytes that a run took at most, unless it ended before it could be traced."""
    with open(source, "rb") as given, open("written", "wb") as made:
        process = with_fixed_addresses(lambda: started(words, given, made))
    LIBRARY.ptrace(PTRACE_SEIZE, process, None, PTRACE_O_TRACEEXIT)
    size = None
    status = os.waitpid(process, 0)[1]
    while os.WIFSTOPPED(status):
        event = status >> 16
        if event == PTRACE_EVENT_EXIT:
            size = most_memory(process)
        LIBRARY.ptrace(PTRACE_CONT, process, None, 0 if event else os.WSTOPSIG(status))
        status = os.waitpid(process, 0)[1]
    ended(words, status)
    return size


def peak(words, source):
    """The most kilobytes of some runs that could be traced, where the system lets them be."""
    sizes = (taken(words, source) for _ in range(TRIES))
    return max(itertools.islice((size for size in sizes if size), LOOKS), default=None)
