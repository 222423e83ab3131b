"""Daemons of a built program as processes, and what the tests of them share."""
import contextlib
import os
import re
import resource
import socket
import subprocess
import tempfile
import threading

from processes import processes
from waiting import wait_for

# how long anything may take that is to come soon, also on a busy machine
SOON = 30
# what the notes say of how connections ended
ENDS = ("closed", "stop", "reload", "full", "fault S1", "fault S2", "fault S3")
# the name of the process that keeps facts in their file
HELPER = "ifsvm-facts"
# a note of a link or a test that changed
FACT = re.compile(r'(?:link|test) ".*" (?:unknown|down|up|true|false) -> (?:unknown|down|up|true|false)(?:, killed at its limit of \d+ s)?')


class Differs(Exception):
    """What was given is not what has to be."""


def same(what, given, wanted):
    if given != wanted:
        raise Differs(f"{what}\n  gave   {given!r}\n  wanted {wanted!r}")


def holds(what, found):
    if not found:
        raise Differs(what)


def until(what, found):
    """Waits until something is found, and gives it."""
    return wait_for(what, found, SOON, Differs)


def quoted(commands, before, after):
    return " ".join(f'{before} "{command}"{after}' for command in commands)


def commanding(at_opening, when_up):
    """A policy that runs commands at its opening, and others when the link is up."""
    return f"state a {{ init {{ {quoted(at_opening, 'run', '')} }} if carp0.link.up {{ {quoted(when_up, 'run', '')} }} }}\n"


def testing(tests):
    """A policy of one state that looks at these tests, each every second."""
    return f"state a {{ {quoted(tests, 'if', ' every 1 { }')} }}\n"


PLAIN = testing([])


class Daemon:
    """A daemon on the image of a policy, in a folder of its own."""

    def __init__(self, program, policy, *options, stderr=None, **started):
        self.program = program
        self.folder = tempfile.mkdtemp(dir=".")
        self.socket = os.path.join(self.folder, "socket")
        self.told = os.path.join(self.folder, "stderr")
        self.image = os.path.join(self.folder, "image")
        self.compile(policy)
        with contextlib.ExitStack() as files:
            stderr = stderr or files.enter_context(open(self.told, "wb"))
            words = [program, "serve", *options, self.image, self.socket]
            self.process = subprocess.Popen(words, stdout=subprocess.PIPE, stderr=stderr, **started)

    def __enter__(self):
        same("first line", self.process.stdout.readline(), b"ready\n")
        return self

    def __exit__(self, *_cause):
        self.process.kill()
        self.process.wait()
        self.process.stdout.close()

    def compile(self, policy):
        """Puts the image of a policy into the place of the daemon's."""
        with open(self.file("policy"), "w") as file:
            file.write(policy)
        subprocess.run([self.program, "compile", self.file("policy"), self.image], check=True, stdout=subprocess.DEVNULL)

    def send(self, request):
        """What send prints for a request."""
        ran = send(self.program, self.socket, request)
        same(f"send {request}: status and standard error", (ran.returncode, ran.stderr), (0, b""))
        return ran.stdout.decode()

    def ask_and_leave(self, request):
        """Sends a request, and waits for no reply."""
        ran = send(self.program, self.socket, "--no-wait", request)
        same(f"send --no-wait {request}", (ran.returncode, ran.stdout, ran.stderr), (0, b"", b""))

    def connect(self):
        client = socket.socket(socket.AF_UNIX)
        client.settimeout(60)
        client.connect(self.socket)
        return client

    def ask(self, given):
        """What comes back on one connection for these bytes, whose writing side is then closed."""
        with self.connect() as client:
            with contextlib.suppress(BrokenPipeError):
                client.sendall(given)
                client.shutdown(socket.SHUT_WR)
            return read_all(client).decode()

    def stop(self):
        same("stop", self.send("stop"), "bye\n")
        same("status at the end", self.process.wait(SOON), 0)
        holds("the socket's file is there after stop", not os.path.exists(self.socket))

    def lines(self):
        """The notes on standard error, each with its level."""
        with open(self.told) as file:
            lines = [re.fullmatch(r"\[(\w+) +ifsvm\] (.*)\n", line) or line for line in file]
        same("lines on standard error that are no notes", [it for it in lines if isinstance(it, str)], [])
        return [it.groups() for it in lines]

    def notes(self):
        """The notes on standard error."""
        return [note for _level, note in self.lines()]

    def ends(self):
        """The notes of how connections ended."""
        return [note for note in self.notes() if note in ENDS]

    def facts(self):
        """The notes of links and tests that changed."""
        return [note for note in self.notes() if FACT.fullmatch(note)]

    def changes(self):
        """The notes of all else, each with its level, and with M for the milliseconds of a command."""
        found = [(level, note) for level, note in self.lines() if note not in ENDS and not FACT.fullmatch(note)]
        return [(level, re.sub(r" after \d+ ms$", " after M ms", note)) for level, note in found]

    def file(self, name):
        return os.path.join(os.path.abspath(self.folder), name)

    def descriptors(self):
        return len(os.listdir(f"/proc/{self.process.pid}/fd"))

    def limit_descriptors(self, count):
        hard = resource.prlimit(self.process.pid, resource.RLIMIT_NOFILE)[1]
        resource.prlimit(self.process.pid, resource.RLIMIT_NOFILE, (count, hard))

    def memory(self):
        """The kilobytes that the process takes, and those that it may come to take without asking for more."""
        with open(f"/proc/{self.process.pid}/status") as file:
            return [int(kilobytes) for kilobytes in re.findall(r"(?:VmRSS|VmData):\s*(\d+) kB", file.read())]

    def sleeps(self):
        """Whether it waits for the system, as for a connection."""
        with open(f"/proc/{self.process.pid}/stat") as file:
            return file.read().rsplit(")", 1)[1].split()[0] == "S"

    def processor_seconds(self):
        with open(f"/proc/{self.process.pid}/stat") as file:
            fields = file.read().rsplit(")", 1)[1].split()
        return (int(fields[11]) + int(fields[12])) / os.sysconf("SC_CLK_TCK")

    def children(self):
        """The processes of commands and tests that the daemon started and has not waited for."""
        return [number for number, name in self.started() if name != HELPER]

    def helpers(self):
        """The processes that keep the daemon's facts in their file."""
        return [number for number, name in self.started() if name == HELPER]

    def started(self):
        """The processes that the daemon started and has not waited for, each with its name."""
        return [(it.number, it.name) for it in processes() if it.parent == self.process.pid]


def read_all(client):
    parts = []
    with contextlib.suppress(ConnectionResetError):
        while part := client.recv(65_536):
            parts.append(part)
    return b"".join(parts)


def asks_without_end(client):
    """Asks for traces as fast as they go out, and reads the replies, until the connection ends."""

    def ask():
        with contextlib.suppress(OSError):
            while True:
                client.sendall(b"trace\n" * 1_000)

    def read():
        with contextlib.suppress(OSError):
            read_all(client)

    for target in (ask, read):
        threading.Thread(target=target, daemon=True).start()


def send(program, path, *words):
    """What send does with these words, options and then the request."""
    *options, request = words
    return subprocess.run([program, "send", *options, path, request], capture_output=True, timeout=60)


def serve(program, *words, **how):
    """What serve does that is to end at once."""
    return subprocess.run([program, "serve", *words], capture_output=True, timeout=SOON, **how)


def answered(path, answer):
    """What send does where a listener takes its request and gives this answer."""
    listener = socket.socket(socket.AF_UNIX)
    listener.bind(path)
    listener.listen()
    got = []

    def serve():
        client, _ = listener.accept()
        with client, listener:
            got.append(read_all(client))
            with contextlib.suppress(BrokenPipeError, ConnectionResetError):
                client.sendall(answer)

    thread = threading.Thread(target=serve, daemon=True)
    thread.start()
    return thread, got


def results(trace):
    """The results that a trace tells, in order: test, run and value."""
    return re.findall(r"^result (\d+) (\d+) (ok|fail) ->", trace, re.M)
