"""Tests of a log that is full, so that whoever logs waits: scripts and examples go on. Parts of tests/service/run_service_tests."""
import contextlib
import os
import re
import subprocess
import tempfile
import time

from daemons import Daemon, holds, same, until
from feeder_tests import IP, LOGGER, Keepalived, feeders, moment

FOLDER = os.path.join(os.path.dirname(os.path.abspath(__file__)), "..", "..", "examples")
# how long a script may take that has something to log: it reports in less, and the machine may be busy
QUICK = 3
# what the commands and tests of the examples call, apart from logger: it ends with status 1 while the file `fails` is there
WORD = """\
#!/bin/sh
echo 'Status: Enabled'
[ ! -e "${0%/*}/../fails" ]
"""
WORDS = ("mail", "pfctl", "ping", "route", "sysctl")


def policies():
    """The policies of the examples by their names."""
    found = {}
    for name in os.listdir(FOLDER):
        with contextlib.suppress(FileNotFoundError, NotADirectoryError), open(os.path.join(FOLDER, name, "policy")) as file:
            found[name] = file.read()
    return found


EXAMPLES = policies()


def test_tell_link_with_a_full_log(program):
    """Neither who reports waits for the log, nor who reports the same link next."""
    with feeders(program) as those, those.full_log():
        those.kill_daemon()
        taken = [those.call("tell_link", "carp0", "up"), those.call("tell_link", "x" * 244, "up"), those.call("tell_link", "em9", "up")]
        those.noted(3)
        those.start_daemon()
        taken += [those.call("tell_link", "--kept"), those.call("tell_link", "carp0", "down")]
        same("links that the new daemon knows", those.links(), [("0", "up"), ("0", "down")])
        those.noted(4)
        holds(f"a script waited for the log: {taken}", max(taken) < QUICK)


def test_ticks_with_a_full_log(program):
    with feeders(program) as those, those.full_log():
        those.daemon.send(f"tick {moment() + 3}")
        with those.running("ticks", stdout=subprocess.DEVNULL):
            until("two ticks after those that went backwards", lambda: those.daemon.send("trace").count("\ntick ") >= 2)
        those.noted(1)


def test_watch_links_with_a_full_log(program):
    """The last interface of the list has a name that no request can hold."""
    with feeders(program, ip=IP.replace("em9", "x" * 260)) as those, those.full_log():
        with those.running("watch_links", stdout=subprocess.DEVNULL):
            known = {"1": "up", "2": "down", "3": "unknown", "4": "up"}
            until(f"what the daemon is to know, {known}", lambda: dict(those.links()) == known)
            # at its start, and again a second later
            those.noted(2)


def test_keepalived_guard_with_a_full_log(program):
    with feeders(program) as those, those.full_log():
        keepalived = Keepalived(those.daemon.file("fifo"))
        with those.reading("--guard", keepalived.path):
            with those.reading(keepalived.path):
                keepalived.says("MASTER")
                until("the master", lambda: those.carp() == ["up"])
            until("the loss of the reader", lambda: those.carp() == ["up", "unknown"])
            those.noted(1)
            with those.reading(keepalived.path):
                until("the reader again", lambda: those.carp() == ["up", "unknown", "up"])
        keepalived.closes()


def test_lost_socket_with_a_full_log(program):
    with feeders(program) as those, those.full_log():
        os.remove(those.daemon.socket)
        taken = those.call("lost_socket")
        same("what systemd is asked", len(those.lines_of("asked")), 2)
        holds(f"it waited for the log: {taken:.1f} s", taken < QUICK)


class Example:
    """A daemon on the policy of an example, with words of its own on its path."""

    def __init__(self, program, name):
        with open(os.path.join(FOLDER, name, "requests")) as file:
            self.links = sorted(set(re.findall(r"^link (\S+) ", file.read(), re.M)))
        self.folder = tempfile.mkdtemp(dir=os.path.abspath("."))
        words = self.file("words")
        os.mkdir(words)
        for word, text in (("logger", LOGGER), *((word, WORD) for word in WORDS)):
            with open(os.path.join(words, word), "w") as file:
                file.write(text)
            os.chmod(file.name, 0o755)
        environment = os.environ | {"PATH": f"{words}:{os.environ['PATH']}"}
        # the other files that the examples name are below /usr/local/sbin, and missing
        self.daemon = Daemon(program, EXAMPLES[name].replace("/run/ifsvm/", f"{self.folder}/"), env=environment)

    def file(self, name):
        return os.path.join(self.folder, name)

    def logged(self):
        with contextlib.suppress(FileNotFoundError), open(self.file("logged")) as file:
            return file.read()
        return ""

    def set(self, name, is_there):
        """Makes or removes a file that the words look at."""
        if is_there:
            open(self.file(name), "w").close()
        elif os.path.exists(self.file(name)):
            os.remove(self.file(name))

    def tell(self, request):
        """Sends a request, whose reply may not be late."""
        start = time.monotonic()
        self.daemon.send(request)
        holds(f"{request} waited for the log", time.monotonic() - start < QUICK)

    def walk(self, now):
        """Reports each link in each state, and lets the tests end."""
        for state in ("up", "down", "unknown", "up"):
            for link in self.links:
                self.tell(f"link {link} {state}")
            now += 60
            self.tell(f"tick {now}")
            until("the end of the tests", lambda: " running 0 " in self.daemon.send("status"))
        return now


def test_examples_with_a_full_log(program):
    """What the examples log is run and not waited for, in the states that links, ticks and pings lead to."""
    for name in sorted(EXAMPLES):
        example = Example(program, name)
        example.set("full", True)
        with example.daemon as daemon:
            now = 0
            for fails in (True, False, True, False):
                example.set("fails", fails)
                now = example.walk(now)
            daemon.stop()
        holds(f"{name} logs nothing", example.logged())
        example.set("full", False)


def logs(line):
    return re.search(r'\brun "(logger|mail) ', line)


def test_examples_log_last(program):
    """In all states: log lines end with `&`, and stand behind the other commands of their block."""
    for name, policy in EXAMPLES.items():
        lines = policy.splitlines()
        same(f"{name}: log lines to wait for", [line for line in lines if logs(line) and not line.endswith(' &"')], [])
        first = [line for line, after in zip(lines, lines[1:]) if logs(line) and re.match(r"\s+run ", after) and not logs(after)]
        same(f"{name}: log lines before commands that matter", first, [])
        holds(f"{name}: no log lines", any(map(logs, lines)))
