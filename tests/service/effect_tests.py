#!/usr/bin/env python3
"""Time from `tell_link c up` to the first effect of the policy, whoever comes before. Parts of tests/service/run_service_tests.
By itself, tests/service/effect_tests.py PROGRAM measures one row after the other, and prints the table of docs/WAITING.md."""
import contextlib
import os
import shutil
import socket
import subprocess
import sys
import tempfile
import threading
import time

if __name__ == "__main__":
    sys.dont_write_bytecode = True
    sys.path.insert(0, os.path.join(os.path.dirname(os.path.abspath(__file__)), ".."))

from daemons import Daemon, Differs, asks_without_end, holds, until
from feeder_tests import Feeders
from waiting import wait_for

# The command that hangs runs once: the state that it belongs to is entered once. The test that hangs holds back the body that
# it stands in, and no other one; it starts at a tick.
POLICY = """\
if "%(hang)s" every 1 { }
state a { if slow.link.up set-state b if c.link.up run "touch %(effect)s" }
state b { init run "%(hang)s" if c.link.up run "touch %(effect)s" }
"""
# The test that hangs stands in the body that it holds back.
OWN_BODY = """\
state a { if "%(hang)s" every 1 { } if c.link.up run "touch %(effect)s" }
"""
# seconds between the lines of a client that talks now and then
PAUSE = 4.5
# what a sum of limits leaves out: that a script starts and a command ends
REST = 1


def nobody(_daemon, _clients):
    pass


def silent(count):
    def come(daemon, clients):
        for _ in range(count):
            clients.enter_context(daemon.connect())
    return come


def half_a_line(daemon, clients):
    clients.enter_context(daemon.connect()).sendall(b"link c")


def talking(count):
    """Clients that send a line now and then."""
    def come(daemon, clients):
        over = threading.Event()

        def talk(client):
            with contextlib.suppress(OSError):
                client.sendall(b"status\n")
                while not over.wait(PAUSE):
                    client.sendall(b"status\n")

        talks = [threading.Thread(target=talk, args=(clients.enter_context(daemon.connect()),)) for _ in range(count)]
        for thread in talks:
            thread.start()
            clients.callback(thread.join)
        clients.callback(over.set)
    return come


def busy(daemon, clients):
    """A client that asks for long replies without end, and reads them."""
    daemon.ask(b"link slow down\nlink slow unknown\n" * 150)
    asks_without_end(clients.enter_context(daemon.connect()))


def hanging_test(daemon, _clients):
    daemon.send("tick 0")
    until("the test", daemon.children)
    # its limit is reached meanwhile
    time.sleep(1.1)


def started_test(daemon, _clients):
    daemon.send("tick 0")
    until("the test", daemon.children)


def hanging_command(daemon, clients):
    # not by `send`, which may end later than the command of a second
    client = clients.enter_context(daemon.connect())
    client.sendall(b"link slow up\n")
    client.shutdown(socket.SHUT_WR)
    # a look at all processes may take longer than the command of a second
    time.sleep(0.2)


class Row:
    """What comes before a link, and the most seconds that it may take: the sum of the limits that end each of it."""

    def __init__(self, what, limits, before, *options, frozen=False, policy=POLICY, hang="exec sleep 60"):
        self.what, self.most, self.before, self.options = what, limits + REST, before, options
        self.frozen, self.policy, self.hang = frozen, policy, hang


ROWS = {
    "nothing": Row("nothing", 0, nobody),
    "silent": Row("1 silent client", 1, silent(1)),
    "ten_silent": Row("10 silent clients", 10, silent(10)),
    "half_a_line": Row("a client with half a line", 5, half_a_line),
    "talking": Row("1 client with a line every 4.5 seconds", 10, talking(1)),
    "three_talking": Row("3 clients with a line every 4.5 seconds", 30, talking(3)),
    "busy": Row("a busy client", 10, busy),
    "test": Row("a test that hangs, in another body", 0, hanging_test, "--test-limit", "1"),
    "own_test": Row(
        "a test that hangs, in the same body, with a limit of 5 seconds", 5, started_test, "--test-limit", "5", policy=OWN_BODY),
    "timed_test": Row(
        "the same with a time-out of its own, `timeout 2`", 2, started_test, "--test-limit", "60", policy=OWN_BODY,
        hang="timeout 2 sleep 60"),
    "command_of_1": Row("a command that hangs, with a limit of 1 second", 1, hanging_command, "--command-limit", "1"),
    "command_of_5": Row("a command that hangs, with a limit of 5 seconds", 5, hanging_command, "--command-limit", "5"),
    "frozen_test": Row("a test in uninterruptible sleep", 0, hanging_test, "--test-limit", "1", frozen=True),
    "frozen_command_of_1": Row(
        "a command in uninterruptible sleep, with a limit of 1 second", 1, hanging_command, "--command-limit", "1", frozen=True),
    "frozen_command_of_5": Row(
        "a command in uninterruptible sleep, with a limit of 5 seconds", 5, hanging_command, "--command-limit", "5", frozen=True),
}


@contextlib.contextmanager
def frozen_folder():
    """A folder of a file system that is frozen: who writes there sleeps, and cannot be killed. None where there can be none."""
    with tempfile.TemporaryDirectory(dir=".") as room, contextlib.ExitStack() as done:
        disk, place = (os.path.join(os.path.abspath(room), name) for name in ("disk", "place"))
        os.mkdir(place)
        for words, undo in (
            (["truncate", "--size=16M", disk], None),
            (["mkfs.ext4", "-q", "-F", disk], None),
            (["mount", "-o", "loop", disk, place], ["umount", "--lazy", place]),
            (["fsfreeze", "--freeze", place], ["fsfreeze", "--unfreeze", place]),
        ):
            found = shutil.which(words[0], path=f"{os.environ['PATH']}:/usr/sbin:/sbin")
            if not found or subprocess.run([found, *words[1:]], capture_output=True).returncode:
                yield None
                return
            if undo:
                done.callback(subprocess.run, [shutil.which(undo[0], path=os.path.dirname(found)) or undo[0], *undo[1:]])
        yield place


@contextlib.contextmanager
def hang_of(row):
    """The text that hangs; None where it cannot be had."""
    if not row.frozen:
        yield row.hang
        return
    with frozen_folder() as place:
        yield place and f": > {place}/file"


def first_effect(program, row, hang):
    """The seconds until the command of the link has run, and has made its file."""
    with tempfile.TemporaryDirectory(dir=".") as room:
        effect = os.path.join(os.path.abspath(room), "effect")
        policy = row.policy % {"effect": effect, "hang": hang}
        with Daemon(program, policy, *row.options) as daemon, contextlib.ExitStack() as clients:
            those = Feeders(daemon)
            row.before(daemon, clients)
            began = time.monotonic()
            with those.start("tell_link", "c", "up"):
                wait_for(f"the effect after {row.what}", lambda: os.path.exists(effect), row.most + 30, Differs)
                return time.monotonic() - began


def measured(program, name):
    """The seconds of a row, which are within its bound. None where the row cannot be had here."""
    row = ROWS[name]
    with hang_of(row) as hang:
        if hang is None:
            return None
        took = first_effect(program, row, hang)
    holds(f"from tell_link to the first effect after {row.what}: {took:.1f} seconds, at most {row.most}", took <= row.most)
    return took


def test_first_effect_with_nothing_in_the_way(program):
    measured(program, "nothing")


def test_first_effect_after_a_silent_client(program):
    measured(program, "silent")


def test_first_effect_after_ten_silent_clients(program):
    measured(program, "ten_silent")


def test_first_effect_after_half_a_line(program):
    measured(program, "half_a_line")


def test_first_effect_after_a_line_now_and_then(program):
    measured(program, "talking")


def test_first_effect_after_three_clients_with_a_line_now_and_then(program):
    measured(program, "three_talking")


def test_first_effect_after_a_busy_client(program):
    measured(program, "busy")


def test_first_effect_beside_a_test_that_hangs(program):
    measured(program, "test")


def test_first_effect_held_back_by_a_test_that_hangs(program):
    for name in ("own_test", "timed_test"):
        measured(program, name)


def test_first_effect_after_a_command_that_hangs(program):
    for name in ("command_of_1", "command_of_5"):
        measured(program, name)


def test_first_effect_after_uninterruptible_sleep(program):
    for name in ("frozen_test", "frozen_command_of_1", "frozen_command_of_5"):
        if measured(program, name) is None:
            print(f"the first effect after {ROWS[name].what} is not measured: no file system can be frozen here")


def main(program):
    program = os.path.abspath(program)
    print("| Before it | Seconds | At most |\n| --- | --- | --- |")
    with tempfile.TemporaryDirectory() as room:
        os.chdir(room)
        for name, row in ROWS.items():
            took = measured(program, name)
            print(f"| {row.what} | {'not measured' if took is None else f'{took:.1f}'} | {row.most} |", flush=True)
        os.chdir("/")
    return 0


if __name__ == "__main__":
    sys.exit(main(*sys.argv[1:]))
