"""Tests of the process groups of commands and tests."""
import contextlib
import os

from daemons import Daemon, commanding, holds, results, same, testing, until
from processes import processes

SLOW = ("echo $$ >{}; sleep 30; true", "echo $$ >{}; sleep 30 | cat")


def group(number):
    """The processes of a group that have not ended."""
    return [it.number for it in processes() if it.group == number and it.state != "Z"]


def number_in(path):
    """The number that a program wrote there, once it is whole."""

    def written():
        with contextlib.suppress(FileNotFoundError):
            with open(path) as file:
                text = file.read()
            return text.endswith("\n") and int(text)

    return until(path, written)


def is_one(number, wanted):
    """So many processes or more are in this group, which is not that of the daemon."""
    until(f"{wanted} processes of the group", lambda: len(group(number)) >= wanted)
    holds("the group is the one of the tests", number != os.getpgid(0))


def is_gone(number):
    until("the end of the group", lambda: not group(number))


def test_limits_kill_groups(program):
    """What the shell started ends with it."""
    with Daemon(program, commanding([], ["true"]), "--command-limit", "1", "--test-limit", "1") as daemon:
        slow = [text.format(daemon.file(str(place))) for place, text in enumerate(SLOW)]
        daemon.compile(commanding([], slow))
        daemon.send("reload")
        daemon.send("link carp0 up")
        for place in range(len(slow)):
            is_gone(number_in(daemon.file(str(place))))
            os.remove(daemon.file(str(place)))
        daemon.compile(testing(slow))
        daemon.send("reload")
        daemon.send("tick 0")
        numbers = [number_in(daemon.file(str(place))) for place in range(len(slow))]
        for number in numbers:
            is_one(number, 2)
        until("their values", lambda: len(results(daemon.send("trace"))) == len(slow))
        for number in numbers:
            is_gone(number)
        daemon.stop()


def test_kill_0(program):
    """A command or a test that kills its group kills itself alone."""
    # a daemon that is killed with its group is not to take the tests with it
    alone = {"start_new_session": True}
    with Daemon(program, commanding([], ["kill 0; true", "true"]), **alone) as daemon:
        same("link", daemon.send("link carp0 up"), 'done "a" cost 8 queue 0,1\n')
        same("notes", daemon.changes(), [
            ("WARN", 'command "kill 0; true": exit 143 after M ms'),
            ("INFO", 'command "true": exit 0 after M ms'),
        ])
        daemon.stop()
    with Daemon(program, testing(["kill 0; true"]), **alone) as daemon:
        daemon.send("tick 0")
        until("its value", lambda: results(daemon.send("trace")) == [("0", "1", "fail")])
        daemon.stop()


def test_without_setsid(program):
    """Commands and tests run as ever, and a limit kills their shells."""
    bare = {"PATH": "/nowhere"}
    with Daemon(program, commanding([], ["exec /bin/sleep 30", "exit 4"]), "--command-limit", "1", env=bare) as daemon:
        same("link", daemon.send("link carp0 up"), 'done "a" cost 8 queue 0,1\n')
        same("notes", daemon.changes(), [
            ("WARN", 'command "exec /bin/sleep 30": killed at its limit of 1 s, exit 137 after M ms'),
            ("WARN", 'command "exit 4": exit 4 after M ms'),
        ])
        daemon.stop()
    with Daemon(program, testing(["exit 0"]), env=bare) as daemon:
        daemon.send("tick 0")
        until("its value", lambda: results(daemon.send("trace")) == [("0", "1", "ok")])
        daemon.stop()
