"""Tests of commands and tests that the system cannot end: they write to a file system that is frozen."""
import contextlib
import os
import shutil
import subprocess
import tempfile
import time

from daemons import Daemon, commanding, holds, results, same, testing, until

TOOLS = ("mkfs.ext4", "mount", "umount", "fsfreeze")
LIMIT = 2


class NotHere(Exception):
    """No file system can be frozen on this machine."""


def done(*words):
    """Runs a tool. If it fails, there is no frozen file system on this machine."""
    ran = subprocess.run(words, stdin=subprocess.DEVNULL, capture_output=True, timeout=60)
    if ran.returncode:
        raise NotHere(f"{words[0]}: {ran.stderr.decode(errors='replace').strip()}")


class Disk:
    """A file system of its own, in a file."""

    def __init__(self, folder):
        self.folder = folder
        self.is_frozen = False

    def freeze(self):
        done("fsfreeze", "--freeze", self.folder)
        self.is_frozen = True

    def thaw(self):
        if self.is_frozen:
            self.is_frozen = False
            done("fsfreeze", "--unfreeze", self.folder)


@contextlib.contextmanager
def mounted():
    """A file system that can be frozen. It is thawed and gone at the end, whatever happens."""
    if os.getuid() != 0:
        raise NotHere("only root can")
    missing = [tool for tool in TOOLS if not shutil.which(tool)]
    if missing:
        raise NotHere(f"no {', '.join(missing)}")
    with tempfile.TemporaryDirectory() as room:
        image, folder = os.path.join(room, "image"), os.path.join(room, "folder")
        os.mkdir(folder)
        with open(image, "wb") as file:
            file.truncate(16 << 20)
        done("mkfs.ext4", "-q", "-F", image)
        done("mount", "-o", "loop", image, folder)
        disk = Disk(folder)
        try:
            # where it cannot be frozen, that shows before a daemon runs
            disk.freeze()
            disk.thaw()
            yield disk
        finally:
            try:
                disk.thaw()
            finally:
                # programs that wrote there may end a little later
                subprocess.run(["umount", "--lazy", folder], stderr=subprocess.DEVNULL, timeout=60)


def on_a_disk(test):
    """The test with a file system, or a line that says that it was left out, and why."""

    def with_a_disk(program):
        with contextlib.ExitStack() as stack:
            try:
                disk = stack.enter_context(mounted())
            except NotHere as cause:
                print(f"{test.__name__} was left out: {cause}")
                return
            test(program, disk)

    with_a_disk.__name__ = test.__name__
    return with_a_disk


def state(process):
    """The letter for what a process does. D is a wait that nothing ends but what it waits for."""
    with open(f"/proc/{process}/stat") as file:
        return file.read().rsplit(")", 1)[1].split()[0]


def stuck(daemon, count):
    """So many processes of the daemon cannot be ended."""
    same("what its processes do", [state(process) for process in daemon.children()], ["D"] * count)


def runs_again(daemon):
    """Runs the commands again, and says whether no earlier one is left."""
    daemon.send("link carp0 down")
    daemon.send("link carp0 up")
    return not daemon.children()


@on_a_disk
def test_command_that_cannot_be_ended(program, disk):
    """It is over for the daemon at its limit, and the next command runs. Its process is reaped once it has ended."""
    write = f"echo x >{disk.folder}/file"
    with Daemon(program, commanding([], [write, "true"]), "--command-limit", str(LIMIT)) as daemon:
        disk.freeze()
        begun = time.monotonic()
        same("link", daemon.send("link carp0 up"), 'done "a" cost 8 queue 0,1\n')
        took = time.monotonic() - begun
        stuck(daemon, 1)
        holds(f"a command of at most {LIMIT} seconds took {took:.1f}", LIMIT <= took < LIMIT + 1.5)
        same("notes", daemon.changes(), [
            ("WARN", f'command "{write}": not ended at its limit of {LIMIT} s, exit 137 after M ms'),
            ("INFO", 'command "true": exit 0 after M ms'),
        ])
        disk.thaw()
        until("the end of its process", lambda: runs_again(daemon))
        daemon.stop()


@on_a_disk
def test_test_that_cannot_be_ended(program, disk):
    """It is false at its limit, and the daemon starts it again. Each of its processes holds a place until it has ended."""
    write = f"echo x >{disk.folder}/file"
    with Daemon(program, testing([write]), "--test-limit", str(LIMIT)) as daemon:
        disk.freeze()
        begun = time.monotonic()
        daemon.send("tick 0")
        until("its value", lambda: results(daemon.send("trace")) == [("0", "1", "fail")])
        took = time.monotonic() - begun
        holds(f"a test of at most {LIMIT} seconds took {took:.1f}", LIMIT <= took < LIMIT + 1.5)
        daemon.send("tick 1")
        until("its next value", lambda: results(daemon.send("trace")) == [("0", "1", "fail"), ("0", "2", "fail")])
        stuck(daemon, 2)
        same("notes", daemon.changes(), [("WARN", f'test "{write}": killed at its limit of {LIMIT} s')] * 2)
        disk.thaw()
        until("the ends of its processes", lambda: daemon.send("status") and not daemon.children())
        same("notes after the thaw", len(daemon.changes()), 2)
        daemon.stop()
