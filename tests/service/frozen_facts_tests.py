"""The file of a daemon's facts on a disk that hangs or is full, and two daemons at one file. Parts of
tests/service/run_service_tests."""
import os
import signal
import subprocess
import tempfile
import time

from daemons import SOON, Daemon, holds, same, serve, until
from frozen_tests import on_a_disk

# how long the file may hold up a request, and what a script takes besides
HELD, REST = 0.25, 0.75
LATE = "not written within 250 ms"


def seconds(daemon, request):
    """How long a client waits for a reply."""
    begun = time.monotonic()
    daemon.send(request)
    return time.monotonic() - begun


@on_a_disk
def test_facts_on_a_frozen_disk(program, disk):
    """A command does not wait for its facts. What comes after one that was late does not wait either. One note says so, and once the
    disk goes on the file is written."""
    path = os.path.join(disk.folder, "facts")
    effect = os.path.abspath(tempfile.mktemp(dir="."))
    policy = f'state a {{ if c.link.up run "touch {effect}" }}\n'
    with Daemon(program, policy, "--facts", path) as daemon:
        until("facts", lambda: os.path.exists(path))
        disk.freeze()
        begun = time.monotonic()
        daemon.ask_and_leave("link c up")
        until("the command", lambda: os.path.exists(effect))
        took = time.monotonic() - begun
        holds(f"the command of a takeover waited {took:.2f} s", took < REST)
        daemon.send("status")
        for request in ("link c down", "tick 1", "link c up"):
            took = seconds(daemon, request)
            holds(f"{request} waited {took:.2f} s", took < HELD + REST)
        same("warnings", [note for level, note in daemon.lines() if level == "WARN"], [f"facts {path}: {LATE}"])
        disk.thaw()
        time.sleep(1.1)
        daemon.send("tick 2")
        until("the facts of now", lambda: daemon.send("tick 3") and '"tick":{"moment":3' in open(path).read())
        daemon.stop()
        until("the end of the file", lambda: not os.path.exists(path))


@on_a_disk
def test_signal_beside_a_frozen_disk(program, disk):
    """TERM ends the daemon at once, whatever its facts wait for."""
    path = os.path.join(disk.folder, "facts")
    with Daemon(program, "state a { if c.link.up { } }\n", "--facts", path) as daemon:
        until("facts", lambda: os.path.exists(path))
        disk.freeze()
        daemon.send("link c up")
        begun = time.monotonic()
        daemon.process.terminate()
        same("status", daemon.process.wait(SOON), -signal.SIGTERM)
        took = time.monotonic() - begun
        holds(f"TERM ended the daemon after {took:.2f} s", took < REST)


@on_a_disk
def test_stop_beside_a_frozen_disk(program, disk):
    """`stop` ends the daemon too. The file goes once the disk goes on."""
    path = os.path.join(disk.folder, "facts")
    with Daemon(program, "state a { if c.link.up { } }\n", "--facts", path) as daemon:
        until("facts", lambda: os.path.exists(path))
        disk.freeze()
        daemon.send("link c up")
        begun = time.monotonic()
        daemon.stop()
        took = time.monotonic() - begun
        holds(f"stop took {took:.2f} s", took < 2 * HELD + REST)
        disk.thaw()
        until("the end of the file", lambda: not os.path.exists(path))


@on_a_disk
def test_facts_on_a_full_disk(program, disk):
    """The old file stays, no other file is left, and one note says why. Once there is room it is written."""
    path, filler = (os.path.join(disk.folder, name) for name in ("facts", "filler"))
    with Daemon(program, "state a { if c.link.up { } }\n", "--facts", path) as daemon:
        before = until("facts", lambda: os.path.exists(path) and open(path).read())
        subprocess.run(["dd", "if=/dev/zero", f"of={filler}", "bs=1024"], capture_output=True)
        for request in ("link c up", "link c down", "link c up"):
            daemon.send(request)
        same("facts", open(path).read(), before)
        same("files", sorted(os.listdir(disk.folder)), ["facts", "filler", "lost+found"])
        full = [note for level, note in daemon.lines() if level == "WARN"]
        same("warnings", full, [f"facts {path}: No space left on device (os error 28)"])
        os.unlink(filler)
        daemon.send("link c down")
        until("the link", lambda: '"name":"c","up":false' in open(path).read())
        daemon.stop()


def test_two_daemons_at_one_file(program):
    """The second one notes that, leaves the file alone, also at its end, and takes it once the first one has ended."""
    with tempfile.TemporaryDirectory(dir=".") as folder:
        path = os.path.join(os.path.abspath(folder), "facts")
        policy = "state a { if c.link.up { } }\n"
        with Daemon(program, policy, "--facts", path) as first:
            until("facts", lambda: os.path.exists(path))
            first.send("link c up")
            kept = open(path).read()
            for end in ("stop", None):
                with Daemon(program, policy, "--facts", path) as second:
                    until("a note", second.changes)
                    second.send("link c down")
                    same("notes", second.changes(), [("WARN", f"facts {path}: another daemon writes it")])
                    same("facts", open(path).read(), kept)
                    if end:
                        second.stop()
                        same("facts after its end", open(path).read(), kept)
                    else:
                        first.stop()
                        holds("the file of the first one is there", not os.path.exists(path))
                        second.send("link c up")
                        until("the file of the second one", lambda: os.path.exists(path))
                        second.stop()
        same("files", os.listdir(folder), [])


def test_new_files_of_killed_daemons(program):
    """They go as the next daemon writes its facts. What another daemon writes stays, and what is no regular file."""
    with tempfile.TemporaryDirectory(dir=".") as folder:
        path = os.path.join(os.path.abspath(folder), "facts")
        for number in (1, 2, 9):
            with open(f"{path}.{number}.new", "w") as file:
                file.write("{")
        os.mkdir(f"{path}.3.new")
        with open(f"{path}.4.new", "w") as held, Daemon(program, "state a { }\n", "--facts", path + "0"):
            subprocess.run(["flock", "--nonblock", str(held.fileno())], pass_fds=[held.fileno()], check=True)
            with Daemon(program, "state a { }\n", "--facts", path) as daemon:
                until("facts", lambda: os.path.exists(path))
                same("files", sorted(os.listdir(folder)), ["facts", "facts.3.new", "facts.4.new", "facts0"])
                daemon.stop()


def test_helper_is_no_word(program):
    """The name of the helper is no word of the command line."""
    same("serve by another name", serve(program, "ifsvm-facts").returncode, 2)
