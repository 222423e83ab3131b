"""Ends of tests, which count at once, and what runs as a daemon ends. Parts of tests/service/run_service_tests."""
import contextlib
import os
import signal
import subprocess
import tempfile
import time

from daemons import SOON, Daemon, holds, quoted, read_all, results, same, testing, until

# how long the end of a test may take to count, also on a busy machine
AT_ONCE = 1.0
# enters b by the end of a test, and notes that in a file
FOLLOWS = 'state a { if "%(test)s" every 9 set-state b }\nstate b { init run "date +%%s.%%N >%(at)s" }\n'


def seconds_in(path):
    """The time that a command wrote there, once it is whole."""

    def written():
        with contextlib.suppress(FileNotFoundError):
            with open(path) as file:
                text = file.read()
            return text.endswith("\n") and float(text)

    return until(path, written)


def lag(program, test, lasts):
    """How long after the end of a test the command runs that follows from it. No request comes after the tick that starts it."""
    with tempfile.TemporaryDirectory(dir=".") as folder:
        at = os.path.join(os.path.abspath(folder), "at")
        with Daemon(program, FOLLOWS % {"test": test, "at": at}) as daemon:
            daemon.send("tick 1")
            begun = time.time()
            took = seconds_in(at) - begun
            until("the note of the state", lambda: f'state "a" -> "b" by test "{test}" true' in daemon.notes())
            daemon.stop()
            return took - lasts


def test_end_counts_at_once(program):
    took = lag(program, "sleep 1", 1)
    holds(f"the end of a test counted after {took:.2f} s", took <= AT_ONCE)


def test_end_beside_what_the_test_left(program):
    """What a test leaves running does not hold its end back."""
    took = lag(program, "sleep 20 & sleep 1", 1)
    holds(f"the end of a test that leaves a process counted after {took:.2f} s", took <= AT_ONCE)
    took = lag(program, "exec 3>&-; sleep 1", 1)
    holds(f"the end of a test that closes its descriptors counted after {took:.2f} s", took <= AT_ONCE)


def test_start_that_fails_counts_at_once(program):
    with Daemon(program, 'state a { if !"true" every 1 set-state b }\nstate b { }\n') as daemon:
        daemon.limit_descriptors(5)
        daemon.ask_and_leave("tick 0")
        until("the state", lambda: any('state "a" -> "b"' in note for note in daemon.notes()))
        daemon.limit_descriptors(64)
        daemon.stop()


def test_ends_keep_their_order(program):
    """Tests that end while a command runs count after it, in the order in which they were started."""
    tests = [f"sleep 0.{9 - number}; true" for number in range(5)]
    # the body of the command mentions no test, so that it is not held back
    policy = f'{quoted(tests, "if", " every 9 { }")} state a {{ if carp0.link.up run "sleep 2" }}\n'
    with Daemon(program, policy) as daemon:
        daemon.ask(b"tick 1\nlink carp0 up\n")
        until("their ends", lambda: len(daemon.facts()) == 1 + len(tests))
        same("the order", [note for note in daemon.facts() if note.startswith("test")],
             [f'test "{test}" unknown -> true' for test in tests])
        same("the results", results(daemon.send("trace")), [(f"{number}", f"{number + 1}", "ok") for number in range(len(tests))])
        daemon.stop()


def test_tick_waits_its_turn(program):
    """A tick that comes while the command runs that followed from a test is replied to after it."""
    with tempfile.TemporaryDirectory(dir=".") as folder:
        began = os.path.join(os.path.abspath(folder), "began")
        policy = f'state a {{ if "true" every 9 set-state b }}\nstate b {{ init run "touch {began}; sleep 2" }}\n'
        with Daemon(program, policy) as daemon:
            daemon.ask_and_leave("tick 1")
            until("the command", lambda: os.path.exists(began))
            begun = time.monotonic()
            same("tick", daemon.send("tick 2"), 'tick "b" cost 2 queue - starts -\n')
            took = time.monotonic() - begun
            holds(f"the tick was replied to after {took:.2f} s", 1 < took < 4)
            same("status", daemon.send("status"), 'status "b" owed no queue 0 running 0 now 2\n')
            daemon.stop()


def test_silent_client_beside_an_end(program):
    """A client that sends nothing holds the end of a test up for a second, as it does a client."""
    with Daemon(program, testing(["sleep 0.5"])) as daemon:
        daemon.send("tick 0")
        with daemon.connect() as client:
            begun = time.monotonic()
            same("what comes back", read_all(client), b"")
            took = time.monotonic() - begun
            holds(f"its connection ended after {took:.2f} s", 0.9 <= took < 3)
        until("the end of the test", lambda: 'test "sleep 0.5" unknown -> true' in daemon.notes())
        daemon.stop()


def test_waiting_takes_no_processor_time(program):
    """A test that hangs, or that closed its descriptors, does not make the daemon spin."""
    for test in ("exec sleep 60", "exec 3>&-; exec sleep 60"):
        with Daemon(program, testing([test])) as daemon:
            daemon.send("tick 0")
            before = daemon.processor_seconds()
            time.sleep(4)
            took = daemon.processor_seconds() - before
            holds(f"4 seconds beside {test} took {took:.2f} s of the processor", took <= 0.08)
            started = daemon.children()
            daemon.stop()
            for process in started:
                with contextlib.suppress(ProcessLookupError):
                    os.kill(process, signal.SIGKILL)


def runs(process):
    """Whether a process is there that has not ended."""
    try:
        with open(f"/proc/{process}/stat") as file:
            return file.read().rsplit(")", 1)[1].split()[0] not in "ZX"
    except FileNotFoundError:
        return False


def number_in(path):
    return int(until(path, lambda: os.path.exists(path) and open(path).read().strip()))


def by_stop(daemon):
    daemon.stop()


def by_term(daemon):
    daemon.process.terminate()
    same("status", daemon.process.wait(SOON), -signal.SIGTERM)


def test_what_runs_as_the_daemon_ends(program):
    """A test runs on after `stop` and after a signal, also one of endless output; a command after a signal. Nothing of it waits for
    a reader, and nobody looks at its end."""
    with tempfile.TemporaryDirectory(dir=".") as folder:
        number = os.path.join(os.path.abspath(folder), "number")
        endless = f"echo $$ >{number}; exec yes"
        for end, policy, request in (
            (by_stop, testing([endless]), "tick 0"),
            (by_term, testing([endless]), "tick 0"),
            (by_term, f'state a {{ if c.link.up run "{endless}" }}\n', "link c up"),
        ):
            with Daemon(program, policy) as daemon:
                daemon.ask_and_leave(request)
                process = number_in(number)
                end(daemon)
            try:
                time.sleep(0.5)
                holds(f"{request}: what ran has ended with the daemon", runs(process))
                with open(f"/proc/{process}/stat") as file:
                    parent = int(file.read().rsplit(")", 1)[1].split()[1])
                holds("its parent is the daemon", parent != daemon.process.pid)
            finally:
                os.kill(process, signal.SIGKILL)
                os.remove(number)


def test_stop_waits_for_a_command(program):
    with tempfile.TemporaryDirectory(dir=".") as folder:
        done = os.path.join(os.path.abspath(folder), "done")
        with Daemon(program, f'state a {{ if c.link.up run "sleep 1; touch {done}" }}\n') as daemon:
            daemon.ask_and_leave("link c up")
            daemon.stop()
            holds("stop did not wait for the command", os.path.exists(done))


def test_helper_ends_with_the_daemon(program):
    """Whatever ends the daemon, what keeps its facts ends too. After a signal the file stays, and the next daemon replaces it."""
    for end, stays in ((by_stop, False), (by_term, True), (lambda daemon: daemon.process.kill(), True)):
        with tempfile.TemporaryDirectory(dir=".") as folder:
            path = os.path.join(os.path.abspath(folder), "facts")
            with Daemon(program, testing([]), "--facts", path) as daemon:
                until("facts", lambda: os.path.exists(path))
                helper, = daemon.helpers()
                end(daemon)
                daemon.process.wait(SOON)
                until("the end of the helper", lambda: not runs(helper))
                same("files", os.listdir(folder), ["facts"] if stays else [])
                if stays:
                    old = os.stat(path).st_ino
                    os.unlink(daemon.socket)
                    words = [program, "serve", "--facts", path, daemon.image, daemon.socket]
                    with subprocess.Popen(words, stdout=subprocess.PIPE, stderr=subprocess.DEVNULL) as other:
                        same("first line", other.stdout.readline(), b"ready\n")
                        until("new facts", lambda: os.stat(path).st_ino != old)
                        daemon.send("stop")
                    same("files after stop", os.listdir(folder), [])


def test_helper_that_is_killed(program):
    """The daemon starts another one, and goes on meanwhile."""
    with tempfile.TemporaryDirectory(dir=".") as folder:
        path = os.path.join(os.path.abspath(folder), "facts")
        with Daemon(program, "state a { if c.link.up { } }\n", "--facts", path) as daemon:
            until("facts", lambda: os.path.exists(path))
            first, = daemon.helpers()
            os.kill(first, signal.SIGKILL)
            until("its end", lambda: not runs(first))
            daemon.send("link c up")
            daemon.send("link c down")
            until("another helper", lambda: daemon.helpers() not in ([], [first]))
            until("the link", lambda: '"name":"c","up":false' in open(path).read())
            same("children", daemon.children(), [])
            daemon.stop()
            same("files", os.listdir(folder), [])
