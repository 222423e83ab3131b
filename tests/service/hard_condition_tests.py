"""Tests of serve and send under hard conditions, and of what the daemon notes."""
import contextlib
import os
import re
import resource
import signal
import socket
import subprocess
import tempfile
import time

from daemons import ENDS, PLAIN, SOON, Daemon, answered, commanding, holds, quoted, read_all, results, same, send, serve, testing, until

UP = 'done "a" cost 6 queue 0\n'
# what is no user's number
NOBODY = 54_321


def test_empty_socket_path(program):
    with Daemon(program, PLAIN) as daemon:
        for words in ([program, "serve", daemon.image, ""], [program, "send", "", "status"]):
            ran = subprocess.run(words, capture_output=True, timeout=SOON)
            same(f"{words[1]} with an empty path: status and output", (ran.returncode, ran.stdout), (2, b""))
            holds(f"{words[1]} with an empty path does not say it", b"<SOCKET>" in ran.stderr)
        daemon.stop()


def test_rights_of_the_socket(program):
    for mask, wanted in ((0o000, 0o770), (0o022, 0o750), (0o007, 0o770), (0o177, 0o600)):
        with Daemon(program, PLAIN, umask=mask) as daemon:
            same(f"rights under umask {mask:o}", os.stat(daemon.socket).st_mode & 0o7777, wanted)
            daemon.stop()


def test_socket_that_is_now_of_another(program):
    with Daemon(program, PLAIN) as first, first.connect() as client:
        os.remove(first.socket)
        with Daemon(program, PLAIN) as second:
            os.rename(second.socket, first.socket)
            client.sendall(b"stop\n")
            same("stop of the first", read_all(client), b"bye\n")
            same("its status", first.process.wait(SOON), 0)
            second.socket = first.socket
            same("the second", second.send("status"), 'status "a" owed yes queue 0 running 0 now 0\n')
            # its own file has moved, and so it removes none
            second.send("stop")
            same("status of the second", second.process.wait(SOON), 0)
            holds("it removed a file that it had not made", os.path.exists(first.socket))


def test_paths_of_the_socket(program):
    with Daemon(program, PLAIN) as daemon:
        os.symlink(daemon.file("missing"), daemon.file("dangling"))
        taken = "Address already in use"
        for name, cause in (("dangling", taken), (".", taken), ("policy", taken), ("x" * 120, "")):
            ran = serve(program, daemon.image, daemon.file(name))
            same(f"serve at {name}: status and output", (ran.returncode, ran.stdout), (3, b""))
            told = ran.stderr.decode()
            holds(f"serve at {name} told {told}", told.startswith(f"device {daemon.file(name)}: {cause}"))
        daemon.stop()


def is_served(program, daemon, there, **how):
    """Whether a daemon that is started so says that it is ready, and then runs a command, which makes a file; else its
    fault is looked at."""
    path = daemon.file("tried")
    words = [program, "serve", daemon.image, path]
    with subprocess.Popen(words, stdout=subprocess.PIPE, stderr=subprocess.PIPE, **how) as other, killed_after(other):
        if other.stdout.readline() == b"ready\n":
            same("a command of a daemon that was ready", send(program, path, "link carp0 up").stdout.decode(), UP)
            holds("it was not run", os.path.exists(there))
            os.remove(there)
            send(program, path, "stop")
            return True
        told = other.stderr.read().decode()
        same("status of a daemon that cannot work", other.wait(SOON), 3)
    holds("its socket's file is there", not os.path.exists(path))
    holds(f"it says {told!r}", re.fullmatch(r"device (/bin/sh|\S+/tried): .+\n", told))
    return False


@contextlib.contextmanager
def killed_after(process):
    try:
        yield
    finally:
        process.kill()


def few_descriptors(count):
    return lambda: resource.setrlimit(resource.RLIMIT_NOFILE, (count, resource.getrlimit(resource.RLIMIT_NOFILE)[1]))


def no_ends_of_children():
    signal.signal(signal.SIGCHLD, signal.SIG_IGN)


def test_starts_only_where_it_can_work(program):
    with tempfile.TemporaryDirectory(dir=".") as folder:
        there = os.path.join(os.path.abspath(folder), "there")
        with Daemon(program, commanding([], [f"touch {there}"])) as daemon:
            starts = [is_served(program, daemon, there, preexec_fn=few_descriptors(count)) for count in range(4, 14)]
            same("starts with 4 to 13 descriptors", starts, [False] * 4 + [True] * 6)
            for how, cause in (
                (no_ends_of_children, "No child processes"),
                (few_descriptors(6), "Too many open files"),
            ):
                ran = serve(program, daemon.image, daemon.file("other"), preexec_fn=how)
                same(cause, (ran.returncode, ran.stdout, ran.stderr.decode()), (3, b"", f"device /bin/sh: {cause}\n"))
            daemon.stop()


def test_starts_only_where_the_shell_works(program):
    # dash fails where OPTIND is no number; other shells do not look at it
    odd = os.environ | {"OPTIND": "x"}
    if subprocess.run(["/bin/sh", "-c", ":"], env=odd, stderr=subprocess.DEVNULL).returncode == 0:
        return
    with Daemon(program, PLAIN) as daemon:
        ran = serve(program, daemon.image, daemon.file("other"), env=odd)
        told = b"device /bin/sh: it did not end with success\n"
        same("serve with a shell that fails", (ran.returncode, ran.stdout, ran.stderr), (3, b"", told))
        daemon.stop()


def one_process():
    resource.setrlimit(resource.RLIMIT_NPROC, (1, 1))
    if os.getuid() == 0:
        # the limit does not hold for root
        os.setgid(NOBODY)
        os.setuid(NOBODY)


def test_one_process(program):
    with tempfile.TemporaryDirectory() as folder, Daemon(program, PLAIN) as daemon:
        os.chmod(folder, 0o777)
        for name, path in (("ifsvm", program), ("image", daemon.image)):
            subprocess.run(["install", "-m", "755", path, f"{folder}/{name}"], check=True)
        ran = serve(f"{folder}/ifsvm", f"{folder}/image", f"{folder}/socket", preexec_fn=one_process)
        told = b"device /bin/sh: Resource temporarily unavailable\n"
        same("one process", (ran.returncode, ran.stdout, ran.stderr), (3, b"", told))
        daemon.stop()


SWITCH = """\
state a { init run "true" if carp0.link.up set-state b }
state b {
	init { run "exit 3" run "kill -9 $$" run "echo \\"x	y\\"" }
	if "test -e %s" every 1 set-state a
	if carp0.link.down set-state a
}
"""


def test_notes_of_changes(program):
    with tempfile.TemporaryDirectory(dir=".") as folder:
        good = os.path.join(os.path.abspath(folder), "good")
        with Daemon(program, SWITCH % good) as daemon:
            daemon.send("link carp0 up")
            daemon.send("tick 7")
            until("the test's end", lambda: results(daemon.send("trace")))
            open(good, "w").close()
            daemon.send("tick 8")
            until("the next end", lambda: 'status "a"' in daemon.send("status"))
            daemon.send("stop")
            entered = [
                ("WARN", 'command "exit 3": exit 3 after M ms'),
                ("WARN", 'command "kill -9 $$": exit 137 after M ms'),
                ("INFO", 'command "echo \\"x\\x09y\\"": exit 0 after M ms'),
            ]
            init = ("INFO", 'command "true": exit 0 after M ms')
            same("notes", daemon.changes(), [
                init, ("INFO", 'state "a" -> "b" by link "carp0" up'), *entered,
                ("INFO", f'state "b" -> "a" by test "test -e {good}" true'), init,
            ])


def test_notes_of_a_tick_that_changes_the_state(program):
    with Daemon(program, 'state a { set-state b } state b { if carp0.link.down set-state a }') as daemon:
        daemon.send("tick 5")
        # two changes and two refused ticks on one connection, after steps that change nothing
        daemon.ask(b"link carp0 up\ntick 4\nlink carp0 down\ntick 5\ntick 2\n")
        # the link went down before the last one, and a tick asked the policy again
        steps = ('"a" -> "b" by tick 5', '"b" -> "a" by link "carp0" down', '"a" -> "b" by link "carp0" down, at a tick')
        changed = [("INFO", f"state {step}") for step in steps]
        behind = [("WARN", "tick 4 goes backwards: the moment is 5")]
        same("notes", daemon.changes(), changed[:1] + behind + changed[1:])
        daemon.send("tick 3")
        same("the same moment is not noted again", len(daemon.changes()), 4)
        daemon.send("tick 6")
        daemon.send("tick 5")
        later = [("INFO", 'state "b" -> "a" by link "carp0" down, at a tick'), ("WARN", "tick 5 goes backwards: the moment is 6")]
        same("the next one", daemon.changes()[4:], later)
        daemon.stop()


def test_which_notes(program):
    every = ["closed", "INFO", "INFO", "WARN", "closed", "fault S2", "stop"]
    for which, wanted in (("all", every), ("changes", ["INFO", "INFO", "WARN"]), ("faults", ["WARN"]), ("off", [])):
        with Daemon(program, 'state a { if carp0.link.up set-state b } state b { init run "false" }', "--notes", which) as daemon:
            daemon.send("status")
            daemon.send("link carp0 up")
            with daemon.connect() as gone:
                # from here on nothing can be written to this client
                gone.shutdown(socket.SHUT_RD)
                gone.sendall(b"status\n")
            daemon.stop()
            same(f"notes {which}", [note if note in ENDS else level for level, note in daemon.lines()], wanted)
    for words in (["--notes", "some"], ["--notes"], ["--command-limit", "0"], ["--test-limit", "604801"]):
        same(f"serve {words}", serve(program, *words, "image", "socket").returncode, 2)


def test_command_that_cannot_be_run(program):
    with Daemon(program, commanding([], ["true"])) as daemon:
        daemon.limit_descriptors(5)
        same("link", daemon.send("link carp0 up"), UP)
        cause = "not run: Too many open files (os error 24)"
        same("notes", daemon.changes(), [("ERROR", f'command "true": {cause}')])
        daemon.stop()


def test_places(program):
    """300 hanging tests: 64 of a state at a time, which run on when it is left."""
    tests = quoted([f"exec sleep 30 # {number}" for number in range(64)], "if", " every 1 { }")
    policy = f"if carp0.link.up set-state b if carp0.link.down set-state a state a {{ {tests} }} state b {{ }}"
    with Daemon(program, policy) as daemon:
        for turn in range(5):
            daemon.ask(b"tick %d\n" % turn)
            same("tests that run", len(daemon.children()), min(64 * (turn + 1), 256))
            daemon.ask(b"link carp0 up\nlink carp0 down\n")
        full = ("WARN", "256 tests run: no place is left for another one")
        same("notes", [it for it in daemon.changes() if not it[1].startswith("state")], [full])
        ends = [f"{test} fail" for test in range(64)]
        same("starts without a place", [f"{test} {value}" for test, _run, value in results(daemon.send("trace"))], ends)
        for process in daemon.children():
            os.kill(process, signal.SIGKILL)
        until("places that are free again", lambda: daemon.send("status") and not daemon.children())
        daemon.stop()


def test_many_silent_clients(program):
    """4,000 clients that connect and say nothing: the next one waits for them, and once they are gone it is served."""
    resource.setrlimit(resource.RLIMIT_NOFILE, (resource.getrlimit(resource.RLIMIT_NOFILE)[1],) * 2)
    with Daemon(program, PLAIN) as daemon, contextlib.ExitStack() as silent:
        for _ in range(4_000):
            client = silent.enter_context(socket.socket(socket.AF_UNIX))
            client.setblocking(False)
            with contextlib.suppress(BlockingIOError):
                # more than the system lets wait are refused
                client.connect(daemon.socket)
        ran = send(program, daemon.socket, "--wait", "1", "status") if waiting_limit() > 4_000 else None
        told = f"device {daemon.socket}: no reply\n".encode()
        if ran:
            same("send --wait 1", (ran.returncode, ran.stdout, ran.stderr), (3, b"", told))
        silent.close()
        same("status", daemon.send("status"), 'status "a" owed yes queue 0 running 0 now 0\n')
        holds("it took much memory", daemon.memory()[0] < 8_192)
        daemon.stop()


def waiting_limit():
    with open("/proc/sys/net/core/somaxconn") as file:
        return int(file.read())


def test_client_that_hangs_up(program):
    """Of two lines of a client that is gone the first one is done."""
    with Daemon(program, PLAIN) as daemon:
        with daemon.connect() as gone:
            gone.shutdown(socket.SHUT_RD)
            gone.sendall(b"tick 4\ntick 5\n")
        same("moment", daemon.send("status").split()[-1], "4")
        daemon.ask(b"tick 6\ntick 7\n")
        same("moment after a client that reads its replies", daemon.send("status").split()[-1], "7")
        daemon.stop()
        same("notes", daemon.ends(), ["fault S2", "closed", "closed", "closed", "stop"])


def test_killed_and_started_again(program):
    with Daemon(program, commanding(["true"], [])) as daemon:
        daemon.send("tick 9")
        daemon.process.kill()
        daemon.process.wait()
        same("send to a daemon that was killed", send(program, daemon.socket, "status").returncode, 3)
        ran = serve(program, daemon.image, daemon.socket)
        same("a start at the file that it left", (ran.returncode, ran.stdout), (3, b""))
        os.remove(daemon.socket)
        words = [program, "serve", daemon.image, daemon.socket]
        with subprocess.Popen(words, stdout=subprocess.PIPE, stderr=subprocess.DEVNULL) as again, killed_after(again):
            same("first line", again.stdout.readline(), b"ready\n")
            same("status", daemon.send("status"), 'status "a" owed yes queue 0 running 0 now 0\n')
            same("stop", daemon.send("stop"), "bye\n")


def test_killed_while_it_runs_a_command(program):
    """The client gets no reply, and says so."""
    with Daemon(program, commanding([], ["exec sleep 5"])) as daemon:
        asking = subprocess.Popen([program, "send", daemon.socket, "link carp0 up"], stdout=subprocess.PIPE, stderr=subprocess.PIPE)
        until("the command", daemon.children)
        daemon.process.kill()
        out, err = asking.communicate(timeout=SOON)
        same("send", (asking.returncode, out, err), (3, b"", f"device {daemon.socket}: no reply\n".encode()))


def test_limits_of_commands_and_tests(program):
    commands = commanding([], ["exec sleep 30", "sleep 30; true", "exit 4"])
    with Daemon(program, commands, "--command-limit", "1") as daemon:
        begun = time.monotonic()
        same("link", daemon.send("link carp0 up"), 'done "a" cost 10 queue 0,1,2\n')
        took = time.monotonic() - begun
        holds(f"two commands of at most one second took {took:.1f}", 2 <= took < 4)
        killed = "killed at its limit of 1 s, exit 137 after M ms"
        wanted = [("WARN", f'command "{text}": {killed}') for text in ("exec sleep 30", "sleep 30; true")]
        same("notes", daemon.changes(), [*wanted, ("WARN", 'command "exit 4": exit 4 after M ms')])
        same("children", daemon.children(), [])
        daemon.stop()
    with Daemon(program, testing(["exec sleep 30", "true"]), "--test-limit", "1") as daemon:
        daemon.send("tick 0")
        until("the one that ends", lambda: results(daemon.send("trace")) == [("1", "2", "ok")])
        until("the other one", lambda: ("0", "1", "fail") in results(daemon.send("trace")))
        until("its end", lambda: daemon.send("status") and not daemon.children())
        same("notes", daemon.changes(), [("WARN", 'test "exec sleep 30": killed at its limit of 1 s')])
        daemon.stop()


def test_end_of_a_command_with_a_limit(program):
    """It is noticed soon, however long the command ran."""
    with Daemon(program, commanding([], ["sleep 2.2"]), "--command-limit", "60") as daemon:
        begun = time.monotonic()
        same("link", daemon.send("link carp0 up"), UP)
        took = time.monotonic() - begun
        holds(f"a command of 2.2 seconds took {took:.1f}", 2.2 <= took < 3.5)
        daemon.stop()


def test_how_send_waits(program):
    with Daemon(program, commanding([], ["sleep 2"])) as daemon:
        begun = time.monotonic()
        ran = send(program, daemon.socket, "--no-wait", "link carp0 up")
        same("--no-wait", (ran.returncode, ran.stdout, ran.stderr), (0, b"", b""))
        ran = send(program, daemon.socket, "--wait", "1", "status")
        told = f"device {daemon.socket}: no reply\n".encode()
        same("--wait 1", (ran.returncode, ran.stdout, ran.stderr), (3, b"", told))
        holds("it did not wait for one second", 1 <= time.monotonic() - begun < 2)
        ran = send(program, daemon.socket, "--wait", "9", "--check", "status")
        same("--wait 9 --check", (ran.returncode, ran.stderr), (0, b""))
        holds("no command was run", time.monotonic() - begun >= 2)
        daemon.stop()


def test_how_send_checks(program):
    with tempfile.TemporaryDirectory(dir=".") as folder:
        words = ("fault C1", "busy", "backwards", "stale", "nosuch", "refused L3", "same", 'done "fault"', "closed fault")
        for number, word in enumerate(words):
            for options, wanted in (([], 0), (["--check"], int(number < 6))):
                path = os.path.join(folder, f"{number}{len(options)}")
                thread, _got = answered(path, f"{word}\n".encode())
                ran = send(program, path, *options, "status")
                thread.join(SOON)
                same(f"send {options} answered {word}", (ran.returncode, ran.stdout.decode(), ran.stderr), (wanted, f"{word}\n", b""))
        for words in (["--wait", "0"], ["--wait", "604801"], ["--wait", "1", "--no-wait"], ["--check", "--no-wait"]):
            ran = send(program, "socket", *words, "status")
            same(f"send {words}", (ran.returncode, ran.stdout), (2, b""))
        ran = send(program, "socket", "tick 1\nstop")
        same("a request of two lines", (ran.returncode, ran.stdout), (2, b""))


def test_seconds_of_options(program):
    """They are from 1 to 604,800: then what is at fault is the file or the socket that is missing."""
    with tempfile.TemporaryDirectory(dir=".") as folder:
        none = os.path.join(folder, "none")
        for word, option, *operands in (
            ("serve", "--command-limit", none, none), ("serve", "--test-limit", none, none),
            ("send", "--wait", none, "status"), ("explain", "--wait", none, none),
        ):
            for seconds, status in ((0, 2), (1, 3), (604_800, 3), (604_801, 2)):
                ran = subprocess.run([program, word, option, str(seconds), *operands], capture_output=True, timeout=SOON)
                same(f"{word} {option} {seconds}", (ran.returncode, ran.stdout), (status, b""))


def test_order_of_those_that_do_not_wait(program):
    with Daemon(program, commanding([], ["sleep 1"])) as daemon:
        send(program, daemon.socket, "--no-wait", "link carp0 up")
        for moment in range(100):
            ran = send(program, daemon.socket, "--no-wait", f"tick {moment}")
            same(f"send of tick {moment}", ran.returncode, 0)
        trace = daemon.send("trace")
        same("ticks in order", re.findall(r"^tick (\d+) -> ticked", trace, re.M), [str(moment) for moment in range(100)])
        holds("the link came after a tick", trace.index("link 0 up") < trace.index("tick 0"))
        daemon.stop()
