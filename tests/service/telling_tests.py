"""What a daemon tells of itself while something is wrong: causes, limits, links that flap, disks, dates and signals. Parts of
tests/service/run_service_tests."""
import contextlib
import json
import os
import re
import shutil
import signal
import subprocess
import tempfile
import time

from daemons import SOON, Daemon, commanding, holds, results, same, testing, until
from facts_tests import explained, told
from frozen_tests import on_a_disk

TOP = os.path.join(os.path.dirname(os.path.abspath(__file__)), "..", "..")
# the system's clock of a program, moved by the seconds that a file has
MOVED = r"""
#define _GNU_SOURCE
#include <fcntl.h>
#include <stdlib.h>
#include <sys/syscall.h>
#include <time.h>
#include <unistd.h>
int clock_gettime(clockid_t which, struct timespec *time) {
    int failed = syscall(SYS_clock_gettime, which, time);
    char text[32] = "";
    int file = which == CLOCK_REALTIME ? syscall(SYS_open, getenv("MOVED_BY"), O_RDONLY, 0) : -1;
    if (file >= 0) {
        if (syscall(SYS_read, file, text, sizeof text - 1) > 0) time->tv_sec += atol(text);
        syscall(SYS_close, file);
    }
    return failed;
}
"""


def status(program, facts, *options, **how):
    ran = subprocess.run([program, "status", *options, facts.path], capture_output=True, text=True, timeout=2 * SOON, **how)
    same("standard error of status", ran.stderr, "")
    return ran.stdout


def test_cause_is_told_before_its_commands_run(program):
    """While the first command of a state runs, notes and facts have the change, and facts have the commands that wait."""
    policy = 'state a { if carp0.link.up set-state b } state b { init { run "sleep 3" run "true" run "exit 4" } }'
    with tempfile.TemporaryDirectory(dir=".") as folder:
        facts, daemon = told(folder, program, policy, "--notes", "changes")
        with daemon:
            until("facts", lambda: os.path.exists(facts.path))
            daemon.ask_and_leave("link carp0 up")
            during = until("a running command", lambda: facts.read()["running"] and facts.read())
            changed = ['link "carp0" unknown -> up', 'state "a" -> "b" by link "carp0" up']
            same("notes", daemon.notes(), changed)
            same("the state", [during["state"][it] for it in ("name", "from", "cause")], ["b", "a", 'link "carp0" up'])
            same("the link", during["links"][0]["up"], True)
            same("commands that wait", during["queue"], ["true", "exit 4"])
            same("the change", [[it[name] for name in ("from", "to", "cause", "times")] for it in during["changes"]],
                 [["a", "b", 'link "carp0" up', 1]])
            holds("status lacks them", '2 commands wait: "true", "exit 4"\n' in status(program, facts))
            after = until("their ends", lambda: facts.read()["counts"]["commands"] == 3 and facts.read())
            same("what waits and runs then", (after["queue"], after["running"]), ([], None))
            until("the steps", lambda: facts.read()["counts"]["steps"] == 4)
            daemon.stop()


def test_causes_at_a_tick(program):
    """A tick that asks the policy again is no cause: the fact is that changed last. After an opening none did."""
    policy = 'state a { set-state b } state b { if carp0.link.up set-state c } state c { set-state d } state d { }'
    with tempfile.TemporaryDirectory(dir=".") as folder:
        facts, daemon = told(folder, program, policy)
        with daemon:
            daemon.send("tick 100")
            same("the first", facts.read()["state"]["cause"], "tick 100")
            daemon.send("link carp0 up")
            daemon.send("tick 101")
            state = facts.read()["state"]
            same("the last", (state["name"], state["cause"]), ("d", 'link "carp0" up, at a tick'))
            same("changes", [it["to"] for it in facts.read()["changes"]], ["b", "c", "d"])
            same("in the last hour", facts.read()["hour"], 3)
            daemon.send("tick 7300")
            same("two hours later", facts.fresh(daemon)["hour"], 0)
            daemon.stop()


def test_what_holds_back_is_told(program):
    """A test of no value that runs holds its state back, and status says how long it has run."""
    with tempfile.TemporaryDirectory(dir=".") as folder:
        facts, daemon = told(folder, program, 'state a { if "sleep 20" every 5 set-state b } state b { if "sleep 21" every 5 { } }')
        with daemon:
            daemon.send("tick 1")
            daemon.send("tick 41")
            facts.fresh(daemon)
            lines = status(program, facts).splitlines()
            held = [it for it in lines if it.startswith("held")]
            # a second or two may pass since the tick
            holds(f"what holds it back: {held}", re.fullmatch(r'held back by test "sleep 20", running for 4\d s', "\n".join(held)))
            ran = subprocess.run([program, "status", "--nagios", facts.path], capture_output=True, text=True)
            holds(ran.stdout, re.search(r'; held back by test "sleep 20", running for 4\d s\|', ran.stdout))
            daemon.stop()


def test_limits_are_told(program):
    """What a limit killed is told so by status, notes, the cause, and explain with the facts."""
    policy = 'state a { if ! "exec sleep 30" every 5 set-state b } state b { init run "exec sleep 31" }'
    with tempfile.TemporaryDirectory(dir=".") as folder:
        facts, daemon = told(folder, program, policy, "--notes", "changes", "--test-limit", "1", "--command-limit", "2")
        with daemon:
            daemon.send("tick 1")
            until("its end", lambda: 'status "b"' in daemon.send("status"))
            cause = 'test "exec sleep 30" false, killed at its limit of 1 s'
            same("notes", [re.sub(r"after \d+ ms", "after M ms", it) for it in daemon.notes()], [
                'test "exec sleep 30": killed at its limit of 1 s',
                'test "exec sleep 30" unknown -> false, killed at its limit of 1 s',
                f'state "a" -> "b" by {cause}; false: "exec sleep 30"',
                'command "exec sleep 31": killed at its limit of 2 s, exit 137 after M ms',
            ])
            after = facts.read()
            same("the cause", after["state"]["cause"], cause)
            same("the test's limit", after["tests"][0]["limit"], 1)
            same("the command's", after["last"]["limit"], 2)
            shown = status(program, facts)
            holds(f"status: {shown}", f", from a, by {cause}\n" in shown)
            holds(f"status: {shown}", 'last command "exec sleep 31": killed at its limit of 2 s, ' in shown)
            holds(f"status: {shown}", re.search(rf"\n  \d\d:\d\d:\d\d a -> b by {re.escape(cause)}\n", shown))
            lines = explained(program, daemon, "--facts", facts.path)
            holds(f"explain: {lines}", any("run 1 fail, killed at its limit of 1 s -> done" in line for line in lines))
            daemon.stop()


FLAPS = 'state a { if carp0.link.up { } if em0.link.up run "true" }'


def test_link_that_flaps(program):
    """Its reports leave the others in sight, with the facts and without."""
    with tempfile.TemporaryDirectory(dir=".") as folder:
        facts, daemon = told(folder, program, FLAPS)
        with daemon:
            daemon.send("link carp0 up")
            daemon.ask(b"link em0 up\nlink em0 down\n" * 20)
            daemon.send("link carp0 down")
            daemon.ask(b"link em0 up\nlink em0 down\n" * 20)
            daemon.send("link carp0 unknown")
            for options in ([], ["--facts", facts.path], ["--changes"]):
                lines = explained(program, daemon, *options)
                reports = [line for line in lines if 'link "em0" ' in line]
                same("reports of em0", len(reports), 9)
                same("the line on it", reports[4], '  .. link "em0" was reported 80 times: all but the first 4 and the last 4 are left out')
                same("the others", len([line for line in lines if 'link "carp0" ' in line]), 3)
                taken = [line for line in lines if " take " in line and "->" in line]
                same("commands taken", len(taken), 0 if options == ["--changes"] else 4)
            same("requests", len(explained(program, daemon, "--requests")), 123)
            daemon.stop()


def test_changes_that_come_again(program):
    """A state that flaps is two entries of the facts, and what came before stays there and in explain."""
    policy = ('state idle { if carp0.link.up set-state a } state a { if em0.link.up set-state b if carp0.link.down set-state idle } '
              'state b { if em0.link.down set-state a }')
    with tempfile.TemporaryDirectory(dir=".") as folder:
        facts, daemon = told(folder, program, policy)
        with daemon:
            daemon.send("tick 100")
            daemon.send("link carp0 up")
            for moment in range(101, 111):
                daemon.ask(f"tick {moment}\n".encode() + b"link em0 up\nlink em0 down\n" * 20)
            changes = facts.fresh(daemon)["changes"]
            same("changes", [(it["from"], it["to"], it["times"]) for it in changes], [("idle", "a", 1), ("a", "b", 200), ("b", "a", 200)])
            same("moments", [(it["first"]["moment"], it["last"]["moment"]) for it in changes[1:]], [(101, 110)] * 2)
            shown = status(program, facts)
            holds(f"status: {shown}", "401 changes in the last hour, 401 since the start\n" in shown)
            holds(f"status: {shown}", re.search(r', 200 times: a -> b by link "em0" up\n', shown))
            lines = explained(program, daemon, "--facts", facts.path)
            holds(f"explain: {lines[:3]}", re.fullmatch(r'\* at 100 \d\d:\d\d:\d\d link "carp0" up -> done "idle" => "a"', lines[1]))
            # after a minute it is another one
            daemon.ask(b"tick 300\nlink em0 up\n")
            same("later", len(facts.read()["changes"]), 4)
            daemon.stop()


@contextlib.contextmanager
def small_folder(room, kilobytes):
    """A folder with so much room, if this machine can mount one."""
    folder = os.path.join(os.path.abspath(room), "small")
    os.mkdir(folder)
    options = f"size={kilobytes}k,nr_inodes=64"
    if os.getuid() or subprocess.run(["mount", "-t", "tmpfs", "-o", options, "tmpfs", folder], capture_output=True).returncode:
        yield None
        return
    try:
        yield folder
    finally:
        subprocess.run(["umount", "--lazy", folder])


def stale(program, facts, wanted):
    """Waits until the status is not written, and asserts why."""
    shown = until("a status that is not written", lambda: (it := status(program, facts)).startswith("NOT WRITTEN") and it)
    line = shown.splitlines()[0]
    holds(f"why it is not written: {line}", re.fullmatch(rf"NOT WRITTEN for \d+ s: {wanted}", line))
    same("what is left there", [it for it in os.listdir(facts.folder) if it.endswith(".probe")], [])


def test_disk_that_is_full_or_read_only(program):
    """`status` names what a write beside the file of facts meets."""
    with tempfile.TemporaryDirectory(dir=".") as room, small_folder(room, 64) as folder:
        if not folder:
            return print("test_disk_that_is_full_or_read_only was left out: no tmpfs can be mounted")
        facts, daemon = told(folder, program, "state a { if carp0.link.up { } }")
        with daemon:
            daemon.send("tick 1")
            until("facts", lambda: os.path.exists(facts.path))
            with open(os.path.join(folder, "filler"), "wb", buffering=0) as file, contextlib.suppress(OSError):
                while file.write(bytes(4_096)):
                    pass
            daemon.send("link carp0 up")
            stale(program, facts, "No space left on device")
            os.remove(os.path.join(folder, "filler"))
            until("the link", lambda: daemon.send("link carp0 down") and facts.read()["links"][0]["up"] is False)
            if subprocess.run(["mount", "-o", "remount,ro", folder], capture_output=True).returncode == 0:
                daemon.send("link carp0 up")
                stale(program, facts, "Read-only file system")
                subprocess.run(["mount", "-o", "remount,rw", folder], check=True)
            daemon.stop()


@on_a_disk
def test_disk_that_hangs(program, disk):
    facts, daemon = told(disk.folder, program, "state a { if carp0.link.up { } }")
    with daemon:
        daemon.send("tick 1")
        until("facts", lambda: os.path.exists(facts.path))
        disk.freeze()
        stale(program, facts, "the disk hangs")
        disk.thaw()
        until("no try is left", lambda: not [it for it in os.listdir(facts.folder) if it.endswith(".probe")])
        daemon.stop()


def moved_clock(room):
    """The environment of a program whose clock a file moves, or nothing without a compiler of C."""
    if not shutil.which("gcc"):
        return None
    library, source = (os.path.join(os.path.abspath(room), name) for name in ("moved.so", "moved.c"))
    with open(source, "w") as file:
        file.write(MOVED)
    subprocess.run(["gcc", "-shared", "-fPIC", "-o", library, source], check=True, timeout=SOON)
    return os.environ | {"LD_PRELOAD": library, "MOVED_BY": os.path.join(os.path.abspath(room), "seconds")}


def move(moved, seconds):
    with open(moved["MOVED_BY"] + ".new", "w") as file:
        file.write(str(seconds))
    os.rename(moved["MOVED_BY"] + ".new", moved["MOVED_BY"])


def test_date_that_is_set(program):
    """Ages are those of moments, also if the date was 1970 at the start, and after it was set back."""
    with tempfile.TemporaryDirectory(dir=".") as room, tempfile.TemporaryDirectory(dir=".") as folder:
        moved = moved_clock(room)
        if not moved:
            return print("test_date_that_is_set was left out: no gcc")
        move(moved, -int(time.time()) + 100)
        facts, daemon = told(folder, program, "state a { if carp0.link.up set-state b } state b { }", env=moved)
        with daemon:
            start = until("facts", lambda: os.path.exists(facts.path) and facts.read())
            if start["started"] > 1_000:
                return print("test_date_that_is_set was left out: the program does not ask the C library for the clock")
            time.sleep(1.1)
            daemon.send("tick 5000")
            daemon.send("link carp0 up")
            daemon.send("tick 5420")
            for seconds in (0, -86_400):
                move(moved, seconds)
                facts.fresh(daemon)
                daemon.send("tick 5420")
                for clock in (moved, None) if not seconds else (moved,):
                    shown = status(program, facts, env=clock)
                    same("the first line", re.sub(r"\d\d:\d\d:\d\d|\d{4}-\d\d-\d\d \d\d:\d\d", "T", shown.splitlines()[0]),
                         'b since T (7 min), from a, by link "carp0" up')
                    holds(f"days: {shown}", not re.search(r"\d d\b", shown))
            holds("the link is of the start", 'up  link "carp0" (for 7 min)\n' in shown)
            # a date that is set back while nothing is written is no reason
            move(moved, -90_000)
            holds(f"{status(program, facts, env=moved)}", not status(program, facts, env=moved).startswith("NOT"))
            daemon.stop()


def unit_lines():
    with open(os.path.join(TOP, "system", "ifsvm.service")) as file:
        return file.read()


def test_signals_of_the_unit(program):
    """What the unit has the daemon ignore does not end it. The journal has its name."""
    ignored = re.search(r"trap '' ([A-Z0-9 ]+);", unit_lines())[1].split()
    same("the signals", ignored, ["HUP", "USR1", "USR2", "ALRM"])
    holds("no name", "\nSyslogIdentifier=ifsvm\n" in unit_lines() and re.search(r"\nOOMScoreAdjust=-\d+\n", unit_lines()))

    def ignore():
        for name in ignored:
            signal.signal(getattr(signal, f"SIG{name}"), signal.SIG_IGN)

    with Daemon(program, testing([]), preexec_fn=ignore) as daemon:
        for name in ignored:
            daemon.process.send_signal(getattr(signal, f"SIG{name}"))
        same("status", daemon.send("status").split()[1], '"a"')
        daemon.stop()


def test_labels_of_metrics(program):
    """Two periods of one test are two series, and a state that the image lacks is no state to ask about."""
    with tempfile.TemporaryDirectory(dir=".") as folder:
        facts, daemon = told(folder, program, 'state a { if "true" every 1 { } if "true" every 60 { } }')
        with daemon:
            daemon.send("tick 1")
            until("results", lambda: len(results(daemon.send("trace"))) == 2)
            facts.fresh(daemon)
            lines = status(program, facts, "--prometheus").splitlines()
            same("series", [it for it in lines if it.startswith("ifsvm_test_true{")],
                 [f'ifsvm_test_true{{test="true",every="{every}"}} 1' for every in (1, 60)])
            same("all differ", len({it.rsplit(" ", 1)[0] for it in lines if it[0] != "#"}), len([it for it in lines if it[0] != "#"]))
            same("json", json.loads(status(program, facts, "--json")), facts.read())
            for name, wanted in (("a", 2), ("b", 3)):
                ran = subprocess.run([program, "status", "--nagios", "--critical", name, facts.path], capture_output=True, text=True)
                same(f"status for {name}", ran.returncode, wanted)
            holds(ran.stdout, ran.stdout == 'IFSVM UNKNOWN - the image lacks a state: "b"\n')
            daemon.stop()


def test_queue_after_a_command_that_fails(program):
    """What waits is told also while a later one runs."""
    with tempfile.TemporaryDirectory(dir=".") as folder:
        facts, daemon = told(folder, program, commanding([], ["exit 3", "sleep 2", "true"]))
        with daemon:
            until("facts", lambda: os.path.exists(facts.path))
            daemon.ask_and_leave("link carp0 up")
            during = until("the second", lambda: (it := facts.read())["running"] and it["running"]["command"] == "sleep 2" and it)
            same("what waits", during["queue"], ["true"])
            daemon.stop()
