"""What the daemon notes of facts and of commands, and in which form. Parts of tests/service/run_service_tests."""
import json
import os
import socket
import tempfile
import time

from daemons import SOON, Daemon, commanding, holds, read_all, results, same, serve, until

# tests that are true while a file is there; the last one is of all states
WATCH = """\
if "test -e %(always)s" every 1 { }
state a {
	if "test -e %(here)s" every 1 && "test -e %(there)s" every 1 { }
	if carp0.link.up set-state b
}
state b { if "test -e %(here)s" every 1 set-state a }
"""


def ended(daemon, moment, count):
    """Ticks, and waits until so many results are there in all."""
    daemon.send(f"tick {moment}")
    until(f"{count} results", lambda: len(results(daemon.send("trace"))) >= count)


def without_ends(daemon):
    return [note for note in daemon.notes() if note != "closed"]


def test_notes_of_facts(program):
    """Each link and each test that changed has a note, and a change of state says which tests are false."""
    with tempfile.TemporaryDirectory(dir=".") as folder:
        files = {name: os.path.join(os.path.abspath(folder), name) for name in ("always", "here", "there")}
        always, here, there = (f'"test -e {files[name]}"' for name in ("always", "here", "there"))
        with Daemon(program, WATCH % files) as daemon:
            ended(daemon, 1, 3)
            told = [f"test {it} unknown -> false" for it in (always, here, there)]
            same("first results", sorted(without_ends(daemon)), sorted(told))
            open(files["there"], "w").close()
            ended(daemon, 2, 6)
            same("the one that changed", without_ends(daemon)[3:], [f"test {there} false -> true"])
            daemon.send("link carp0 down")
            daemon.send("link carp0 down")
            daemon.send("link carp0 up")
            entered = f'state "a" -> "b" by link "carp0" up; false: {always}, {here}'
            changed = ['link "carp0" unknown -> down', 'link "carp0" down -> up', entered]
            same("links, and the state", without_ends(daemon)[4:], changed)
            daemon.send("link carp0 down")
            # the state was entered: its tests are unknown again, and those outside of all states are not
            open(files["here"], "w").close()
            ended(daemon, 3, 8)
            left = f'state "b" -> "a" by test {here} true; false: {always}'
            told = ['link "carp0" up -> down', f"test {here} unknown -> true", left]
            same("the test of the new state", without_ends(daemon)[7:], told)
            open(files["always"], "w").close()
            ended(daemon, 4, 11)
            told = [f"test {always} false -> true", f"test {here} unknown -> true", f"test {there} unknown -> true"]
            same("all of the state before", sorted(without_ends(daemon)[10:]), sorted(told))
            daemon.stop()


def test_facts_of_one_connection(program):
    """Each change is noted once, in the order of the steps, also if the connection has many."""
    with Daemon(program, "state a { if carp0.link.up { } if em0.link.up { } }") as daemon:
        daemon.ask(b"link carp0 up\nlink em0 up\nlink em0 up\nlink carp0 unknown\nlink carp0 up\nlink none up\n")
        same("notes", daemon.facts(), [
            'link "carp0" unknown -> up', 'link "em0" unknown -> up', 'link "carp0" up -> unknown', 'link "carp0" unknown -> up',
        ])
        daemon.stop()


def numbered(path):
    with open(path) as file:
        return file.read().splitlines()


def test_forms_of_notes(program):
    commands = commanding(["exit 3"], ["true"])
    failed, done = ('command "%s": exit %d after ' % it for it in (("exit 3", 3), ("true", 0)))
    with Daemon(program, commands, "--notes-prefix") as daemon:
        daemon.send("link carp0 up")
        daemon.limit_descriptors(5)
        daemon.send("link carp0 down")
        daemon.send("link carp0 up")
        daemon.stop()
        told = numbered(daemon.told)
        same("what each begins with", [line[:3] for line in told], ["<4>", "<6>", "<6>", "<6>", "<6>", "<6>", "<6>", "<3>", "<6>", "<6>"])
        holds(f"the texts {told}", told[0].startswith(f"<4>{failed}") and told[2].startswith(f"<6>{done}"))
        same("a link", told[1], '<6>link "carp0" unknown -> up')
        same("an error", told[7], '<3>command "true": not run: Too many open files (os error 24)')
    with Daemon(program, commands, "--notes-format", "json") as daemon:
        daemon.send("link carp0 up")
        daemon.stop()
        told = [json.loads(line) for line in numbered(daemon.told)]
        same("members", [sorted(it) for it in told], [["level", "note"]] * 5)
        same("levels", [it["level"] for it in told], ["warn", "info", "info", "info", "info"])
        holds(f"the texts {told}", told[0]["note"].startswith(failed) and told[2]["note"].startswith(done))
        same("the others", [told[it]["note"] for it in (1, 3, 4)], ['link "carp0" unknown -> up', "closed", "stop"])
    with Daemon(program, commands, "--notes-format", "text") as daemon:
        daemon.stop()
        same("a line of text", daemon.ends(), ["stop"])
    for words in (["--notes-format", "xml"], ["--notes-prefix", "--notes-format", "json"], ["--notes-format"]):
        same(f"serve {words}", serve(program, *words, "image", "socket").returncode, 2)


def test_notes_dropped_in_each_form(program):
    """The note of notes that found no room has the same form as others."""
    for options, told in (
        (["--notes-prefix"], "<4>1 notes dropped: no room on standard error"),
        (["--notes-format", "json"], '{"level":"warn","note":"1 notes dropped: no room on standard error"}'),
    ):
        reader, writer = socket.socketpair()
        writer.setblocking(False)
        filled = 0
        try:
            while True:
                filled += writer.send(b"x" * 4_096)
        except BlockingIOError:
            pass
        with reader, writer, Daemon(program, commanding([], []), *options, stderr=writer) as daemon:
            daemon.send("status")
            taken = 0
            while taken < filled:
                taken += len(reader.recv(65_536))
            daemon.send("status")
            daemon.stop()
            writer.shutdown(socket.SHUT_WR)
            same(f"notes {options}", read_all(reader).decode().splitlines()[0], told)


def test_command_that_still_runs(program):
    """After 20 seconds a note says so once, and the command runs to its end."""
    with tempfile.TemporaryDirectory(dir=".") as folder:
        there = os.path.join(os.path.abspath(folder), "there")
        text = f"sleep 22; touch {there}; exit 5"
        with Daemon(program, commanding([], [text, "sleep 0.1"]), "--notes", "changes") as daemon:
            begun = time.monotonic()
            told = [("WARN", f'command "{text}": still runs after 20 s')]
            daemon.ask_and_leave("link carp0 up")
            time.sleep(19)
            link = [("INFO", 'link "carp0" unknown -> up')]
            same("notes after 19 seconds", daemon.lines(), link)
            until("the note", daemon.changes)
            holds("the note came early", time.monotonic() - begun >= 20)
            same("the note", daemon.lines(), link + told)
            holds("the command has ended", not os.path.exists(there))
            same("status", daemon.send("status"), 'status "a" owed no queue 0 running 0 now 0\n')
            holds("the command was cut off", os.path.exists(there))
            ended = [("WARN", f'command "{text}": exit 5 after M ms'), ("INFO", 'command "sleep 0.1": exit 0 after M ms')]
            same("notes", daemon.changes(), told + ended)
            holds(f"it took {time.monotonic() - begun:.1f} seconds", time.monotonic() - begun < 22 + SOON)
            daemon.stop()
