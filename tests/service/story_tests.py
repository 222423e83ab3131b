"""What explain tells of a daemon. Parts of tests/service/run_service_tests."""
import os
import re
import subprocess

from daemons import SOON, Daemon, answered, holds, same, until

POLICY = """\
state backup { init { run "true" } if carp0.link.up && "true" every 5 set-state master }
state master { if em0.link.down set-state backup }
"""
# what is asked of the daemon before the test has ended, and then
BEFORE = ("link em0 up", "tick 10")
AFTER = ("link carp0 up", "link em0 down")
STEPS = """\
status "backup" owed yes queue 0 running 0 now 10
trace 7
  at - take -> taken "backup" cost 0 queue 0
  at - link "em0" up -> done "backup" cost N queue 0
  at 10 result "true" every 5 run 1 ok -> done "backup" cost N queue 0
* at 10 link "carp0" up -> done "backup" => "master" cost N queue 0
* at 10 link "em0" down -> done "master" => "backup" cost N queue 1
  at 10 take -> taken "backup" cost 0 queue 0
"""
CHANGES = """\
status "backup" owed yes queue 0 running 0 now 10
trace 9
  at - link "em0" up -> done "backup" cost N queue 0
  at 10 result "true" every 5 run 1 ok -> done "backup" cost N queue 0
* at 10 link "carp0" up -> done "backup" => "master" cost N queue 0
* at 10 link "em0" down -> done "master" => "backup" cost N queue 1
"""
REQUESTS = """\
take
link em0 up
tick 10
result 0 1 ok
link carp0 up
link em0 down
take
"""


CHANGES_BY_TICKS = """\
status "c" owed no queue 0 running 0 now 4
trace 8
* at 0 tick 0 -> ticked "a" => "b" cost N queue 0
  at 1 tick 1 -> ticked "b" cost N queue 1
* at 3 link "carp0" up -> done "b" => "c" cost N queue 1
"""


# states that are named like parts of a trace's line
LIKE_LINES = """\
state "a cost 7 queue 1" { if em0.link.up set-state "link 0 -> b cost 2" }
state "link 0 -> b cost 2" { if em0.link.down set-state "a cost 7 queue 1" }
"""
STEPS_LIKE_LINES = """\
status "a cost 7 queue 1" owed yes queue 0 running 0 now 4
trace 5
  at 3 tick 3 -> ticked "a cost 7 queue 1" cost N queue 0
* at 4 link "em0" up -> done "a cost 7 queue 1" => "link 0 -> b cost 2" cost N queue 0
  at 4 link "em0" up -> same "link 0 -> b cost 2" cost 0 queue 0
* at 4 link "em0" down -> done "link 0 -> b cost 2" => "a cost 7 queue 1" cost N queue 0
"""


def explain(program, *words):
    ran = subprocess.run([program, "explain", *words], capture_output=True, timeout=SOON)
    return ran.returncode, ran.stdout.decode(), ran.stderr.decode()


def costs_apart(text):
    """A text in which the costs of evaluations are not told."""
    words = text.split(" ")
    return " ".join("N" if words[at - 1] == "cost" and word != "0" else word for at, word in enumerate(words))


def sends_around_a_test(daemon, after):
    """Sends requests, waits for the end of the test that they start, and sends these."""
    for request in BEFORE:
        daemon.send(request)
    until("the test's end", lambda: "result 0 1 ok" in daemon.send("trace"))
    for request in after:
        daemon.send(request)


def test_steps_with_names(program):
    with Daemon(program, POLICY) as daemon:
        sends_around_a_test(daemon, AFTER)
        status, told, error = explain(program, daemon.image, daemon.socket)
        same("explain", (status, costs_apart(told), error), (0, STEPS, ""))
        same("explain --requests", explain(program, "--requests", "--wait", "5", daemon.image, daemon.socket), (0, REQUESTS, ""))
        # the same steps on the same image
        steps = daemon.send("trace").replace("trace 7\n", "")
        words = [program, "sim", daemon.image]
        ran = subprocess.run(words, input=(REQUESTS + "trace\n").encode(), capture_output=True, timeout=SOON)
        same("the trace of these requests by sim", ran.stdout.decode().split("trace 7\n")[-1], steps)
        daemon.stop()


def test_steps_that_changed_something(program):
    """Left out are what was told before, commands that are taken, and ticks that evaluated and changed nothing."""
    with Daemon(program, POLICY) as daemon:
        sends_around_a_test(daemon, ("link em0 up", AFTER[0], "link carp0 up", AFTER[1]))
        status, told, error = explain(program, "--changes", daemon.image, daemon.socket)
        same("explain --changes", (status, costs_apart(told), error), (0, CHANGES, ""))
        same("with --requests", explain(program, "--changes", "--requests", daemon.image, daemon.socket)[:2], (2, ""))
        daemon.stop()
    # a tick that evaluates, with a command and without; one that changes the state
    policy = 'state a { set-state b } state b { run "true" if carp0.link.up set-state c } state c { }'
    with Daemon(program, policy) as daemon:
        for moment in range(4):
            daemon.send(f"tick {moment}")
        daemon.send("link carp0 up")
        daemon.send("tick 4")
        status, told, error = explain(program, "--changes", daemon.image, daemon.socket)
        same("explain --changes of ticks", (status, costs_apart(told), error), (0, CHANGES_BY_TICKS, ""))
        daemon.stop()


# what a daemon on POLICY may reply, and what an image of another policy lacks then
OTHERS = (
    ('state other { if em0.link.up && carp0.link.up && "true" every 5 { } }', 'it has no state "backup"'),
    ("state backup { if carp0.link.up && em0.link.up { } } state master { }", "it has no test 0"),
    ('state backup { if carp0.link.up && "true" every 5 { run "true" } } state master { }', "it has no interface 1"),
    ('state backup { if em0.link.up { } if carp0.link.up { } if "true" every 5 { } }', 'it has no state "master"'),
)
RENAMED = """\
state backup { init { run "true" } if carp1.link.up && "false" every 9 set-state master }
state master { if em1.link.down set-state backup }
"""


def test_image_of_another_daemon(program):
    """It is refused if names, numbers, counts or budgets show it, and the daemon's own never is."""
    with Daemon(program, POLICY) as daemon:
        sends_around_a_test(daemon, AFTER)
        own = daemon.image
        for words in ([], ["--requests"], ["--changes"]):
            same(f"its own, {words}", explain(program, *words, own, daemon.socket)[0::2], (0, ""))
        for number, (policy, lack) in enumerate(OTHERS):
            daemon.image = daemon.file(f"other{number}")
            daemon.compile(policy)
            for words in ([], ["--requests"], ["--changes"]):
                told = f"{daemon.image}: error: this image is not the daemon's: {lack}\n"
                same(f"another {words}", explain(program, *words, daemon.image, daemon.socket), (1, "", told))
        # what the replies do not show is not refused: names of links and tests, and periods
        daemon.image = daemon.file("renamed")
        daemon.compile(RENAMED)
        status, told, error = explain(program, daemon.image, daemon.socket)
        same("renamed", (status, error), (0, ""))
        holds("the names are not those of the image", '"carp1" up' in told and '"false" every 9' in told)
        daemon.stop()


ANSWERS = (
    ('status "a" owed no queue 0 running 2 now 5\n', "it has fewer tests than 2"),
    ('status "a" owed no queue 0 running 1 now 5\n', None),
    ('tick 5 -> ticked "a" cost 300001 queue 0\n', "it states a cost below 300001"),
    ('tick 5 -> ticked "a" cost 1 queue 65\n', "it states fewer commands than 65"),
    ('link 0 up -> done "a" cost 1 queue 1\n', None),
    ('link 0 up -> done "A" cost 1 queue 1\n', 'it has no state "A"'),
    ('link 1 up -> same "a" cost 0 queue 0\n', "it has no interface 1"),
    ('result 1 7 ok -> same "a" cost 0 queue 0\n', "it has no test 1"),
    ('trace 1\nfault C1\nlink -> there\nstatus "b"\n', None),
)


def test_what_shows_another_image(program):
    with Daemon(program, 'state a { if carp0.link.up run "true" if "true" every 5 { } }') as daemon:
        path = daemon.file("answers")
        for reply, lack in ANSWERS:
            thread, _got = answered(path, reply.encode())
            status, told, error = explain(program, daemon.image, path)
            thread.join(SOON)
            os.remove(path)
            report = f"{daemon.image}: error: this image is not the daemon's: {lack}\n"
            wanted = (1, "", report) if lack else (0, told, "")
            same(f"explain of {reply!r}", (status, told, error), wanted)
            holds(f"nothing printed of {reply!r}", lack or told)
        daemon.stop()


def test_names_like_lines(program):
    """The name of a state is whole, whatever words it has."""
    with Daemon(program, LIKE_LINES) as daemon:
        for request in ("tick 3", "tick 4", "link em0 up", "link em0 up", "link em0 down"):
            daemon.send(request)
        status, told, error = explain(program, daemon.image, daemon.socket)
        told = re.sub(r" cost [1-9]\d* queue 0$", " cost N queue 0", told, flags=re.M)
        same("explain", (status, told, error), (0, STEPS_LIKE_LINES, ""))
        daemon.stop()


def test_nothing_to_explain(program):
    with Daemon(program, POLICY) as daemon:
        with open(daemon.file("bad"), "wb") as file:
            file.write(b"IFSX")
        status, told, error = explain(program, daemon.file("bad"), daemon.socket)
        same("no image", (status, told), (1, "refused I2 byte 0\n"))
        holds("no report of the image", error.startswith(f"{daemon.file('bad')}: error: "))
        missing = f"device {daemon.file('none')}: No such file or directory\n"
        same("no file", explain(program, daemon.file("none"), daemon.socket), (3, "", missing))
        same("no daemon", explain(program, daemon.image, daemon.file("none")), (3, "", missing))
        thread, got = answered(daemon.file("silent"), b"")
        silent = f"device {daemon.file('silent')}: no reply\n"
        same("no reply", explain(program, daemon.image, daemon.file("silent")), (3, "", silent))
        thread.join(SOON)
        same("what was asked", got, [b"status\ntrace\n"])
        thread, _ = answered(daemon.file("odd"), b"\xff\n")
        ended, told, error = explain(program, daemon.image, daemon.file("odd"))
        same("no text", (ended, told, error.startswith(f"device {daemon.file('odd')}: ")), (3, "", True))
        thread.join(SOON)
        for name in ("silent", "odd"):
            os.remove(daemon.file(name))
        daemon.stop()
