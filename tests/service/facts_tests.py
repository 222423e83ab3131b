"""The file of facts that a daemon writes. Parts of tests/service/run_service_tests."""
import json
import os
import re
import resource
import stat
import subprocess
import tempfile
import threading
import time

from daemons import PLAIN, SOON, Daemon, commanding, holds, same, serve, testing, until

PAGE = os.path.join(os.path.dirname(os.path.abspath(__file__)), "..", "..", "docs", "DAEMON.md")


def documented(page):
    """The members of the file and those of its counts, by the table of the page."""
    with open(page) as file:
        table = file.read().split("| Member | Value |\n")[1].split("\n\n")[0]
    rows = [row.split(" | ") for row in table.splitlines()[1:]]
    members = [name for row in rows for name in re.findall("`(.+?)`", row[0])]
    counts = [re.findall("`(.+?)`", row[1]) for row in rows if "`counts`" in row[0]]
    return sorted(members), dict.fromkeys(counts[0], 0)


MEMBERS, COUNTS = documented(PAGE)
# it leaves its states by a link and by tests
TWO = """\
if "test -e %(always)s" every 1 { }
state a {
	if "test -e %(here)s" every 2 { }
	if carp0.link.up set-state b
}
state b { init { run "echo b" } if em0.link.down set-state a }
"""


class Facts:
    """A daemon's file of facts, in a folder that it is to be alone in."""

    def __init__(self, folder):
        self.folder = os.path.abspath(folder)
        self.path = os.path.join(self.folder, "facts")

    def text(self):
        with open(self.path) as file:
            return file.read()

    def read(self):
        return json.loads(self.text())

    def number(self):
        """The number of the file, which is another one after each writing."""
        return os.stat(self.path).st_ino, os.stat(self.path).st_mtime_ns

    def fresh(self, daemon):
        """The facts of now, also if nothing changed since they were written: they are written once a second then."""
        time.sleep(1.1)
        daemon.send("status")
        return self.read()

    def alone(self):
        return os.listdir(self.folder)


def told(folder, program, policy, *options, **started):
    facts = Facts(folder)
    return facts, Daemon(program, policy, "--facts", facts.path, *options, **started)


def counted(facts, **some):
    same("counts", facts["counts"], COUNTS | some)


def now_near(what, clock):
    holds(f"{what} {clock} is not the time", abs(clock - time.time()) < SOON)


def test_facts_at_the_start(program):
    with tempfile.TemporaryDirectory(dir=".") as folder:
        facts, daemon = told(folder, program, testing(["true", 'echo \\"a\\"']))
        with daemon:
            first = until("facts", lambda: os.path.exists(facts.path) and facts.read())
            same("files", facts.alone(), ["facts"])
            same("members", sorted(first), MEMBERS)
            for clock in ("written", "started"):
                now_near(clock, first[clock])
            start = first["state"]["since"]
            same("moment", start["moment"], 0)
            now_near("start", start["clock"])
            same("image", first["image"], {"bytes": os.path.getsize(daemon.image), "read": start})
            same("state", first["state"], {"name": "a", "since": start, "from": None, "cause": None})
            test = {"every": 1, "needed": True, "value": None, "since": start, "running": False}
            test |= dict.fromkeys(("started", "ended", "limit"))
            same("tests", first["tests"], [{"command": text} | test for text in ("true", 'echo "a"')])
            same("next", first["next"], 0)
            nothing = [first[it] for it in ("links", "queue", "running", "last", "tick", "ticks", "first")]
            same("none", nothing, [[], [], None, None, None, [], None])
            same("no change", [first[it] for it in ("hour", "changes", "killed", "states")], [0, [], [], ["a"]])
            counted(first)
            ran = subprocess.run([program, "--version"], capture_output=True, text=True)
            same("version", f"ifsvm {first['version']}\n", ran.stdout)
            daemon.stop()
        same("files after stop", facts.alone(), [])


def test_facts_of_ticks_and_tests(program):
    """Each tick and each run of a test changes the facts that it is about."""
    with tempfile.TemporaryDirectory(dir=".") as folder, tempfile.TemporaryDirectory(dir=".") as other:
        files = {name: os.path.join(os.path.abspath(other), name) for name in ("always", "here")}
        facts, daemon = told(folder, program, TWO % files)
        with daemon:
            start = until("facts", lambda: os.path.exists(facts.path) and facts.read())
            same("links", [(it["name"], it["up"]) for it in start["links"]], [("carp0", None), ("em0", None)])
            daemon.send("tick 5")
            until("ends of tests", lambda: daemon.send("status").endswith("running 0 now 5\n"))
            after = facts.read()
            same("moments of ticks", [it["moment"] for it in after["ticks"]], [5])
            same("tick", after["tick"], after["ticks"][0])
            now_near("tick", after["tick"]["clock"])
            for name, wanted in (("value", [False, False]), ("running", [False, False])):
                same(name, [it[name] for it in after["tests"]], wanted)
            for name in ("since", "ended"):
                same(name, [it[name]["moment"] for it in after["tests"]], [5, 5])
            same("next", after["next"], 6)
            daemon.send("tick 7")
            until("ends of tests", lambda: daemon.send("status").endswith("running 0 now 7\n"))
            after = facts.fresh(daemon)
            same("since, with the same values", [it["since"]["moment"] for it in after["tests"]], [5, 5])
            same("ends", [it["ended"]["moment"] for it in after["tests"]], [7, 7])
            holds("the clock goes on", after["tests"][0]["ended"]["clock"] >= after["tests"][0]["since"]["clock"])
            open(files["here"], "w").close()
            daemon.send("tick 9")
            until("a new value", lambda: daemon.send("status") and facts.read()["tests"][1]["value"])
            same("since", [it["since"]["moment"] for it in facts.read()["tests"]], [5, 9])
            same("steps", facts.fresh(daemon)["counts"]["steps"], len(daemon.send("trace").splitlines()) - 1)
            daemon.stop()


def test_facts_of_running_tests(program):
    with tempfile.TemporaryDirectory(dir=".") as folder:
        facts, daemon = told(folder, program, testing(["sleep 4", "exit 1"]))
        with daemon:
            until("facts", lambda: os.path.exists(facts.path))
            daemon.send("tick 1")
            during = until("a result", lambda: daemon.send("status") and facts.read()["tests"][1]["ended"] and facts.read())
            same("running", [it["running"] for it in during["tests"]], [True, False])
            same("values", [it["value"] for it in during["tests"]], [None, False])
            after = until("another", lambda: daemon.send("status") and facts.read()["tests"][0]["ended"] and facts.read())
            same("running", [it["running"] for it in after["tests"]], [False, False])
            same("value", after["tests"][0]["value"], True)
            daemon.stop()


def test_facts_of_links_and_states(program):
    """A link and the state have since when they are so, and the state why."""
    with tempfile.TemporaryDirectory(dir=".") as folder:
        facts, daemon = told(folder, program, TWO % {"always": "/dev/null", "here": "/dev/null"})
        with daemon:
            daemon.send("tick 8")
            until("ends of tests", lambda: daemon.send("status").endswith("running 0 now 8\n"))
            daemon.send("link carp0 down")
            daemon.send("tick 9")
            daemon.send("link carp0 down")
            down = facts.read()["links"][0]
            same("link", (down["up"], down["since"]["moment"]), (False, 8))
            until("ends of tests", lambda: daemon.send("status").endswith("running 0 now 9\n"))
            daemon.send("link carp0 up")
            after = facts.read()
            state = after["state"]
            same("state", [state[it] for it in ("name", "from", "cause")], ["b", "a", 'link "carp0" up'])
            same("since", state["since"]["moment"], 9)
            now_near("since", state["since"]["clock"])
            same("values in the state", [it["value"] for it in after["tests"]], [True, None])
            same("since", [it["since"]["moment"] for it in after["tests"]], [8, 9])
            last = after["last"]
            same("last", (last["command"], last["exit"]), ("echo b", 0))
            now_near("end", last["ended"])
            holds(f"milliseconds {last}", last["milliseconds"] < SOON * 1_000)
            steps = len(daemon.send("trace").splitlines()) - 1
            counted(facts.fresh(daemon), steps=steps, changes=1, commands=1)
            daemon.ask(b"link em0 down\nlink em0 up\n")
            state = facts.read()["state"]
            same("state", [state[it] for it in ("name", "from", "cause")], ["a", "b", 'link "em0" down'])
            same("link", [it["up"] for it in facts.read()["links"]], [True, True])
            daemon.stop()


def test_facts_of_a_cause_by_a_test(program):
    policy = 'state a { if !"exit 1" every 1 set-state b }\nstate b { if "true" every 1 set-state c }\nstate c { }\n'
    with tempfile.TemporaryDirectory(dir=".") as folder:
        facts, daemon = told(folder, program, policy)
        with daemon:
            daemon.send("tick 1")
            until("state b or c", lambda: 'status "a"' not in daemon.send("status"))
            state = facts.read()["state"]
            same("state", [state[it] for it in ("name", "from")], ["b", "a"])
            holds(f"cause {state}", state["cause"] in ('test "exit 1" false', "tick 1"))
            daemon.send("tick 2")
            until("state c", lambda: 'status "c"' in daemon.send("status"))
            same("cause", facts.read()["state"]["cause"], 'test "true" true')
            daemon.stop()


def test_facts_of_commands(program):
    """A command that runs is told as it begins, and at its end as the last one."""
    with tempfile.TemporaryDirectory(dir=".") as folder:
        facts, daemon = told(folder, program, commanding(["exit 3", "true"], ["sleep 1; exit 4"]))
        with daemon:
            first = until("facts", lambda: os.path.exists(facts.path) and facts.read()["last"] and facts.read())
            until("the second command", lambda: facts.read()["counts"]["commands"] == 2)
            first = facts.read()
            same("last", (first["last"]["command"], first["last"]["exit"], first["running"]), ("true", 0, None))
            until("the steps", lambda: facts.read()["counts"]["steps"] == 2)
            counted(facts.read(), steps=2, commands=2, failed=1)
            daemon.ask_and_leave("link carp0 up")
            during = until("a running command", lambda: facts.read()["running"] and facts.read())
            same("running", during["running"]["command"], "sleep 1; exit 4")
            now_near("its start", during["running"]["since"])
            # the link was told before its command began
            same("link", during["links"][0]["up"], True)
            after = until("its end", lambda: facts.read()["running"] is None and facts.read())
            same("last", (after["last"]["command"], after["last"]["exit"]), ("sleep 1; exit 4", 4))
            holds(f"milliseconds {after['last']}", 1_000 <= after["last"]["milliseconds"] < SOON * 1_000)
            until("the link", lambda: facts.read()["links"][0]["up"])
            counted(facts.read(), steps=4, commands=3, failed=2)
            # those that it has, and a connection: none is left for the streams of a command
            daemon.limit_descriptors(daemon.descriptors() + 1)
            daemon.send("link carp0 down")
            daemon.send("link carp0 up")
            last = facts.read()
            same("facts without a descriptor", (last["last"]["exit"], last["counts"]["commands"]), (None, 4))
            daemon.stop()


def test_facts_of_a_hanging_command(program):
    """While a command hangs the facts stay: they say that it runs, and are not written."""
    with tempfile.TemporaryDirectory(dir=".") as folder:
        facts, daemon = told(folder, program, commanding([], ["sleep 4"]), "--command-limit", "3")
        with daemon:
            until("facts", lambda: os.path.exists(facts.path))
            daemon.ask_and_leave("link carp0 up")
            during = until("a running command", lambda: facts.read()["running"] and facts.read())
            daemon.ask_and_leave("tick 1")
            time.sleep(1.5)
            same("facts later", facts.read(), during)
            after = until("its end", lambda: facts.read()["last"] and facts.read())
            same("its exit", (after["last"]["command"], after["last"]["exit"], after["running"]), ("sleep 4", 137, None))
            daemon.stop()


def test_facts_of_an_opening(program):
    """While the first command of an opening runs, the facts name those that wait."""
    with tempfile.TemporaryDirectory(dir=".") as folder:
        policy = 'state a { init { run "sleep 1" run "true" run "echo b" } if em0.link.up { } }'
        facts, daemon = told(folder, program, policy)
        with daemon:
            during = until("a running command", lambda: os.path.exists(facts.path) and facts.read()["running"] and facts.read())
            same("it", (during["running"]["command"], during["queue"]), ("sleep 1", ["true", "echo b"]))
            after = until("their ends", lambda: facts.read()["counts"]["commands"] == 3 and facts.read())
            same("none waits", (after["running"], after["queue"]), (None, []))
            daemon.stop()


def test_facts_of_reloads(program):
    """A reload keeps the links that it keeps, with their times. A refused one is counted."""
    with tempfile.TemporaryDirectory(dir=".") as folder:
        facts, daemon = told(folder, program, "state a { if carp0.link.up { } if em0.link.up { } }")
        with daemon:
            daemon.ask(b"tick 3\nlink carp0 up\nlink em0 down\n")
            before = facts.read()
            daemon.compile('state z { init { run "true" } if em1.link.up { } if em0.link.up { } if "exit 0" every 3 { } }')
            time.sleep(1.1)
            same("reload", daemon.send("reload"), 'reloaded "z" queue 1\n')
            until("its command", lambda: facts.read()["counts"]["steps"] == 4)
            after = facts.read()
            same("links", [(it["name"], it["up"]) for it in after["links"]], [("em1", None), ("em0", False)])
            same("since before", after["links"][1]["since"], before["links"][1]["since"])
            holds("a new link is so since before", after["links"][0]["since"]["clock"] > before["started"])
            state = after["state"]
            same("state", [state[it] for it in ("name", "from", "cause")], ["z", None, None])
            holds("the state since", state["since"]["clock"] > before["state"]["since"]["clock"])
            same("image", after["image"], {"bytes": os.path.getsize(daemon.image), "read": state["since"]})
            same("tests", [it["command"] for it in after["tests"]], ["exit 0"])
            same("ticks", (after["tick"], after["ticks"]), (None, []))
            counted(after, steps=4, commands=1, reloads=1)
            with open(daemon.image, "wb") as file:
                file.write(b"no image")
            daemon.send("reload")
            until("the count", lambda: facts.read()["counts"]["refused"] == 1)
            refused = facts.read()
            counted(refused, steps=4, commands=1, reloads=2, refused=1)
            for name in ("state", "links", "tests", "image"):
                same(name, refused[name], after[name])
            daemon.stop()


def test_facts_are_written_whole(program):
    """A reader never finds a part of the file, and no other file is left beside it."""
    with tempfile.TemporaryDirectory(dir=".") as folder:
        facts, daemon = told(folder, program, "state a { if carp0.link.up { } }")
        with daemon:
            until("facts", lambda: os.path.exists(facts.path))
            ended, seen, faults = threading.Event(), set(), []

            def look():
                while not ended.is_set():
                    try:
                        seen.add(facts.read()["counts"]["steps"])
                    except (ValueError, OSError) as cause:
                        faults.append(cause)

            reader = threading.Thread(target=look)
            reader.start()
            for number in range(150):
                daemon.ask(f"link carp0 {'up' if number % 2 else 'down'}\n".encode())
            ended.set()
            reader.join()
            same("faults of the reader", faults, [])
            holds(f"only {len(seen)} contents were seen", len(seen) > 20)
            same("files", facts.alone(), ["facts"])
            counted(facts.read(), steps=150)
            daemon.stop()


def test_ticks_are_told_once_a_second(program):
    with tempfile.TemporaryDirectory(dir=".") as folder:
        facts, daemon = told(folder, program, testing([]))
        with daemon:
            until("facts", lambda: os.path.exists(facts.path))
            begun, seen = time.monotonic(), set()
            for moment in range(300):
                daemon.ask(f"tick {moment}\n".encode())
                seen.add(facts.number())
            lasted = time.monotonic() - begun
            holds(f"{len(seen)} writings in {lasted:.1f} s", 1 <= len(seen) <= lasted + 2)
            time.sleep(1.1)
            daemon.send("tick 300")
            last = facts.read()
            same("the ticks", [it["moment"] for it in last["ticks"]], list(range(45, 301)))
            same("the last", last["tick"], last["ticks"][-1])
            counted(last, steps=301)
            number = facts.number()
            for request in ("status", "trace", "tick 4", "link none up", "no request"):
                daemon.send(request)
            same("after requests that are no steps", facts.number(), number)
            daemon.stop()


def test_many_steps_of_a_connection(program):
    """What is in no trace any more is known, and counted."""
    with tempfile.TemporaryDirectory(dir=".") as folder:
        facts, daemon = told(folder, program, "state a { if carp0.link.up { } if em0.link.up { } }")
        with daemon:
            daemon.ask(b"link em0 up\n" + b"link carp0 up\nlink carp0 down\n" * 200)
            links = facts.read()["links"]
            same("links", [(it["name"], it["up"]) for it in links], [("carp0", False), ("em0", True)])
            counted(facts.read(), steps=401)
            daemon.stop()


def test_facts_that_cannot_be_written(program):
    """One note says so until they are written again. Nothing else changes."""
    with tempfile.TemporaryDirectory(dir=".") as folder:
        facts = Facts(os.path.join(folder, "missing"))
        with Daemon(program, commanding([], ["true"]), "--facts", facts.path) as daemon:
            cause = f"facts {facts.path}: No such file or directory (os error 2)"
            until("a note", daemon.changes)
            for number in range(3):
                same("a link", daemon.send("link carp0 up")[:4], "done" if number == 0 else "same")
                daemon.send(f"tick {number}")
            same("notes", [it for it in daemon.changes() if "command" not in it[1]], [("WARN", cause)])
            os.mkdir(facts.folder)
            daemon.send("link carp0 down")
            same("link", facts.read()["links"][0]["up"], False)
            os.rename(facts.folder, f"{facts.folder}2")
            daemon.send("link carp0 up")
            daemon.send("link carp0 down")
            same("notes", [it for it in daemon.changes() if "command" not in it[1]], [("WARN", cause)] * 2)
            daemon.stop()
        for made, why in (
            (lambda path: os.mkdir(path), "not a regular file"),
            (lambda path: os.symlink("/dev/null", path), "not a regular file"),
        ):
            path = os.path.join(os.path.abspath(folder), "place")
            made(path)
            with Daemon(program, PLAIN, "--facts", path) as daemon:
                until("a note", daemon.changes)
                daemon.send("tick 1")
                same("notes", daemon.changes(), [("WARN", f"facts {path}: {why}")])
                daemon.stop()
            holds("it is gone", os.path.lexists(path))
            (os.rmdir if os.path.isdir(path) else os.unlink)(path)


def test_facts_in_a_folder_without_rights(program):
    """A folder that is not to be written to, or files that may not be so long, give one note. The old file stays."""
    with tempfile.TemporaryDirectory(dir=".") as folder:
        facts, daemon = told(folder, program, "state a { if carp0.link.up { } }")
        with daemon:
            before = until("facts", lambda: os.path.exists(facts.path) and facts.text())
            keeper, = daemon.helpers()
            resource.prlimit(keeper, resource.RLIMIT_FSIZE, (100, resource.RLIM_INFINITY))
            daemon.send("link carp0 up")
            daemon.send("link carp0 down")
            cause = f"facts {facts.path}: File too large (os error 27)"
            same("facts", facts.text(), before)
            same("files", facts.alone(), ["facts"])
            resource.prlimit(keeper, resource.RLIMIT_FSIZE, (resource.RLIM_INFINITY, resource.RLIM_INFINITY))
            daemon.send("link carp0 up")
            same("link", facts.read()["links"][0]["up"], True)
            same("notes", daemon.changes(), [("WARN", cause)])
            daemon.stop()
    if os.getuid() != 0:
        with tempfile.TemporaryDirectory(dir=".") as folder:
            os.chmod(folder, 0o555)
            facts, daemon = told(folder, program, PLAIN)
            with daemon:
                until("a note", daemon.changes)
                daemon.send("tick 1")
                same("notes", daemon.changes(), [("WARN", f"facts {facts.path}: Permission denied (os error 13)")])
                daemon.stop()
            os.chmod(folder, 0o755)


def test_rights_of_the_facts(program):
    """Others have none, as at the socket, and the group has what the umask leaves."""
    for mask, wanted in ((0o022, 0o640), (0o077, 0o600), (0, 0o660)):
        with tempfile.TemporaryDirectory(dir=".") as folder:
            facts, daemon = told(folder, program, PLAIN, umask=mask)
            with daemon:
                until("facts", lambda: os.path.exists(facts.path))
                same(f"rights with umask {mask:o}", stat.S_IMODE(os.stat(facts.path).st_mode), wanted)
                same("those of others at the socket", os.stat(daemon.socket).st_mode & 0o007, 0)
                daemon.stop()


def test_facts_over_other_files(program):
    """The file of facts must not be the image's or the socket's."""
    for words, wanted in (
        (["--facts", "image", "image", "socket"], 2),
        (["--facts", "socket", "image", "socket"], 2),
        (["--facts", "", "image", "socket"], 2),
        (["--facts"], 2),
    ):
        same(f"serve {words}", serve(program, *words).returncode, wanted)
    with Daemon(program, PLAIN) as daemon:
        os.link(daemon.image, daemon.file("other"))
        with open(daemon.image, "rb") as file:
            image = file.read()
        ran = serve(program, "--facts", daemon.file("other"), daemon.image, daemon.file("socket2"))
        same("facts that are the image", (ran.returncode, ran.stdout), (3, b""))
        holds(f"{ran.stderr}", ran.stderr.startswith(f"device {daemon.file('other')}: ".encode()))
        with open(daemon.image, "rb") as file:
            same("the image", file.read(), image)
        daemon.stop()


def explained(program, daemon, *options):
    """What explain prints without and with options, in lines."""
    words = [program, "explain", "--wait", str(SOON), *options, daemon.image, daemon.socket]
    ran = subprocess.run(words, capture_output=True, text=True, timeout=2 * SOON)
    same(f"status of explain {options}", (ran.returncode, ran.stderr), (0, ""))
    return ran.stdout.splitlines()


def test_explain_by_facts(program):
    """By the facts explain prints what the clock showed at each moment, and how many steps came before."""
    with tempfile.TemporaryDirectory(dir=".") as folder:
        facts, daemon = told(folder, program, "state a { if carp0.link.up set-state b }\nstate b { if carp0.link.down set-state a }")
        with daemon:
            until("facts", lambda: os.path.exists(facts.path))
            daemon.send("tick 7")
            daemon.send("link carp0 up")
            plain, timed = explained(program, daemon), explained(program, daemon, "--facts", facts.path)
            same("without the clock", [re.sub(r"^(..at 7) \d\d:\d\d:\d\d ", r"\1 ", line) for line in timed], plain)
            wanted = r'\* at 7 \d\d:\d\d:\d\d link "carp0" up -> done "a" => "b" cost \d+ queue 0'
            holds(f"the last line {timed[-1]}", re.fullmatch(wanted, timed[-1]))
            same("requests", *(explained(program, daemon, "--requests", *it) for it in ([], ["--facts", facts.path])))
            for moment in (8, 9, 10):
                daemon.ask(f"tick {moment}\n".encode() + b"link carp0 down\nlink carp0 up\n" * 50)
            timed = explained(program, daemon, "--changes", "--facts", facts.path)
            same("steps before", timed[0], "49 steps came before these")
            holds(f"the last line {timed[-1]}", re.match(r"\* at 10 \d\d:\d\d:\d\d link ", timed[-1]))
            for name, text, wanted in (("none", None, 3), ("bad", "{", 1), ("other", "{}", 1)):
                path = daemon.file(name)
                if text:
                    with open(path, "w") as file:
                        file.write(text)
                ran = subprocess.run([program, "explain", "--facts", path, daemon.image, daemon.socket], capture_output=True, timeout=SOON)
                same(f"status by {name}", (ran.returncode, ran.stdout), (wanted, b""))
            daemon.stop()


TAKES = """\
state a { init run "true" if carp0.link.up set-state b }
state b { init { run "echo \\"b\\"" run "false" } if carp0.link.down run "true" }
"""
TAKEN = r"""  at - take "true" -> taken "a" cost 0 queue 0
* at - link "carp0" up -> done "a" => "b" cost N queue 2
  at - take "echo \"b\"" -> taken "b" cost 0 queue 0
  at - take "false" -> taken "b" cost 0 queue 0
  at - link "carp0" down -> done "b" cost N queue 1
  at - take "true" -> taken "b" cost 0 queue 0
"""


def test_explain_commands_by_facts(program):
    """With the facts a command that was taken has its text, if all steps since the start are there."""
    with tempfile.TemporaryDirectory(dir=".") as folder:
        facts, daemon = told(folder, program, TAKES)
        with daemon:
            until("facts", lambda: os.path.exists(facts.path))
            daemon.send("link carp0 up")
            daemon.send("link carp0 down")
            timed = explained(program, daemon, "--facts", facts.path)[2:]
            same("commands", [re.sub(r"cost [1-9]\d*", "cost N", line) for line in timed], TAKEN.splitlines())
            # the new image knows a link at its opening, so its steps cannot be made again
            daemon.send("reload")
            until("the reload", lambda: '"reloads":1' in open(facts.path).read())
            timed = explained(program, daemon, "--facts", facts.path)[2:]
            holds(f"a command after a reload: {timed}", any(" take -> taken " in line for line in timed))
            daemon.stop()


def test_without_facts_nothing_is_written(program):
    with Daemon(program, "state a { if carp0.link.up { } }") as daemon:
        before = sorted(os.listdir(daemon.folder))
        daemon.send("link carp0 up")
        daemon.send("tick 1")
        same("files", sorted(os.listdir(daemon.folder)), before)
        daemon.stop()


def cost(daemon):
    """The seconds of 200 ticks that change nothing, of which few are written."""
    daemon.ask(b"tick 1\n")
    begun = time.monotonic()
    for _number in range(200):
        daemon.ask(b"tick 1\n")
    return time.monotonic() - begun


def test_cost_of_facts(program):
    """Requests that change nothing cost at most half as much again with facts as without."""
    with tempfile.TemporaryDirectory(dir=".") as folder:
        facts, daemon = told(folder, program, PLAIN)
        with daemon, Daemon(program, PLAIN) as other:
            until("facts", lambda: os.path.exists(facts.path))
            pairs = [(cost(daemon), cost(other)) for _round in range(3)]
            with_facts, without = map(min, zip(*pairs))
            holds(f"200 ticks took {with_facts:.3f} s with facts, {without:.3f} s without", with_facts <= 1.5 * without + 0.05)
            other.stop()
            daemon.stop()
