"""A night with three failovers, and what an operator sees of it. Parts of tests/service/run_service_tests."""
import itertools
import os
import re
import subprocess
import tempfile
import time

from daemons import Daemon, holds, same, until

# one of two gateways: it serves while it has the address, its link and its provider
POLICY = """\
provider = '"test -e ROOM/provider" every 1'
maintenance = '"test -e ROOM/maintenance" every 1'
works = '( lan.link.up && $provider )'

init-state backup
if ! $works set-state broken
if ! "test -e ROOM/resolver" every 1 { }
if $maintenance set-state maintenance

state backup { init run "ROOM/stand by" if carp.link.up && $works set-state master }
state master { init run "ROOM/stand serving" if carp.link.down set-state backup }
state broken { init run "ROOM/stand back" if $works set-state backup }
state maintenance { init run "ROOM/stand aside" if ! $maintenance set-state backup }
"""
# each command is noted in a file, and hangs while there is a file that says so; standing back fails
STAND = """\
#!/bin/sh
cd "${0%/*}" || exit
echo "$1" >> stood
while [ -e hangs ]; do sleep 0.1; done
[ "$1" != back ]
"""


# what explain --changes has to show at each of five moments, after what it showed before
EVENING = """\
  at - link "lan" up -> done "backup" cost N queue 0
  at - link "carp" down -> done "backup" cost N queue 0
  at 1 result "test -e provider" every 1 run 1 ok -> done "backup" cost N queue 0
  at 1 result "test -e resolver" every 1 run 2 ok -> done "backup" cost N queue 0
  at 1 result "test -e maintenance" every 1 run 3 fail -> done "backup" cost N queue 0
* at 1 link "carp" up -> done "backup" => "master" cost N queue 1
"""
LOST = """\
  at 3 result "test -e resolver" every 1 run 8 fail -> done "master" cost N queue 0
  at 4 result "test -e resolver" every 1 run 11 ok -> done "master" cost N queue 0
  at 5 result "test -e resolver" every 1 run 14 fail -> done "master" cost N queue 0
  at 6 result "test -e resolver" every 1 run 17 ok -> done "master" cost N queue 0
* at 7 result "test -e provider" every 1 run 19 fail -> done "master" => "broken" cost N queue 1
"""
PULLED = """\
  at 7 link "carp" down -> done "broken" cost N queue 0
* at 9 result "test -e provider" every 1 run 25 ok -> done "broken" => "backup" cost N queue 1
* at 10 link "carp" up -> done "backup" => "master" cost N queue 1
* at 11 link "lan" down -> done "master" => "broken" cost N queue 1
  at 11 link "carp" down -> done "broken" cost N queue 0
"""
WORKED_ON = """\
* at 11 link "lan" up -> done "broken" => "backup" cost N queue 1
* at 12 link "carp" up -> done "backup" => "master" cost N queue 1
* at 14 result "test -e maintenance" every 1 run 42 ok -> done "master" => "maintenance" cost N queue 1
  at 14 link "carp" down -> done "maintenance" cost N queue 0
"""
MORNING = """\
* at 15 result "test -e maintenance" every 1 run 45 fail -> done "maintenance" => "backup" cost N queue 1
"""
# in the order of the image
LINKS = ("lan", "carp")
FAILED = 'command "stand back": exit 1 after M ms'


class Night:
    """A daemon, the files that its tests look at, its moment, and what has to have been told so far."""

    def __init__(self, program, daemon, room):
        self.program, self.daemon, self.room = program, daemon, room
        self.moment = 0
        self.warned, self.changed = [], []

    def put(self, name):
        with open(os.path.join(self.room, name), "w"):
            pass

    def take(self, name):
        os.remove(os.path.join(self.room, name))

    def second(self):
        """A tick, whose tests end before the daemon looks at them."""
        self.moment += 1
        self.daemon.send(f"tick {self.moment}")
        until("the tests of a tick end", lambda: all(map(has_ended, self.daemon.children())))
        self.daemon.send("status")

    def run(self, *words):
        ran = subprocess.run([self.program, *words], capture_output=True, text=True, timeout=60)
        same(f"{words}: status and standard error", (ran.returncode, ran.stderr), (0, ""))
        return ran.stdout

    def plain(self, text):
        """A text with T for times, D for durations, N for lengths, and without the folder."""
        text = text.replace(f"{self.room}/", "").replace("(since the start)", "(for D)").replace(" since the start (", " since T (")
        text = re.sub(r"\b\d\d:\d\d:\d\d\b", "T", text)
        text = re.sub(r"\b\d+ (s|min|h)\b", "D", text)
        return re.sub(r"\d+ ms\b", "M ms", re.sub(r"[\d,]+ bytes", "N bytes", text))

    def status(self):
        return self.plain(self.run("status", os.path.join(self.room, "facts")))

    def shows(self, moment, status, warned, changed):
        """Asserts what status, the notes of warnings and `explain --changes` show now; of the last two, what came since the moment
        before."""
        # what changes nothing is written once a second
        time.sleep(1.1)
        self.daemon.send("status")
        same(f"{moment}: status", self.status(), status)
        self.warned += warned
        notes = [self.plain(note) for level, note in self.daemon.lines() if level != "INFO"]
        same(f"{moment}: warnings", notes, self.warned)
        self.changed += changed.splitlines()
        told = self.run("explain", "--changes", self.daemon.image, self.daemon.socket)
        same(f"{moment}: changes", in_order(re.sub(r"cost \d+", "cost N", self.plain(told)).splitlines()[2:]), self.changed)


def has_ended(process):
    try:
        with open(f"/proc/{process}/stat") as file:
            return file.read().rsplit(")", 1)[1].split()[0] == "Z"
    except FileNotFoundError:
        return True


def in_order(lines):
    """Lines of explain. Tests of one moment end in any order; here they have that of their runs."""
    keys = {number: re.match(r"  at (\d+) result .* run (\d+)", line) for number, line in enumerate(lines)}
    groups = itertools.groupby(keys, lambda number: (keys[number][1], 0) if keys[number] else ("", number))
    ordered = [sorted(group, key=lambda number: int(keys[number][2]) if keys[number] else 0) for _, group in groups]
    return [lines[number] for group in ordered for number in group]


# the changes of the night: what they are by, and between which states
SERVES = 'backup -> master by link "carp" up'
LOSES = 'master -> broken by test "test -e provider" false'
FINDS = 'broken -> backup by test "test -e provider" true'
IS_CUT = 'master -> broken by link "lan" down'
IS_PUT_IN = 'broken -> backup by link "lan" up'
IS_TAKEN_OUT = 'master -> maintenance by test "test -e maintenance" true'
IS_PUT_BACK = 'maintenance -> backup by test "test -e maintenance" false'


def history(count, *changes):
    """What status has to show of so many changes, and of the latest ones; one that came again has its number before it."""
    word = "change" if count == 1 else "changes"
    lines = [f"{count} {word} in the last hour, {count} since the start"]
    for change in changes:
        times, _, rest = change.rpartition("*")
        lines.append(f"  T to T, {times} times: {rest}" if times else f"  T {rest}")
    return lines


def stands(state, since, down=(), false=(), last=None, failed=0, changes=()):
    """What status has to show."""
    lines = [f"{state} since T (D), {since}", "ticks come (last D ago); next test in D; image of N bytes read T, version 0.2.0"]
    lines += [f'{"fail" if name in false else "good"}  test "test -e {name}" (for D)' for name in ("provider", "resolver", "maintenance")]
    lines += [f'{"down" if name in down else "up"}  link "{name}" (for D)' for name in LINKS]
    return "\n".join([*lines, f'last command "stand {last[0]}": exit {last[1]}, D ago; {failed} failed since the start', *changes, ""])


def evening(night):
    night.put("provider")
    night.put("resolver")
    night.daemon.send("link lan up")
    night.daemon.send("link carp down")
    night.second()
    night.daemon.send("link carp up")
    night.second()
    shown = stands("master", 'from backup, by link "carp" up', (), ["maintenance"], ("serving", 0), 0, history(1, SERVES))
    night.shows("the evening", shown, [], EVENING)


def provider_is_lost(night):
    """The resolver is lost twice for a moment before that."""
    for _ in range(2):
        night.take("resolver")
        night.second()
        night.put("resolver")
        night.second()
    night.take("provider")
    night.second()
    cause = 'from master, by test "test -e provider" false'
    shown = stands("broken", cause, (), ["provider", "maintenance"], ("back", 1), 1, history(2, SERVES, LOSES))
    night.shows("the provider is lost", shown, [FAILED], LOST)
    night.daemon.send("link carp down")
    night.second()
    night.put("provider")
    night.second()
    night.second()
    night.daemon.send("link carp up")
    night.second()


def cable_is_pulled(night):
    night.daemon.send("link lan down")
    night.daemon.send("link carp down")
    changes = history(5, LOSES, FINDS, f"2*{SERVES}", IS_CUT)
    shown = stands("broken", 'from master, by link "lan" down', ["lan", "carp"], ["maintenance"], ("back", 1), 2, changes)
    night.shows("the cable is pulled", shown, [FAILED], PULLED)
    night.daemon.send("link lan up")
    night.second()
    night.daemon.send("link carp up")
    night.second()


def somebody_works_there(night):
    night.put("maintenance")
    night.second()
    night.daemon.send("link carp down")
    changes = history(8, FINDS, IS_CUT, IS_PUT_IN, f"3*{SERVES}", IS_TAKEN_OUT)
    shown = stands("maintenance", 'from master, by test "test -e maintenance" true', ["carp"], [], ("aside", 0), 2, changes)
    night.shows("maintenance", shown, [], WORKED_ON)


def command_hangs(night):
    """The first command after the maintenance, until the morning."""
    night.put("hangs")
    night.take("maintenance")
    night.moment += 1
    night.daemon.send(f"tick {night.moment}")
    until("the command runs", lambda: 'runs command "stand by" for D' in night.status())
    until("the daemon is held", lambda: night.status().startswith("NOT WRITTEN for D"))
    night.take("hangs")
    night.second()
    changes = history(9, IS_CUT, IS_PUT_IN, f"3*{SERVES}", IS_TAKEN_OUT, IS_PUT_BACK)
    shown = stands("backup", 'from maintenance, by test "test -e maintenance" false', ["carp"], ["maintenance"], ("by", 0), 2, changes)
    night.shows("the morning", shown, [], MORNING)


def test_night(program):
    """A resolver that comes and goes, a lost provider, a pulled cable, maintenance and a command that hangs."""
    with tempfile.TemporaryDirectory(dir=".") as room:
        room = os.path.abspath(room)
        stand = os.path.join(room, "stand")
        with open(stand, "w") as file:
            file.write(STAND)
        os.chmod(stand, 0o755)
        facts = os.path.join(room, "facts")
        with Daemon(program, POLICY.replace("ROOM", room), "--notes", "changes", "--facts", facts) as daemon:
            night = Night(program, daemon, room)
            for part in (evening, provider_is_lost, cable_is_pulled, somebody_works_there, command_hangs):
                part(night)
            lines = daemon.lines()
            holds(f"{len(lines)} lines in the journal of a night", len(lines) <= 40)
            daemon.stop()
