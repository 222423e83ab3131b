"""Three nights of docs/OPERATING.md: what `status`, `explain` and the notes say at each moment stands there in blocks, each after a
comment `<!-- night: NAME -->`. A line `..` there is any lines. A daemon with a program that is named ping lives through each
night, on a clock of moments that the test sends. Times of the page may differ by seconds from what is printed. Parts of
tests/service/run_service_tests."""
import os
import re
import subprocess
import tempfile
import time

from daemons import SOON, Daemon, holds, same, until

PAGE = os.path.join(os.path.dirname(os.path.abspath(__file__)), "..", "..", "docs", "OPERATING.md")
POLICY = """\
provider = '"ping -c 1 -w 2 192.0.2.254" every 5'
init-state backup
if ! $provider || ! lan.link.up
	set-state broken
state backup {
	init run "ip address del 203.0.113.1/24 dev em0"
	if carp0.link.up && "dig @192.0.2.53 ." every 5 set-state master
}
state master { init run "ip address add 203.0.113.1/24 dev em0" if ! carp0.link.up set-state backup }
state broken { init run "ip address del 203.0.113.1/24 dev em0" if $provider && lan.link.up set-state backup }
"""
PING = """\
#!/bin/sh
[ -e "${0%/*}/provider" ]
"""
# it takes a while, so that it does not end between two lines of a client
DIG = """\
#!/bin/sh
sleep 0.2
while [ -e "${0%/*}/hangs" ]; do sleep 0.2; done
"""
# with this variable the blocks are printed, and nothing is compared
PRINT = "PRINT_NIGHTS"
# the page's clock begins at this moment
EVENING = 7_200
EVENING_CLOCK = 3 * 3_600
# so many seconds a time or a span of seconds may differ by
NEAR = 5
PART = re.compile(r"(\d\d:\d\d:\d\d|\(for \d+ s|\(\d+ s|for \d+ s$|after \d+ ms|cost \d+|run \d+|reported \d+ times|at \d+|\d+ steps)")


def blocks():
    """The blocks of the page by their names."""
    with open(PAGE) as file:
        return dict(re.findall(r"^<!-- night: (.+?) -->\n```\n(.*?)^```$", file.read(), re.M | re.S))


def seconds(part):
    """The seconds of a time or of a span."""
    if ":" in part:
        hour, minute, second = map(int, part.split(":"))
        return hour * 3_600 + minute * 60 + second
    if part.endswith(" s") or part.startswith("at "):
        return int(re.search(r"\d+", part)[0])
    return None


def is_near(given, wanted):
    """Whether two texts are the same but for some seconds, and for what a machine needs."""
    given, wanted = PART.split(given), PART.split(wanted)
    if len(given) != len(wanted) or given[::2] != wanted[::2]:
        return False
    for one, other in zip(given[1::2], wanted[1::2]):
        one, other = seconds(one), seconds(other)
        if (one is None) != (other is None) or one is not None and abs(one - other) > NEAR:
            return False
    return True


def are_lines(given, wanted):
    """Whether lines are those of a block, in which `..` is any lines."""
    if not wanted:
        return not given
    if wanted[0] == "..":
        return any(are_lines(given[at:], wanted[1:]) for at in range(len(given) + 1))
    return bool(given) and is_near(given[0], wanted[0]) and are_lines(given[1:], wanted[1:])


class Night:
    """A daemon and its moment."""

    def __init__(self, program, daemon, room):
        self.program, self.daemon, self.room = program, daemon, room
        self.moment, self.page, self.noted = EVENING, blocks(), 0

    def put(self, name):
        with open(os.path.join(self.room, name), "w"):
            pass

    def take(self, name):
        os.remove(os.path.join(self.room, name))

    def tick(self, moment):
        """A tick at so many seconds after the evening, and the ends of the tests that it starts, unless they hang."""
        self.moment = EVENING + moment
        self.daemon.send(f"tick {self.moment}")
        # a test that hangs does not end
        if not os.path.exists(os.path.join(self.room, "hangs")):
            until("the ends of tests", lambda: " running 0 " in self.daemon.send("status"))

    def ticks(self, first, last, step=5):
        for moment in range(first, last + 1, step):
            self.tick(moment)

    def zone(self):
        """A time zone in which it is the moment of the page now."""
        ahead = (EVENING_CLOCK + self.moment - EVENING - int(time.time())) % 86_400
        return f"XXX-{ahead // 3_600}:{ahead // 60 % 60:02}:{ahead % 60:02}"

    def run(self, *words):
        ran = subprocess.run(
            [self.program, *words], capture_output=True, text=True, timeout=2 * SOON, env=os.environ | {"TZ": self.zone()})
        same(f"{words}: status and standard error", (ran.returncode, ran.stderr), (0, ""))
        return ran.stdout

    def shows(self, name):
        """Compares what status, explain and the new notes say now with a block of the page."""
        # what changed nothing is written once a second
        time.sleep(1.1)
        self.daemon.send(f"tick {self.moment}")
        facts = os.path.join(self.room, "facts")
        notes = self.daemon.notes()
        new, self.noted = notes[self.noted:], len(notes)
        explained = self.run("explain", "--changes", "--facts", facts, self.daemon.image, self.daemon.socket)
        given = self.run("status", facts) + explained + "".join(f"{note}\n" for note in new)
        given = given.replace(f"{self.room}/", "")
        if PRINT in os.environ:
            print(f"<!-- night: {name} -->\n```\n{given}```", flush=True)
            return
        holds(f"no block {name}", name in self.page)
        holds(f"{name}\n{given}in place of\n{self.page[name]}", are_lines(given.splitlines(), self.page[name].splitlines()))


def live(program, lives, *options):
    with tempfile.TemporaryDirectory() as room:
        for name, text in (("ping", PING), ("dig", DIG), ("ip", "#!/bin/sh\n")):
            path = os.path.join(room, name)
            with open(path, "w") as file:
                file.write(text)
            os.chmod(path, 0o755)
        path = f"{room}:{os.environ['PATH']}"
        options = ("--notes", "changes", "--facts", os.path.join(room, "facts"), *options)
        with Daemon(program, POLICY, *options, env=os.environ | {"PATH": path}) as daemon:
            night = Night(program, daemon, room)
            night.put("provider")
            night.daemon.send("link lan up")
            night.daemon.send("link carp0 up")
            night.tick(0)
            night.tick(1)
            night.tick(2)
            same("the evening", night.daemon.send("status").split()[1], '"master"')
            night.noted = len(daemon.notes())
            lives(night)
            daemon.stop()


def provider_is_away(night):
    """From 03:02:00 to 03:12:00."""
    night.ticks(5, 115)
    night.take("provider")
    night.ticks(120, 240)
    night.shows("away")
    night.ticks(245, 715)
    night.put("provider")
    night.ticks(720, 780)
    night.daemon.send(f"tick {night.moment}")
    shown = night.run("status", os.path.join(night.room, "facts"))
    holds(shown, re.match(r'master since \d\d:\d\d:\d\d \(.*\), from backup, by test "dig @192.0.2.53 ." true\n', shown))


def cable_flaps(night):
    """At 10 Hz from 03:02:00 to 03:04:00."""
    night.ticks(5, 115)
    for second in range(120, 240):
        night.moment = EVENING + second
        night.daemon.ask(f"tick {night.moment}\n".encode() + b"link lan down\nlink lan up\n" * 5)
    night.ticks(240, 250)
    night.shows("flaps")


def hanging_test(night):
    """From 03:02:01 until its limit of a minute, as the other gateway gives the address back."""
    night.ticks(5, 120)
    night.put("hangs")
    night.daemon.send("link carp0 down")
    begun = time.monotonic()
    night.tick(121)
    night.daemon.send("link carp0 up")
    night.ticks(125, 160)
    night.shows("hangs")
    time.sleep(max(0, begun + 57 - time.monotonic()))
    night.tick(178)
    until("its end", lambda: "result 1 " in night.daemon.send("trace").split("link 1 up")[-1])
    night.moment = EVENING + 181
    night.shows("killed")
    night.take("hangs")


def test_night_without_provider(program):
    live(program, provider_is_away)


def test_night_of_a_cable(program):
    live(program, cable_flaps)


def test_night_of_a_test_that_hangs(program):
    live(program, hanging_test, "--test-limit", "60")
