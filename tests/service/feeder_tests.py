"""Tests of what feeds the daemon: the scripts that an operator installs, on built programs."""
import contextlib
import os
import re
import signal
import subprocess
import threading
import time

from daemons import SOON, Daemon, holds, same, until
from processes import processes_marked

SYSTEM = os.path.join(os.path.dirname(os.path.abspath(__file__)), "..", "..", "system")

POLICY = """\
state a { if carp0.link.up { } if em0.link.up { } if em1.link.up { } if em2.link.up { } if tun0.link.up { }
	if "br/0 %".link.up { } if ".em".link.up { } }
"""

# the command runs once: the state that it belongs to is left at once
SLOW = """\
state a { if slow.link.up set-state b if carp0.link.up { } }
state b { init run "sleep 5" if carp0.link.up { } }
"""

# the interfaces 3 and 4 exchange their names, and the former name of 2 is a further name of it
RENAMED = """\
#!/bin/sh
end='<BROADCAST,MULTICAST,UP,LOWER_UP> mtu 1500 qdisc fq state'
case $* in
"-o monitor link")
	sleep 1.5
	printf '%s\\n' "2: em8: $end UP" "3: em7: $end DOWN" "4: em1: $end UP" "3: em2: $end DOWN" "5: tun0: $end UP"
	exec sleep 60 ;;
"-o link show") printf '%s\\n' "2: em0: $end UP" "3: em1: $end UP" "4: em2: $end UP" ;;
"-o link show dev em0") echo "2: em8: $end UP" ;;
"-o link show dev em1") echo "4: em1: $end UP" ;;
"-o link show dev em2") echo "3: em2: $end DOWN" ;;
*) exit 1 ;;
esac
"""

# a unit has failed while the file `failed` is there
SYSTEMCTL = """\
#!/bin/sh
case $* in
*is-failed*) [ -e "${0%/*}/../failed" ]; exit ;;
esac
printf '%s\\n' "$*" >> "${0%/*}/../asked"
"""

# it does not end while the log is full, for half a minute at most
LOGGER = """\
#!/bin/sh
printf '%s\\n' "$*" >> "${0%/*}/../logged"
waits=300
while [ -e "${0%/*}/../full" ] && [ "$waits" -gt 0 ]; do
	sleep 0.1
	waits=$((waits - 1))
done
"""

IP = """\
#!/bin/sh
case $* in
"-o monitor link")
	sleep 1.5
	echo '3: em1@if2: <NO-CARRIER,BROADCAST,MULTICAST,UP> mtu 1500 qdisc fq state DOWN group default qlen 1000'
	echo 'Deleted 4: em2: <BROADCAST,MULTICAST,UP,LOWER_UP> mtu 1500 qdisc noop state UP group default'
	echo 'Deleted 2: em0: <BROADCAST,MULTICAST,UP,LOWER_UP> mtu 1500 master br0 state DOWN'
	exec sleep 60 ;;
"-o link show")
	echo '2: em0: <BROADCAST,MULTICAST,UP,LOWER_UP> mtu 1500 qdisc fq state UP mode DEFAULT group default qlen 1000'
	echo '3: em1@if2: <BROADCAST,MULTICAST,UP,LOWER_UP> mtu 1500 qdisc fq state UP mode DEFAULT group default'
	echo '4: em2: <BROADCAST,MULTICAST,UP,LOWER_UP> mtu 1500 qdisc fq state UP mode DEFAULT group default'
	echo '5: tun0: <POINTOPOINT,UP,LOWER_UP> mtu 1420 qdisc noqueue state UNKNOWN mode DEFAULT group default'
	echo '6: em9: <BROADCAST,MULTICAST,UP,LOWER_UP> mtu 1500 qdisc fq state UP mode DEFAULT group default' ;;
"-o link show dev em0")
	echo '2: em0: <BROADCAST,MULTICAST,UP,LOWER_UP> mtu 1500 qdisc fq state UP mode DEFAULT group default qlen 1000' ;;
*) exit 1 ;;
esac
"""


def heed_signals():
    """A script cannot catch what was ignored when it began, as it is where these tests run in the background."""
    for number in (signal.SIGINT, signal.SIGHUP):
        signal.signal(number, signal.SIG_DFL)


class Feeders:
    """The scripts beside a daemon, with words of their own on their path."""

    def __init__(self, daemon, ip=IP):
        self.daemon = daemon
        words = daemon.file("words")
        os.mkdir(words)
        os.symlink(daemon.program, os.path.join(words, "ifsvm"))
        for name, text in (("logger", LOGGER), ("ip", ip), ("systemctl", SYSTEMCTL)):
            with open(os.path.join(words, name), "w") as file:
                file.write(text)
            os.chmod(file.name, 0o755)
        self.marked = f"IFSVM_SOCKET={os.path.abspath(daemon.socket)}"
        self.environment = os.environ | {
            "PATH": f"{words}:{os.environ['PATH']}",
            "IFSVM_SOCKET": os.path.abspath(daemon.socket),
            "IFSVM_LINKS": daemon.file("links"),
        }

    def start(self, *script, **given):
        words = [os.path.join(SYSTEM, script[0]), *script[1:]]
        return subprocess.Popen(words, env=self.environment, preexec_fn=heed_signals, **given)

    @contextlib.contextmanager
    def running(self, *script, **given):
        process = self.start(*script, **given)
        try:
            yield process
        finally:
            process.terminate()
            process.wait()
            for stream in filter(None, (process.stdout, process.stderr)):
                stream.close()

    @contextlib.contextmanager
    def reading(self, *words):
        """keepalived_fifo with these words; at the end all of it is killed, as systemd does after a kill."""
        process = self.start("keepalived_fifo", *words, start_new_session=True)
        try:
            yield process
        finally:
            with contextlib.suppress(ProcessLookupError):
                os.killpg(process.pid, signal.SIGKILL)
            process.wait()

    def call(self, *script):
        """The seconds that a script takes, which has to end with status 0."""
        start = time.monotonic()
        with self.start(*script, stderr=subprocess.PIPE) as process:
            _, told = process.communicate(timeout=2 * SOON)
        same(f"status and standard error of {script}", (process.returncode, told), (0, b""))
        return time.monotonic() - start

    def links(self):
        """The links that the daemon was told, in order."""
        return re.findall(r"^link (\d) (\w+) ->", self.daemon.send("trace"), re.M)

    def carp(self):
        """The states of carp0 that the daemon was told, in order."""
        return [to for number, to in self.links() if number == "0"]

    def logged(self):
        return self.lines_of("logged")

    def noted(self, count):
        """What was logged, once it is as much as that: no script waits until it is."""
        until(f"{count} notes", lambda: len(self.logged()) >= count)
        same("how much was logged", len(self.logged()), count)
        return self.logged()

    @contextlib.contextmanager
    def full_log(self):
        """From here on nobody reads the log, so what logs has to wait."""
        with open(self.daemon.file("full"), "w"):
            pass
        try:
            yield
        finally:
            os.remove(self.daemon.file("full"))

    def lines_of(self, name):
        with contextlib.suppress(FileNotFoundError), open(self.daemon.file(name)) as file:
            return file.read().splitlines()
        return []

    def processes(self):
        """The processes that the scripts started, their own among them, and that have not ended."""
        return processes_marked(self.marked)

    def kill_daemon(self):
        self.daemon.process.kill()
        self.daemon.process.wait()

    def start_daemon(self):
        """Starts a killed daemon anew, on its image and its socket."""
        daemon = self.daemon
        daemon.process.stdout.close()
        os.remove(daemon.socket)
        words = [daemon.program, "serve", daemon.image, daemon.socket]
        with open(daemon.told, "ab") as told:
            daemon.process = subprocess.Popen(words, stdout=subprocess.PIPE, stderr=told)
        same("first line of a new start", daemon.process.stdout.readline(), b"ready\n")


class Keepalived:
    """The FIFO as keepalived has it: open for reading too, so what is written while nobody reads waits there."""

    def __init__(self, path):
        self.path = path
        with contextlib.suppress(FileExistsError):
            os.mkfifo(path)
        self.fifo = os.open(path, os.O_RDWR | os.O_NONBLOCK)

    def says(self, *states):
        for state in states:
            os.write(self.fifo, f'INSTANCE "carp0" {state} 100\n'.encode())

    def closes(self):
        os.close(self.fifo)


@contextlib.contextmanager
def feeders(program, policy=POLICY, ip=IP):
    with Daemon(program, policy) as daemon:
        yield Feeders(daemon, ip)


def test_ucarp_scripts(program):
    with feeders(program) as those:
        for state, to in (("up", "up"), ("down", "down"), ("up", "up")):
            those.call(f"ucarp_{state}", "em0", "203.0.113.1", "carp0")
            same("the last link of ucarp's scripts", those.links()[-1:], [("0", to)])
        until("the end of all tellers", lambda: not those.processes())
        same("what is odd in that", those.logged(), [])


def test_kept_while_the_daemon_is_away(program):
    with feeders(program) as those:
        those.call("ucarp_down", "em0", "203.0.113.1", "carp0")
        those.kill_daemon()
        those.call("ucarp_up", "em0", "203.0.113.1", "carp0")
        holds(f"what is noted meanwhile: {those.noted(1)}", "link carp0 up: status 3 " in those.logged()[0])
        those.call("tell_link", "no interface", "down")
        those.noted(2)
        those.start_daemon()
        those.call("tell_link", "--kept")
        same("links that the new daemon knows", those.links(), [("0", "up")])
        same("a name that the policy lacks", those.noted(3)[2], "-t ifsvm -- link no interface down: status 1 fault C4")
        those.call("tell_link", "--kept")
        same("told twice", those.links(), [("0", "up")] * 2)


@contextlib.contextmanager
def small(folder, size):
    """A file system of so many bytes in memory. None where nobody may mount one."""
    os.mkdir(folder)
    words = ["mount", "-t", "tmpfs", "-o", f"size={size}", "none", folder]
    is_there = os.getuid() == 0 and subprocess.run(words, capture_output=True).returncode == 0
    try:
        yield is_there
    finally:
        if is_there:
            subprocess.run(["umount", "--lazy", folder], check=True)


def test_state_that_cannot_be_kept(program):
    """On a full disk no older state of the link is kept: the next start does not tell it. The daemon is told all the same."""
    with Daemon(program, POLICY) as daemon:
        those = Feeders(daemon)
        links = daemon.file("links")
        with small(links, 65_536) as is_there:
            if not is_there:
                print("test_state_that_cannot_be_kept was left out: nobody may mount a file system here")
                return
            those.call("tell_link", "carp0", "up")
            until("the link", lambda: those.carp() == ["up"])
            filler = os.path.join(links, "filler")
            subprocess.run(["dd", "if=/dev/zero", f"of={filler}", "bs=4096"], capture_output=True)
            those.call("tell_link", "carp0", "down")
            until("the link", lambda: those.carp() == ["up", "down"])
            same("states that are kept", [name for name in os.listdir(links) if name.endswith(".link") or ".new" in name], [])
            until("the note", lambda: any("nothing is kept of it" in line for line in those.logged()))
            those.call("tell_link", "--kept")
            same("what was told", those.carp(), ["up", "down"])
            # there is room again
            os.unlink(filler)
            those.call("tell_link", "carp0", "up")
            same("kept again", open(os.path.join(links, "carp0.link")).read(), "link carp0 up\n")
        daemon.stop()


def test_kept_waits_for_a_daemon(program):
    with feeders(program) as those:
        those.kill_daemon()
        those.call("tell_link", "carp0", "up")
        teller = those.start("tell_link", "--kept")
        time.sleep(0.5)
        those.start_daemon()
        same("status of tell_link --kept", teller.wait(SOON), 0)
        same("links that the new daemon knows", those.links(), [("0", "up")])


def test_names_that_are_kept(program):
    with feeders(program) as those:
        names = ["carp0", "br/0 %", ".em"]
        for name in names:
            those.call("tell_link", name, "up")
        for name in ("", "a\nb", "x" * 244, "/" * 100):
            those.call("tell_link", name, "up")
        wanted = [(number, "up") for number in "056"]
        same("links of odd names", those.links(), wanted)
        until("notes of the names that are not kept", lambda: sum("no request can hold" in line for line in those.logged()) == 4)
        those.kill_daemon()
        those.start_daemon()
        those.call("tell_link", "--kept")
        same("links of odd names, told again", sorted(those.links()), wanted)
        with those.start("tell_link", "carp0", "sideways") as process:
            same("status where the state is none", process.wait(SOON), 2)


def test_tellers_at_once(program):
    """What was kept last is what the daemon knows in the end, however many tell at once."""
    with feeders(program) as those:
        for turn in range(5):
            states = ["up", "down", "unknown"][turn % 3 :] + ["up", "down", "unknown"] * 4
            tellers = [those.start("tell_link", "carp0", state) for state in states] + [those.start("tell_link", "--kept")]
            same("statuses", {teller.wait(SOON) for teller in tellers}, {0})
            until("the end of all tellers", lambda: not those.processes())
            with open(os.path.join(those.environment["IFSVM_LINKS"], "carp0.link")) as file:
                kept = file.read()
            same("the last link and what is kept", "link carp0 {}\n".format(those.links()[-1][1]), kept)
        same("what is odd in that", those.logged(), [])


def test_no_script_waits_for_a_command(program):
    with feeders(program, SLOW) as those:
        those.call("tell_link", "slow", "up")
        taken = [those.call("ucarp_up", "em0", "203.0.113.1", "carp0"), those.call("tell_link", "carp0", "unknown")]
        # one that waits for replies has its turn now
        kept = those.start("tell_link", "--kept")
        taken.append(those.call("ucarp_down", "em0", "203.0.113.1", "carp0"))
        holds(f"a script waited for a command of 5 seconds: {taken}", max(taken) < 3)
        same("status of tell_link --kept", kept.wait(SOON), 0)
        until("the end of all tellers", lambda: not those.processes())
        same("the last link", [to for number, to in those.links() if number == "1"][-1], "down")


def test_kept_is_told_without_holding_others_up(program):
    """Who tells what is kept waits for replies; who has another state meanwhile does not wait, and is told last."""
    with feeders(program, SLOW) as those:
        those.kill_daemon()
        for name in ("slow", "carp0"):
            those.call("tell_link", name, "up")
        those.start_daemon()
        # the files are gone through by their names: carp0, then slow
        kept = those.start("tell_link", "--kept")
        until("the slow command", lambda: those.daemon.children())
        taken = [those.call("ucarp_down", "em0", "203.0.113.1", "carp0"), those.call("tell_link", "slow", "down")]
        holds(f"a script waited for one that tells what is kept: {taken}", max(taken) < 3)
        same("status of tell_link --kept", kept.wait(SOON), 0)
        until("the end of all tellers", lambda: not those.processes())
        same("links", sorted(those.links()), [("0", "down"), ("0", "up"), ("1", "down"), ("1", "up")])
        same("the last links", {number: to for number, to in those.links()}, {"0": "down", "1": "down"})


def test_keepalived_fifo(program):
    with feeders(program) as those:
        path = those.daemon.file("fifo")
        os.mkfifo(path)
        reader = those.start("keepalived_fifo", path)
        given = ["BACKUP", "MASTER", "FAULT", "MASTER", "MASTER_RX_LOWER_PRI", "BACKUP", "STOP"]
        with open(path, "w") as fifo:
            for state in given:
                fifo.write(f'GROUP "carp0" MASTER 0\nINSTANCE "carp0" {state} 100\n')
                fifo.flush()
                # keepalived sends TERM before its last lines
                reader.send_signal(signal.SIGTERM) if state == "BACKUP" else None
            fifo.write('INSTANCE "br/0 %" MASTER 100\nodd\n')
        same("status of keepalived_fifo", reader.wait(2 * SOON), 0)
        until("the end of all tellers", lambda: not those.processes())
        wanted = ["down", "up", "unknown", "up", "up", "down", "unknown"]
        same("links of keepalived", [to for number, to in those.links() if number == "0"], wanted)
        same("a name with a slash", those.links()[-1], ("5", "up"))
        same("what is odd in that", those.logged(), [])


def test_keepalived_reader_that_is_killed(program):
    """The next one tells what keepalived has by then, and nothing of what came and went meanwhile."""
    with feeders(program) as those:
        keepalived = Keepalived(those.daemon.file("fifo"))
        with those.reading(keepalived.path):
            keepalived.says("BACKUP", "MASTER")
            until("the master", lambda: those.carp() == ["down", "up"])
        with those.reading(keepalived.path):
            until("what the second reader tells", lambda: len(those.carp()) > 2)
            time.sleep(0.5)
        keepalived.says("BACKUP", "MASTER", "BACKUP")
        time.sleep(0.5)
        same("links of carp0 without a reader", those.carp(), ["down", "up", "up"])
        with those.reading(keepalived.path):
            until("what the third reader tells", lambda: len(those.carp()) > 3)
            keepalived.says("FAULT")
            until("what is told next", lambda: len(those.carp()) > 4)
        same("links of carp0", those.carp(), ["down", "up", "up", "down", "unknown"])
        keepalived.closes()


def closed_as_master(those):
    """A keepalived that closed the FIFO as master; its reader has ended."""
    keepalived = Keepalived(those.daemon.file("fifo"))
    with those.reading(keepalived.path) as reader:
        keepalived.says("MASTER")
        until("the master", lambda: those.carp() == ["up"])
        keepalived.closes()
        same("status of a reader without keepalived", reader.wait(SOON), 0)
    return keepalived


def test_keepalived_that_ends(program):
    """Nothing is told at once, as it may only reload; after 5 seconds its links are unknown."""
    with feeders(program) as those:
        keepalived = closed_as_master(those)
        start = time.monotonic()
        with those.reading(keepalived.path):
            until("the end of keepalived", lambda: those.carp() == ["up", "unknown"])
            taken = time.monotonic() - start
            holds(f"it was told after {taken:.1f} s", 5 <= taken < 8)
            again = Keepalived(keepalived.path)
            again.says("BACKUP")
            until("keepalived again", lambda: those.carp()[2:] == ["down"])
            again.closes()


def test_keepalived_that_reloads(program):
    """It closes the FIFO for a moment and says nothing new: no link changes."""
    with feeders(program) as those:
        keepalived = closed_as_master(those)
        with those.reading(keepalived.path):
            time.sleep(1)
            again = Keepalived(keepalived.path)
            time.sleep(6)
            same("links of carp0", set(those.carp()), {"up"})
            again.closes()


def test_keepalived_reader_that_stays_away(program):
    """After 5 seconds its links are unknown; a reader that comes back tells what keepalived has by then."""
    with feeders(program) as those:
        keepalived = Keepalived(those.daemon.file("fifo"))
        with those.reading("--guard", keepalived.path):
            with those.reading(keepalived.path):
                keepalived.says("MASTER")
                until("the master", lambda: those.carp() == ["up"])
                time.sleep(6)
                same("links of carp0 with a reader", those.carp(), ["up"])
            start = time.monotonic()
            until("the loss of the reader", lambda: those.carp() == ["up", "unknown"])
            taken = time.monotonic() - start
            holds(f"it was told after {taken:.1f} s", 5 <= taken < 8)
            with those.reading(keepalived.path):
                until("the reader again", lambda: those.carp() == ["up", "unknown", "up"])
        keepalived.closes()


def test_lost_socket(program):
    """The daemon's unit is started again if its socket is gone, and else left alone."""
    with feeders(program) as those:
        those.call("lost_socket")
        same("what systemd is asked while the socket is there", those.lines_of("asked"), [])
        os.remove(those.daemon.socket)
        those.call("lost_socket")
        units = "ifsvm ifsvm-keepalived ifsvm-keepalived-guard"
        wanted = ["is-active --quiet ifsvm", f"--job-mode=fail --no-block try-restart {units}"]
        same("what systemd is asked then", those.lines_of("asked"), wanted)
        those.noted(1)


def test_watch_links(program):
    with feeders(program) as those, those.running("watch_links", stdout=subprocess.PIPE, text=True) as watch:
        known = {"1": "up", "2": "down", "3": "unknown", "4": "up"}
        until(f"what the daemon is to know, {known}", lambda: dict(those.links()) == known)
        shown = [f"link {name} up" for name in ("em0", "em1", "em2", "tun0", "em9")]
        told = [watch.stdout.readline().split(": ")[0] for _ in range(13)]
        same("what watch_links told", told, shown * 2 + ["link em1 down", "link em2 unknown", "link em0 up"])
        same("interfaces that the policy lacks are odd", those.logged(), [])


def test_watch_links_of_renamed_interfaces(program):
    with feeders(program, ip=RENAMED) as those, those.running("watch_links", stdout=subprocess.DEVNULL):
        known = {"1": "unknown", "2": "up", "3": "down", "4": "up"}
        until(f"what the daemon is to know, {known}", lambda: dict(those.links()) == known)
        same("what is odd in that", those.logged(), [])


def test_watch_links_ends_with_the_daemon(program):
    with feeders(program) as those, those.running("watch_links", stdout=subprocess.DEVNULL) as watch:
        # from here on no link changes
        until("the last change", lambda: dict(those.links()).get("2") == "down")
        those.kill_daemon()
        start = time.monotonic()
        same("its status at the end", watch.wait(SOON), 0)
        # two seconds, and one for a machine that is busy
        holds("watch_links goes on for over 2 seconds without a daemon", time.monotonic() - start < 3)
        until("the end of what watch_links started", lambda: not those.processes())


def test_watch_links_after_a_new_start(program):
    with feeders(program) as those, those.running("watch_links", stdout=subprocess.DEVNULL) as watch:
        until("all links", lambda: len(those.links()) == 11)
        # from the end to the start is less than a second: whoever asks each second need not notice it
        those.kill_daemon()
        those.start_daemon()
        until("all links again, or the end", lambda: len(those.links()) >= 4 or watch.poll() is not None)
        if watch.poll() is not None:
            # it asked between the two: its unit starts it again
            same("its status", watch.returncode, 0)
            with those.running("watch_links", stdout=subprocess.DEVNULL):
                until("all links again", lambda: len(those.links()) >= 4)
        same("links that the new daemon knows", those.links()[:4], [(number, "up") for number in "1234"])


def test_watch_links_leaves_nothing_behind(program):
    def ended_by(end):
        with feeders(program) as those, those.running("watch_links", stdout=subprocess.PIPE) as watch:
            watch.stdout.readline()
            end(watch)
            watch.wait(SOON)
            until(f"the end of what watch_links started, after {end.__name__}", lambda: not those.processes())

    def term(watch):
        watch.terminate()

    def interrupt(watch):
        watch.send_signal(signal.SIGINT)

    def hang_up(watch):
        watch.send_signal(signal.SIGHUP)

    def end_of_its_reader(watch):
        watch.stdout.close()

    def kill(watch):
        watch.kill()

    failed = []

    def run(end):
        try:
            ended_by(end)
        except Exception as cause:
            failed.append(f"{end.__name__}: {cause}")

    threads = [threading.Thread(target=run, args=(end,)) for end in (term, interrupt, hang_up, end_of_its_reader, kill)]
    for thread in threads:
        thread.start()
    for thread in threads:
        thread.join()
    same("ends that leave something behind", failed, [])


def moment():
    with open("/proc/uptime") as file:
        return int(file.read().split(".")[0])


def test_ticks(program):
    with feeders(program) as those:
        daemon = those.daemon
        daemon.send(f"tick {moment() + 3}")
        ticks = those.start("ticks", stdout=subprocess.DEVNULL, stderr=subprocess.DEVNULL)
        until("two ticks after those that went backwards", lambda: daemon.send("trace").count("\ntick ") >= 2)
        same("notes of a moment that was too late", [line.split(": ")[1] for line in those.noted(1)], ["backwards"])
        daemon.send(f"tick {moment() + 3}")
        those.noted(2)
        daemon.stop()
        same("the end of ticks without a daemon", ticks.wait(SOON), 0)
        same("notes", [line.split(": ")[1] for line in those.logged()], ["backwards"] * 2)


def test_ticks_of_a_daemon_that_is_held(program):
    """One line says so, after 20 seconds; ticks go on when it does."""
    with feeders(program) as those:
        daemon = those.daemon
        with those.running("ticks", stdout=subprocess.DEVNULL, stderr=subprocess.PIPE) as ticks:
            until("a tick", lambda: "\ntick " in daemon.send("trace"))
            daemon.process.send_signal(signal.SIGSTOP)
            start = time.monotonic()
            same("what is logged", those.noted(1), ["-t ifsvm -- the daemon has not answered for 20 s"])
            taken = time.monotonic() - start
            holds(f"it was logged after {taken:.1f} s", 18 <= taken < 30)
            time.sleep(22)
            same("what is logged of a longer hold", len(those.logged()), 1)
            same("the end of ticks while the daemon is held", ticks.poll(), None)
            held = moment()
            daemon.process.send_signal(signal.SIGCONT)
            until("ticks after it", lambda: int(daemon.send("status").split()[-1]) > held)
            same("what is logged after it", len(those.logged()), 1)
            daemon.stop()
            same("the end of ticks without a daemon", ticks.wait(SOON), 0)
            holds("the end says nothing", b"device " in ticks.stderr.read())


def test_ticks_of_a_daemon_that_is_killed(program):
    """Ticks end, and do not say that it is held."""
    with feeders(program) as those:
        with those.running("ticks", stdout=subprocess.DEVNULL, stderr=subprocess.DEVNULL) as ticks:
            until("a tick", lambda: "\ntick " in those.daemon.send("trace"))
            those.daemon.process.send_signal(signal.SIGSTOP)
            time.sleep(3)
            those.kill_daemon()
            same("the end of ticks without a daemon", ticks.wait(SOON), 0)
            same("what is logged", those.logged(), [])


# it notes each call
COUNTED = """\
#!/bin/sh
printf '%s\\n' "$*" >> "${{0%/*}}/../called"
exec {program} "$@"
"""


@contextlib.contextmanager
def refused(program):
    """The scripts beside a daemon, an image that is refused, and await_image, which waits for another one."""
    with feeders(program) as those:
        image = those.daemon.file("refused")
        for path, text in ((image, "none"), (those.daemon.file("failed"), "")):
            with open(path, "w") as file:
                file.write(text)
        word = os.path.join(those.daemon.file("words"), "ifsvm")
        os.remove(word)
        with open(word, "w") as file:
            file.write(COUNTED.format(program=os.path.abspath(program)))
        os.chmod(word, 0o755)
        those.environment["IFSVM_IMAGE"] = image
        with those.running("await_image", stdout=subprocess.PIPE, stderr=subprocess.PIPE) as script:
            yield those, image, script


def test_refused_image_is_tried_again(program):
    """After 1, 2 and 4 seconds, and without a word."""
    with refused(program) as (those, image, script):
        moments = []
        for number in (1, 2, 3):
            until(f"try {number}", lambda: len(those.lines_of("called")) >= number)
            moments.append(time.monotonic())
        first, second, third = moments
        holds(f"seconds from try to try: {second - first:.1f}, {third - second:.1f}", third - second > second - first + 1)
        same("what is called", set(those.lines_of("called")), {f"verify --quiet {image}"})
        same("what systemd is asked", those.lines_of("asked"), [])
        same("what is logged", those.logged(), [])
        os.remove(those.daemon.file("failed"))
        same("status of await_image", script.wait(SOON), 0)
        same("what it prints", (script.stdout.read(), script.stderr.read()), (b"", b""))


def test_image_in_place_of_a_refused_one(program):
    """Its unit is started within a few seconds, and what is not there is not tried."""
    with refused(program) as (those, image, script):
        time.sleep(1.5)
        os.remove(image)
        time.sleep(4)
        same("what systemd is asked without an image", those.lines_of("asked"), [])
        for number, content in enumerate(("another that is refused", "a third one"), 1):
            with open(f"{image}.new", "w") as file:
                file.write(content)
            os.rename(f"{image}.new", image)
            start = time.monotonic()
            until("a start", lambda: len(those.lines_of("asked")) == number)
            taken = time.monotonic() - start
            holds(f"it was tried after {taken:.1f} s", taken < 8)
        same("what systemd is asked", those.lines_of("asked"), ["--job-mode=fail start ifsvm"] * 2)
        same("the end of await_image while the unit has failed", script.poll(), None)


def test_refused_image_that_is_accepted_later(program):
    """It is started, though its file is the same: it may have been refused for lack of memory."""
    with refused(program) as (those, image, script):
        with open(those.daemon.image, "rb") as good, open(f"{image}.good", "wb") as file:
            file.write(good.read())
        script.terminate()
        script.wait()
        those.environment["IFSVM_IMAGE"] = f"{image}.good"
        with those.running("await_image", stdout=subprocess.DEVNULL):
            until("a start", lambda: those.lines_of("asked") == ["--job-mode=fail start ifsvm"])
