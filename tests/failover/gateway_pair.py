"""Two gateways that share an address, a provider and a client that asks it, in network namespaces of their own."""
import contextlib
import ctypes
import os
import re
import shutil
import signal
import socket
import subprocess
import tempfile
import threading
import time

from waiting import waiting

SHARED = "10.77.0.10"
PROVIDER = "10.78.0.254"
PORT = 7007
# how often the client asks, in seconds
STEP = 0.05
CLONE_NEWNET = 0x40000000
# what is tried ends soon after this is set, and its namespaces are removed
STOPPED = threading.Event()

POLICY = """\
# one of two gateways: it serves while the address is its own, its cable is in and its provider answers
provider = '"ping -q -c 1 -w 2 {provider}" every 1'
init-state backup

# asked in each state: so the test keeps its value when the state changes
if ! $provider {{ }}

state backup {{
	init run "{folder}/give_up"
	if carp0.link.up && ! em0.link.down && $provider
		set-state master
}}

state master {{
	init run "{folder}/take_over"
	if ! carp0.link.up || em0.link.down
		set-state backup
	if ! $provider
		set-state broken
}}

state broken {{
	init run "{folder}/stand_back"
	if $provider
		set-state backup
}}
"""

KEEPALIVED = """\
global_defs {{
	router_id {name}
	script_user root
{fifo}
}}
track_file broken {{
	file {folder}/broken
}}
track_file aside {{
	file {folder}/aside
}}
vrrp_instance carp0 {{
	state BACKUP
	interface em0
	virtual_router_id 7
	priority {priority}
	advert_int 1
	virtual_ipaddress {{
		{shared}/32
	}}
	track_file {{
		broken weight -100
		aside weight 0
	}}
{notify}
}}
"""

LOGGER = """\
#!/bin/sh
printf '%s\\n' "$*" >> "${0%/*}/../logged"
"""


class Failed(Exception):
    """A gateway does not what it has to."""


def ip(*words):
    ran = subprocess.run(["ip", *words], capture_output=True, text=True)
    if ran.returncode:
        raise Failed(f"ip {' '.join(words)}: {ran.stderr.strip()}")


def enter(namespace):
    """Takes the present thread into a namespace."""
    with open(f"/run/netns/{namespace}") as file:
        if ctypes.CDLL(None, use_errno=True).setns(file.fileno(), CLONE_NEWNET):
            raise OSError(ctypes.get_errno(), f"setns {namespace}")


def in_namespace(namespace, make):
    """What a function gives that runs in a namespace: sockets that it makes stay there."""
    made = []

    def run():
        enter(namespace)
        made.append(make())

    thread = threading.Thread(target=run)
    thread.start()
    thread.join()
    return made[0]


def pause(seconds):
    if STOPPED.wait(seconds):
        raise Failed("ended by a signal")


until = waiting(Failed, pause)


class Gateway:
    """One gateway: a daemon, what feeds it and its election, in a namespace."""

    def __init__(self, pair, name, number, slow, stops):
        self.pair, self.name, self.number = pair, name, number
        self.namespace = pair.namespace(name)
        self.folder = os.path.join(pair.folder, name)
        self.socket = os.path.join(self.folder, "socket")
        self.election_log = os.path.join(self.folder, "election.log")
        self.holds = False
        self.powered = True
        self.feeders = []
        self.links = {}
        self.daemon = None
        os.makedirs(os.path.join(self.folder, "words"))
        os.symlink(pair.program, os.path.join(self.folder, "words", "ifsvm"))
        self.environment = os.environ | {
            "PATH": f"{self.folder}/words:{os.environ['PATH']}",
            "IFSVM_SOCKET": self.socket,
            "IFSVM_LINKS": os.path.join(self.folder, "links"),
        }
        self.write_scripts(slow, stops)
        self.write("policy", POLICY.format(provider=PROVIDER, folder=self.folder))
        words = [pair.program, "compile", self.file("policy"), self.file("image")]
        subprocess.run(words, check=True, stdout=subprocess.DEVNULL)

    def file(self, name):
        return os.path.join(self.folder, name)

    def write(self, name, text, mode=0o644):
        with open(self.file(name), "w") as file:
            file.write(text)
        os.chmod(file.name, mode)

    def write_scripts(self, slow, stops):
        """What the policy runs. keepalived adds the address itself; with ucarp only the policy does."""
        folder, ucarp = self.folder, self.pair.election == "ucarp"
        address = f"{SHARED}/32 dev em0"
        give_up = [f"rm -f {folder}/serves", f"echo 0 > {folder}/broken"]
        take_over = [f"touch {folder}/serves"]
        if ucarp:
            give_up.insert(0, f"ip address del {address} 2> /dev/null")
            take_over.insert(0, f"ip address add {address}")
        process = f"$(cat {folder}/election.pid)"
        stand_back = [*give_up, f"echo 1 > {folder}/broken"]
        if stops:
            stand_back += [f"kill {process}", f"while kill -0 {process} 2> /dev/null; do sleep 0.1; done"]
        elif ucarp:
            stand_back.append(f"kill -USR2 {process}")
        if slow:
            take_over.append("sleep 12")
        scripts = {"give_up": give_up, "take_over": take_over, "stand_back": stand_back}
        for name, lines in scripts.items():
            self.write(name, "\n".join(["#!/bin/sh", *lines, ""]), 0o755)
        self.write("words/logger", LOGGER, 0o755)
        # what keepalived looks at: the first demotes it, by the policy; the second is the operator's, and its fault
        self.write("broken", "0\n")
        self.write("aside", "0\n")

    def start(self, *words, **given):
        """A process in the namespace."""
        words = ["ip", "netns", "exec", self.namespace, *words]
        return subprocess.Popen(words, env=self.environment, stdin=subprocess.DEVNULL, **given)

    def start_feeder(self, script, *words):
        path = os.path.join(self.pair.system, script)
        if os.path.exists(path):
            quiet = {"stdout": subprocess.DEVNULL, "stderr": subprocess.DEVNULL}
            self.feeders.append(self.start(path, *words, **quiet))

    def start_daemon(self):
        """The daemon, and then what its units start with it."""
        self.stop_feeders()
        with contextlib.suppress(FileNotFoundError):
            os.remove(self.socket)
        with open(self.file("notes"), "ab") as notes:
            words = [self.pair.program, "serve", "--notes", "changes", self.file("image"), self.socket]
            self.daemon = self.start(*words, stdout=subprocess.PIPE, stderr=notes)
        if self.daemon.stdout.readline() != b"ready\n":
            raise Failed(f"the daemon of {self.name} does not start")
        self.start_feeder("tell_link", "--kept")
        self.start_feeder("ticks")
        self.start_feeder("watch_links")

    def stop_feeders(self):
        for feeder in self.feeders:
            feeder.terminate()
        for feeder in self.feeders:
            feeder.wait()
        self.feeders = []

    def kill_daemon(self):
        self.daemon.kill()
        self.daemon.wait()
        self.daemon.stdout.close()
        self.daemon = None

    def start_reader(self):
        """What reads keepalived's FIFO, and is started again whenever it ends, as by its unit."""
        script = os.path.join(self.pair.system, "keepalived_fifo")
        quiet = {"stdout": subprocess.DEVNULL, "stderr": subprocess.DEVNULL}
        if self.pair.election == "keepalived" and os.path.exists(script):
            self.start("sh", "-c", 'while :; do "$0" "$1"; sleep 0.2; done', script, self.file("fifo"), **quiet)

    def start_election(self):
        self.start_reader()
        words = self.ucarp() if self.pair.election == "ucarp" else self.keepalived()
        with open(self.election_log, "wb") as log:
            self.election = self.start(*words, stdout=log, stderr=log)
        self.write("election.pid", f"{self.election.pid}\n")

    def ucarp(self):
        script = os.path.join(self.pair.system, "ucarp_")
        election = ["--interface=em0", f"--srcip=10.77.0.{self.number}", "--vhid=7", "--pass=secret", f"--addr={SHARED}"]
        scripts = ["--xparam=carp0", f"--upscript={script}up", f"--downscript={script}down", "--shutdown"]
        return ["ucarp", *election, f"--advskew={50 * (self.number - 1)}", *scripts]

    def keepalived(self):
        notify = os.path.join(self.pair.system, "keepalived_notify")
        # where there is no reader, keepalived starts a process for each change
        by_fifo = os.path.exists(os.path.join(self.pair.system, "keepalived_fifo"))
        lines = f"\tenable_script_security\n\tvrrp_notify_fifo {self.folder}/fifo" if by_fifo else ""
        given = {"fifo": lines, "notify": "" if by_fifo else f"\tnotify {notify}", "priority": 200 - 50 * self.number}
        self.write("keepalived.conf", KEEPALIVED.format(name=self.name, folder=self.folder, shared=SHARED, **given))
        pids = [f"--pid={self.file('keepalived.pid')}", f"--vrrp_pid={self.file('vrrp.pid')}"]
        return ["keepalived", "--dont-fork", "--log-console", "--log-detail", "--vrrp", "-f", self.file("keepalived.conf"), *pids]

    def elected(self):
        """What the election says last of its state: `up`, `down` or `unknown`."""
        with open(self.election_log, errors="replace") as log:
            states = re.findall(r"Switching to state: (\w+)|Entering (\w+) STATE", log.read())
        return {"MASTER": "up", "BACKUP": "down"}.get("".join(states[-1]), "unknown") if states else "down"

    def told(self):
        """The last states of carp0 and em0 that the daemon was told, as its trace has them or had them before."""
        ran = subprocess.run([self.pair.program, "send", self.socket, "trace"], capture_output=True, text=True, timeout=30)
        self.links |= dict(re.findall(r"^link (\d) (\w+) ->", ran.stdout, re.M))
        return self.links.get("0", "unknown"), self.links.get("1", "unknown")

    def step_aside(self):
        """What an operator does: the election gives the address up, and lives on."""
        if self.pair.election == "ucarp":
            self.election.send_signal(signal.SIGUSR2)
        else:
            self.write("aside", "1\n")

    def state(self):
        """The state of the policy, as the daemon says."""
        ran = subprocess.run([self.pair.program, "send", self.socket, "status"], capture_output=True, text=True, timeout=30)
        return "".join(re.findall(r'^status "(\w+)"', ran.stdout))

    def use_one_processor(self):
        """All of the gateway runs on one processor, which it has to share, as a small gateway does."""
        for process in processes(self.namespace):
            with contextlib.suppress(ProcessLookupError):
                os.sched_setaffinity(process, {min(os.sched_getaffinity(0))})

    def change_quickly(self):
        """The cable is out and in at once; for keepalived, which may not notice that, a fault comes and goes thrice."""
        if self.pair.election == "ucarp":
            self.cable("down")
            self.cable("up")
        else:
            for fault in "101010":
                self.write("aside", f"{fault}\n")
                pause(0.001)

    def cable(self, state):
        ip("-n", self.pair.namespace("switch"), "link", "set", f"{self.name}0", state)

    def provider_answers(self, answers):
        word = "del" if answers else "add"
        ip("-n", self.pair.namespace("provider"), "route", word, "blackhole", f"10.78.0.{self.number}/32")

    def power_off(self):
        """All of it ends at once, and its address is nobody's."""
        self.powered = False
        kill_all(self.namespace)
        for link in ("0", "1"):
            ip("-n", self.pair.namespace("switch"), "link", "set", f"{self.name}{link}", "down")


def processes(namespace):
    """The processes that run in a namespace."""
    found = subprocess.run(["ip", "netns", "pids", namespace], capture_output=True, text=True).stdout
    return [int(process) for process in found.split()]


def kill_all(namespace):
    """Kills what runs in a namespace."""
    for _ in range(50):
        found = processes(namespace)
        if not found:
            return
        # all stand still first: none is to do anything about the end of another
        for number in (signal.SIGSTOP, signal.SIGKILL):
            for process in found:
                with contextlib.suppress(ProcessLookupError):
                    os.kill(process, number)
        time.sleep(0.02)


class Pair:
    """The network, the gateways `a` and `b`, and the client that asks the shared address."""

    # what its gateways are
    gateway = Gateway

    def __init__(self, election, program, system, slow=False, stops=False):
        self.election, self.program, self.system = election, program, system
        self.folder = tempfile.mkdtemp(prefix="ifsvm-failover.", dir="/tmp")
        # no other run has this folder, so no other one has these names
        self.prefix = os.path.basename(self.folder)
        self.namespaces, self.threads = [], []
        self.ended = threading.Event()
        self.marked = 0
        self.asked, self.answers, self.doubles = [], [], []
        self.given = slow, stops

    def namespace(self, name):
        return f"{self.prefix}-{name}"

    def __enter__(self):
        try:
            self.make_network()
            slow, stops = self.given
            self.a = self.gateway(self, "a", 1, False, stops)
            self.b = self.gateway(self, "b", 2, slow, stops)
            for gateway in (self.a, self.b):
                self.run(self.answer, gateway)
                self.run(self.watch, gateway)
            self.run(self.ask)
        except BaseException:
            self.__exit__()
            raise
        return self

    def __exit__(self, *_cause):
        self.ended.set()
        for thread in self.threads:
            thread.join()
        for namespace in self.namespaces:
            kill_all(namespace)
            subprocess.run(["ip", "netns", "del", namespace], capture_output=True)
        shutil.rmtree(self.folder, ignore_errors=True)

    def run(self, function, *given):
        thread = threading.Thread(target=function, args=given, daemon=True)
        self.threads.append(thread)
        thread.start()

    def make_network(self):
        for name in ("switch", "a", "b", "client", "provider"):
            namespace = self.namespace(name)
            self.namespaces.append(namespace)
            ip("netns", "add", namespace)
            ip("-n", namespace, "link", "set", "lo", "up")
        for bridge in ("bridge0", "bridge1"):
            switch = self.namespace("switch")
            ip("-n", switch, "link", "add", bridge, "type", "bridge", "mcast_snooping", "0")
            ip("-n", switch, "link", "set", bridge, "up")
        self.plug("a", "0", "10.77.0.1")
        self.plug("b", "0", "10.77.0.2")
        self.plug("client", "0", "10.77.0.100")
        self.plug("a", "1", "10.78.0.1")
        self.plug("b", "1", "10.78.0.2")
        self.plug("provider", "1", PROVIDER)

    def plug(self, name, number, address):
        """Joins interface em0 or em1 of a machine to the switch."""
        machine, switch, port = self.namespace(name), self.namespace("switch"), f"{name}{number}"
        ip("-n", machine, "link", "add", f"em{number}", "type", "veth", "peer", "name", port, "netns", switch)
        ip("-n", switch, "link", "set", port, "master", f"bridge{number}", "up")
        ip("-n", machine, "address", "add", f"{address}/24", "dev", f"em{number}")
        ip("-n", machine, "link", "set", f"em{number}", "up")

    def answer(self, gateway):
        """The service of a gateway: it answers with its name while the policy has it serve."""

        def listening():
            made = socket.socket(socket.AF_INET, socket.SOCK_DGRAM)
            made.bind(("", PORT))
            made.settimeout(0.2)
            return made

        with in_namespace(gateway.namespace, listening) as service:
            while not self.ended.is_set():
                with contextlib.suppress(OSError):
                    request, client = service.recvfrom(100)
                    if gateway.powered and os.path.exists(gateway.file("serves")):
                        service.sendto(gateway.name.encode() + b" " + request, client)

    def watch(self, gateway):
        """Looks whether a gateway holds the address."""
        enter(gateway.namespace)
        while not self.ended.is_set():
            with socket.socket(socket.AF_INET, socket.SOCK_DGRAM) as tried:
                try:
                    tried.bind((SHARED, 0))
                    gateway.holds = gateway.powered
                except OSError:
                    gateway.holds = False
            time.sleep(0.02)

    def ask(self):
        """The client: asks again and again, and notes who answers and whether two hold the address."""

        def sending():
            made = socket.socket(socket.AF_INET, socket.SOCK_DGRAM)
            made.setblocking(False)
            return made

        with in_namespace(self.namespace("client"), sending) as client:
            while not self.ended.is_set():
                self.answers.append(None)
                self.doubles.append(self.a.holds and self.b.holds)
                self.asked.append(time.monotonic())
                with contextlib.suppress(OSError):
                    client.sendto(str(len(self.asked) - 1).encode(), (SHARED, PORT))
                time.sleep(STEP)
                with contextlib.suppress(OSError):
                    while True:
                        name, number = client.recv(100).decode().split()
                        self.answers[int(number)] = name

    def mark(self):
        """From here on it is measured."""
        self.marked = len(self.asked)

    def silence(self):
        """The most seconds without an answer since the mark."""
        last = len(self.asked) - 1
        answered = [self.asked[number] for number in range(self.marked, last) if self.answers[number]]
        moments = [self.asked[self.marked], *answered, self.asked[last]]
        return max(after - before for before, after in zip(moments, moments[1:]))

    def double(self):
        """The most seconds in which both held the address since the mark."""
        longest, start = 0.0, None
        for moment, double in list(zip(self.asked, self.doubles))[self.marked :]:
            start = (start or moment) if double else None
            longest = max(longest, moment - start) if start else longest
        return longest

    def answered_by(self, gateway, limit):
        """Waits until half a second of questions was answered by one gateway."""
        until(f"answers by {gateway.name}", limit, lambda: self.answers[-12:-2] == [gateway.name] * 10)

    def start_both(self):
        """Gateway a has the address, and b stands by."""
        for gateway in (self.a, self.b):
            gateway.start_daemon()
        self.a.start_election()
        self.answered_by(self.a, 20)
        self.b.start_election()
        pause(2)
        self.answered_by(self.a, 5)
