"""Machines of their own for a trial: namespaces with systemd as the first process, over a copy of this machine's files that is
thrown away, without the kit and this repository. They share a network. Wanted are root, systemd, iproute2, util-linux and control
groups of version 2: each machine has one of its own, so that its systemd finds the processes of its units there and no others."""
import contextlib
import os
import shutil
import signal
import subprocess
import tempfile
import time

from waiting import waiting

# what a machine does before systemd runs there: ROOM NAME FOLDER.., the folders being empty there
BOOT = r"""
set -e
room=$1
name=$2
shift 2
mount --make-rprivate /
mount -t tmpfs tmpfs "$room"
mkdir "$room/upper" "$room/work" "$room/root"
mount -t overlay overlay -o "lowerdir=/,upperdir=$room/upper,workdir=$room/work" "$room/root"
cd "$room/root"
for folder in run tmp dev root "$@"; do
	folder=${folder#/}
	mkdir -p "$folder"
	mount -t tmpfs tmpfs "$folder"
done
mount -t proc proc proc
mount --rbind /sys sys
mount -t cgroup2 cgroup2 sys/fs/cgroup
for device in null zero full random urandom tty; do
	touch "dev/$device"
	mount --bind "/dev/$device" "dev/$device"
done
ln -s /proc/self/fd dev/fd
mkdir dev/shm dev/pts run/lock
mount -t devpts -o newinstance,ptmxmode=0666 devpts dev/pts
ln -s pts/ptmx dev/ptmx
mount -t tmpfs tmpfs etc/systemd/system
cat > etc/systemd/system/trial.target << END
[Unit]
Description=a machine for a trial
Wants=systemd-journald.service
END
hostname "$name"
echo "$name" > etc/hostname
mkdir run/before
pivot_root . run/before
cd /
umount -l /run/before
exec env -i container=other HOME=/root PATH=/usr/local/sbin:/usr/local/bin:/usr/sbin:/usr/bin:/sbin:/bin \
	/lib/systemd/systemd --system --unit=trial.target --show-status=no
"""

TOP = os.path.realpath(os.path.join(os.path.dirname(os.path.abspath(__file__)), "..", ".."))


def hidden_folders():
    """The folders of this repository and of the kit, which machines for trials do not have."""
    command = shutil.which("rt")
    kit = [os.path.dirname(os.path.dirname(os.path.realpath(command)))] if command else []
    return [TOP, *kit]


class Refused(Exception):
    """Something that a machine was asked did not come about."""


until = waiting(Refused)


def ran(*words):
    done = subprocess.run(words, capture_output=True, text=True)
    if done.returncode:
        raise Refused(f"{' '.join(words)}: {done.stderr.strip()}")
    return done.stdout


def control_groups():
    """Where the control groups of version 2 are."""
    with open("/proc/mounts") as file:
        found = [line.split()[1] for line in file if line.split()[2] == "cgroup2"]
    if not found:
        raise Refused("there are no control groups of version 2")
    return found[0]


class Machine:
    """A machine with the name and the address of its interface eth0, which hangs on a network."""

    def __init__(self, network, name, address):
        self.network, self.name = network, name
        self.room = tempfile.mkdtemp(prefix=f"ifsvm-{name}.")
        namespaces = ("--mount", "--pid", "--fork", "--uts", "--ipc", "--cgroup", "--net", "--kill-child")
        words = ["unshare", *namespaces, "sh", "-c", BOOT, "boot", self.room, name, *hidden_folders()]
        self.log = open(os.path.join(network.room, f"{name}.log"), "w")
        self.group = os.path.join(control_groups(), os.path.basename(self.room))
        os.mkdir(self.group)
        streams = {"stdout": self.log, "stderr": self.log, "stdin": subprocess.DEVNULL}
        self.outside = subprocess.Popen(words, preexec_fn=self.enter_group, **streams)
        self.process = self.first_process()
        network.plug(self, address)

    def enter_group(self):
        """The process that unshare makes a machine of is in its control group by then."""
        with open(os.path.join(self.group, "cgroup.procs"), "w") as file:
            file.write("0\n")

    def first_process(self):
        """The number of the machine's first process, once systemd answers there."""
        end = time.monotonic() + 30
        while time.monotonic() < end:
            with open(f"/proc/{self.outside.pid}/task/{self.outside.pid}/children") as file:
                children = file.read().split()
            if children:
                self.process = int(children[0])
                state = self.run("systemctl is-system-running").stdout.strip()
                if state in ("running", "degraded"):
                    return self.process
            time.sleep(0.2)
        raise Refused(f"{self.name}: systemd does not run, see {self.log.name}")

    def words(self, *rest):
        home = ["HOME=/root", "LANG=C.UTF-8", "PATH=/usr/local/sbin:/usr/local/bin:/usr/sbin:/usr/bin:/sbin:/bin"]
        return ["nsenter", "-t", str(self.process), "-a", "--root", "--wdns=/root", "env", "-i", *home, *rest]

    def run(self, script, limit=120):
        """Runs a script there as root, in the folder /root."""
        return subprocess.run(self.words("sh", "-c", script), capture_output=True, text=True, timeout=limit)

    def put(self, path, place):
        """Copies a file of this machine into a folder of that one."""
        with open(path, "rb") as file:
            words = self.words("sh", "-c", 'cat > "$0"', os.path.join(place, os.path.basename(path)))
            subprocess.run(words, stdin=file, check=True)

    def is_empty(self):
        """Whether no process of it is left."""
        with open(os.path.join(self.group, "cgroup.events")) as file:
            return "populated 0" in file.read()

    def end(self):
        if self.outside.poll() is None:
            self.outside.send_signal(signal.SIGKILL)
            self.outside.wait()
        self.log.close()
        with contextlib.suppress(Refused):
            until(f"the end of {self.name}", 10, self.is_empty)
        # from within: a control group that has another one is not removed
        for folder, _, _ in os.walk(self.group, topdown=False):
            with contextlib.suppress(OSError):
                os.rmdir(folder)
        shutil.rmtree(self.room, ignore_errors=True)


class Network:
    """A switch in a network namespace of its own, whose own address answers pings."""

    def __init__(self, address):
        self.room = tempfile.mkdtemp(prefix="ifsvm-network.")
        self.namespace = f"ifsvm-hour.{os.getpid()}"
        self.machines = []
        ran("ip", "netns", "add", self.namespace)
        self.ip("link", "add", "switch", "type", "bridge")
        self.ip("address", "add", address, "dev", "switch")
        self.ip("link", "set", "switch", "up")
        self.ip("link", "set", "lo", "up")

    def ip(self, *words):
        return ran("ip", "-n", self.namespace, *words)

    def add(self, name, address):
        machine = Machine(self, name, address)
        self.machines.append(machine)
        return machine

    def plug(self, machine, address):
        """The interface eth0 of a machine, at the other end of a cable to the switch."""
        self.ip("link", "add", machine.name, "type", "veth", "peer", "name", "eth0", "netns", str(machine.process))
        self.ip("link", "set", machine.name, "master", "switch", "up")
        done = machine.run(f"ip link set lo up; ip address add {address} dev eth0 && ip link set eth0 up")
        if done.returncode:
            raise Refused(done.stderr)

    def answers(self, address):
        """Whether an address answers a ping from the switch."""
        words = ["ip", "netns", "exec", self.namespace, "ping", "-q", "-c", "1", "-w", "1", address]
        return subprocess.run(words, capture_output=True).returncode == 0

    def __enter__(self):
        return self

    def __exit__(self, *_):
        for machine in self.machines:
            machine.end()
        subprocess.run(["ip", "netns", "del", self.namespace], capture_output=True)
        shutil.rmtree(self.room, ignore_errors=True)
