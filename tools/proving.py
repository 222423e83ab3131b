"""Proves the crates of the program, those that do not use each other side by side.

rt takes the locks of all folders that it reads, so each crate is proved in a room of its own: a folder with hard links
to its sources, and to what is built below it. What it built comes back to the crate's own out/, where later checks find
it.
"""
import os
import pty
import re
import shutil
import subprocess
import threading
import time
from pathlib import Path

from schedule import Schedule, all_below

PROGRAM = "ifsvm"
KIT = Path(shutil.which("rt") or "/").resolve().parent.parent
ROOMS = Path("out/rooms")
SECONDS = Path("tools/proof_seconds")
PARTS = ("src", "specs", "proofs")
# the folder of a crate's out/ that only later checks of the crate use
KEPT = "incremental"
BYTES_FOR_A_JOB = 4_000_000_000
# no proof starts with less of the disk free
LEAST_DISK = 3_000_000_000
DISK = "make run keeps 18 GB in crates/*/out, or 8 GB as make run KEEP=no"
# side by side proofs share the memory, and take so much longer than one after the other
SHARED = 1.35
PROGRESS = re.compile(r"(?:checked .*, |so far: )(\d+) of (\d+)")


def crates_of(file):
    """Of each crate that such a list names, the libraries that it uses."""
    lines = [line.split("#")[0].partition(":") for line in Path(file).read_text().splitlines()]
    return {head.split()[0]: below.split() for head, _, below in lines if head.strip()}


def words_of(name, root, used, folder_of):
    """What rattle is told of a crate and of the libraries below it, each of which is in the folder that a function gives."""
    below = {it: [library for library in uses if library in used] for it, uses in used.items()}
    externs = [f"{library}={folder_of(library) / library}.rlib" for library in ("std", *used[name])]
    places = {KIT / "rlibs": None, **dict.fromkeys(folder_of(it) for it in sorted(all_below(name, below)))}
    built = ["--antt-project", str(KIT / "rattle" / "logic" / "antt-project.json"), "--logic-built", str(KIT / "logic_built")]
    return ["--crate-name", name, root, *(word for extern in externs for word in ("--extern", extern)),
            *(word for place in places for word in ("-L", f"dependency={place}")), *built]


def crates_of_program():
    """Of each crate that the program is made of, the crates of this repository that it uses."""
    named = crates_of("crates.txt")
    below = {name: [it for it in uses if it in named] for name, uses in named.items()}
    wanted = all_below(PROGRAM, below) | {PROGRAM}
    return {name: uses for name, uses in below.items() if name in wanted}


def seconds_of(below):
    """The measured seconds of each crate at one job; of a crate that was not measured, a guess by its lines."""
    rows = [line.split() for line in SECONDS.read_text().splitlines() if line and not line.startswith("#")]
    measured = {name: float(seconds) for name, seconds in rows}
    return {name: measured.get(name) or lines_of(name) / 12 for name in below}


def lines_of(name):
    """The lines of a crate's sources, definitions and proofs."""
    files = (file for part in PARTS for file in Path("crates", name, part).rglob("*") if file.is_file())
    return sum(len(file.read_bytes().splitlines()) for file in files)


def free_memory():
    """The bytes that processes can get, with those of files that the system keeps and would give up."""
    try:
        rows = dict(line.split(":") for line in Path("/proc/meminfo").read_text().splitlines())
        return int(rows["MemAvailable"].split()[0]) * 1024
    except (OSError, KeyError):
        return os.sysconf("SC_AVPHYS_PAGES") * os.sysconf("SC_PAGE_SIZE")


def free_disk():
    """The bytes that are free on the disk of the crates."""
    return shutil.disk_usage("crates").free


def kept_bytes():
    """The bytes of what only later checks of the crates use."""
    return sum(file.stat().st_size for folder in Path("crates").glob(f"*/out/{KEPT}") for file in folder.rglob("*") if file.is_file())


def drop_kept():
    """Drops what only later checks of the crates use."""
    for folder in Path("crates").glob(f"*/out/{KEPT}"):
        shutil.rmtree(folder)


def processors():
    """How many jobs may run at once, as processors and memory allow."""
    return max(1, min(len(os.sched_getaffinity(0)), free_memory() // BYTES_FOR_A_JOB))


def link(source, target):
    """Makes a folder of hard links to the files of another one, if that is there."""
    if source.is_dir():
        shutil.copytree(source, target, copy_function=os.link)


def make_room(name, below):
    """Makes a crate's room, with what is built below it and what an earlier proof of it kept."""
    room = ROOMS / name
    shutil.rmtree(room, ignore_errors=True)
    wanted = all_below(name, below) | {name}
    lines = Path("crates.txt").read_text().splitlines(keepends=True)
    room.mkdir(parents=True)
    (room / "crates.txt").write_text("".join(it for it in lines if it.split(":")[0].split(" ")[0] in wanted))
    for crate in wanted:
        for part in PARTS:
            link(Path("crates", crate, part), room / "crates" / crate / part)
        built = "out" if crate == name else "out/rlib"
        link(Path("crates", crate, built), room / "crates" / crate / built)
    return room / "crates" / name


def started(words, place, given):
    """Starts a command whose output is a terminal of its own, since it writes a line at once only there. Returns both."""
    output, end = pty.openpty()
    run = subprocess.Popen(words, cwd=place, stdin=given, stdout=end, stderr=subprocess.STDOUT)
    os.close(end)
    return run, output


def lines_of_terminal(output):
    """The lines that a command writes to its terminal, until it ends."""
    with open(output, "rb", buffering=0) as file:
        left = b""
        while True:
            try:
                data = file.read(65_536)
            except OSError:
                data = b""
            if not data:
                break
            *lines, left = (left + data).split(b"\n")
            yield from (line.decode(errors="replace").rstrip("\r") + "\n" for line in lines)


class Proofs:
    """Which crates are proved, which are being proved and how far, and which wait."""

    def __init__(self, log, one_job_each=False, is_slim=False):
        self.below, self.is_anew, self.is_slim = crates_of_program(), one_job_each, is_slim
        self.seconds = seconds_of(self.below)
        self.schedule = Schedule(self.below, self.seconds, processors())
        self.waiting, self.proved, self.running, self.jobs = self.schedule.order(), {}, {}, {}
        self.log, self.failed, self.changed = log, None, threading.Condition()

    def minutes(self):
        """How long the whole run takes, by the measured seconds."""
        return SHARED * self.schedule.whole() / 60

    def part_done(self):
        """The part of the whole work that is done, by measured seconds."""
        done = sum(self.seconds[name] for name in self.proved)
        done += sum(self.seconds[name] * at / of for name, (at, of) in self.running.items() if of)
        return done / sum(self.seconds.values())

    def status(self):
        """What is being proved, and how far it is."""
        at_work = ", ".join(f"{name} {at} of {of}" if of else name for name, (at, of) in sorted(self.running.items()))
        return f"{100 * self.part_done():3.0f} %  {at_work}"

    def prove(self, name, jobs):
        """Proves a crate, and follows how far that is; the program is built, too. Returns whether it is proved, what rt said, and
        the seconds of processors."""
        place = make_room(name, self.below)
        if self.is_anew:
            shutil.rmtree(place / "out", ignore_errors=True)
        said = []
        with open(Path("crates", PROGRAM, "stdin"), "rb") as given:
            run, output = started(["rt", "run" if name == PROGRAM else "lib", "--jobs", str(jobs)], place, given)
        for line in lines_of_terminal(output):
            said.append(line)
            found = PROGRESS.match(line)
            if found:
                with self.changed:
                    self.running[name] = (int(found[1]), int(found[2]))
        _, status, used = os.wait4(run.pid, 0)
        run.returncode = os.waitstatus_to_exitcode(status)
        if (place / "out").is_dir():
            home = Path("crates", name, "out")
            shutil.rmtree(home, ignore_errors=True)
            (place / "out").rename(home)
            if self.is_slim and run.returncode == 0:
                shutil.rmtree(home / KEPT, ignore_errors=True)
        shutil.rmtree(ROOMS / name)
        return run.returncode == 0, "".join(said), used.ru_utime + used.ru_stime

    def work(self, name, jobs):
        began, is_proved, said, used = time.monotonic(), False, "", 0.0
        try:
            is_proved, said, used = self.prove(name, jobs)
        finally:
            took = time.monotonic() - began
            with self.changed:
                self.log.write(f"== {name} {took:.0f} s, {jobs} jobs, {used:.0f} s of processors\n{said}")
                self.log.flush()
                del self.running[name], self.jobs[name]
                if is_proved:
                    self.proved[name] = took
                else:
                    self.failed = name
                self.changed.notify()

    def start(self):
        """Starts what can be proved now, those with the longest chain above them first."""
        starts = self.schedule.starts(self.waiting, set(self.proved), self.jobs)
        if starts and free_disk() < LEAST_DISK:
            self.failed = next(iter(starts))
            self.log.write(f"only {free_disk() / 1e9:.1f} GB are free on this disk. {DISK}\n")
            return
        for name, jobs in starts.items():
            jobs = 1 if self.is_anew else jobs
            self.waiting.remove(name)
            self.running[name], self.jobs[name] = (0, 0), jobs
            threading.Thread(target=self.work, args=(name, jobs)).start()

    def run(self, tell):
        """Proves all crates. `tell` gets each name once it is proved, and the status every so often."""
        told = set()
        with self.changed:
            while self.running or (self.waiting and not self.failed):
                if not self.failed:
                    self.start()
                self.changed.wait(timeout=10)
                for name in [it for it in self.proved if it not in told]:
                    told.add(name)
                    tell(f"proved {name} in {self.proved[name]:.0f} s ({len(told)} of {len(self.below)} crates)")
                if self.running:
                    tell(self.status(), passing=True)
        return not self.failed
