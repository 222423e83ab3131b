"""Tests of what surrounds the daemon and its clients: standard streams, the socket's file, stack and memory, and characters that
a terminal acts on. Parts of tests/service/run_service_tests."""
import contextlib
import fcntl
import json
import os
import re
import resource
import socket
import subprocess
import sys
import tempfile
import time

from daemons import PLAIN, SOON, Daemon, answered, commanding, holds, quoted, read_all, same, send, serve, testing, until

# what is no user's number
NOBODY = 54_321
# the starts that a client of another user tries to get between
STARTS = 200
# the characters that a terminal may act on, and their neighbours, which it shows
ACTING = [*range(1, 32), *range(127, 160), 0x61C, 0x200E, 0x200F, *range(0x2028, 0x202F), *range(0x2066, 0x206A)]
SHOWN = [0x20, 0x7E, 0xA0, 0x61B, 0x61D, 0x200D, 0x2010, 0x2027, 0x202F, 0x2065, 0x206A, 0x1F600]
# the most bytes of what explain reads
MOST = 1_048_576
# the fewest bytes of stack
STACK = 524_288


def escaped(text):
    """A text with each byte of a character that a terminal may act on in hexadecimal, but for newlines."""
    return "".join("".join(f"\\x{byte:02x}" for byte in it.encode()) if ord(it) in ACTING and it != "\n" else it for it in text)


def closing(descriptors):
    return lambda: [os.close(it) for it in descriptors]


def asked(path, given):
    """What comes back from a socket for these bytes."""
    with socket.socket(socket.AF_UNIX) as client:
        client.connect(path)
        with contextlib.suppress(BrokenPipeError):
            client.sendall(given)
            client.shutdown(socket.SHUT_WR)
        return read_all(client)


@contextlib.contextmanager
def daemon_without(program, daemon, descriptors):
    """A second daemon on the image of a daemon, which is started without these descriptors, and its socket's path."""
    path = daemon.file("without")
    words = [program, "serve", daemon.image, path]
    streams = {"stdin": subprocess.DEVNULL, "stdout": subprocess.PIPE, "stderr": subprocess.DEVNULL}
    with subprocess.Popen(words, preexec_fn=closing(descriptors), **streams) as process:
        try:
            until("its socket", lambda: send(program, path, "status").returncode == 0)
            yield process, path
        finally:
            process.kill()
    with contextlib.suppress(FileNotFoundError):
        os.remove(path)


def test_standard_streams_that_are_closed(program):
    """Each of them is the null device then: no client gets notes, and what fails is said to its client."""
    with tempfile.TemporaryDirectory(dir=".") as folder:
        there = os.path.join(os.path.abspath(folder), "there")
        with Daemon(program, commanding([], [f"touch {there}"])) as daemon:
            for descriptors in ((0,), (1,), (2,), (0, 1), (0, 2), (1, 2), (0, 1, 2)):
                with daemon_without(program, daemon, descriptors) as (process, path):
                    opened = [os.readlink(f"/proc/{process.pid}/fd/{it}") for it in descriptors]
                    same(f"descriptors {descriptors}", opened, ["/dev/null"] * len(descriptors))
                    told = asked(path, b"link carp0 up\nlink em9 up\n")
                    same("replies", told, b'done "a" cost 6 queue 0\nfault C4\n')
                    holds("the command was not run", os.path.exists(there))
                    os.remove(there)
                    same("stop", send(program, path, "stop").stdout, b"bye\n")
                    same("status at the end", process.wait(SOON), 0)
            daemon.stop()


def test_clients_whose_streams_are_closed(program):
    """The status of a refused reload is that of a client with all streams."""
    with Daemon(program, PLAIN) as daemon:
        with open(daemon.image, "wb") as file:
            file.write(b"IFSX")
        for descriptors in ((), (0,), (1,), (2,), (0, 1, 2)):
            words = [program, "send", "--check", daemon.socket, "reload"]
            ran = subprocess.run(words, stdout=subprocess.PIPE, stderr=subprocess.PIPE, preexec_fn=closing(descriptors), timeout=SOON)
            told = b"" if 1 in descriptors else b"refused I2 byte 0\n"
            same(f"a refused reload without {descriptors}", (ran.returncode, ran.stdout, ran.stderr), (1, told, b""))
        daemon.stop()


def lines_of(descriptor):
    """What can be read at once, in lines."""
    parts = []
    with contextlib.suppress(BlockingIOError):
        while part := os.read(descriptor, 65_536):
            parts.append(part)
    return b"".join(parts).decode().splitlines(keepends=True)


def not_read(program, reader, writer):
    """A daemon whose notes nobody reads for 600 connections: it serves them, and then says how many notes were dropped."""
    os.set_blocking(reader, False)
    with Daemon(program, PLAIN, stderr=writer) as daemon:
        os.close(writer)
        begun = time.monotonic()
        for moment in range(600):
            daemon.ask(b"tick %d\n" % moment)
        same("status", daemon.ask(b"status\n").split()[-1], "599")
        holds("it waited for a reader", time.monotonic() - begun < 30)
        first = lines_of(reader)
        note = "[INFO  ifsvm] closed\n"
        same("the notes that found room", first, [note] * len(first))
        holds(f"{len(first)} notes found room", 0 < len(first) < 601)
        # one more connection, whose note finds room
        daemon.ask(b"status\n")
        dropped = 601 - len(first)
        told = [f"[WARN  ifsvm] {dropped} notes dropped: no room on standard error\n", note]
        same("the notes after a reader has come", lines_of(reader), told)
        daemon.stop()
    os.close(reader)


def test_notes_to_a_pipe_that_nobody_reads(program):
    reader, writer = os.pipe()
    # F_SETPIPE_SZ: two pages
    fcntl.fcntl(writer, 1031, 8_192)
    not_read(program, reader, writer)


def test_notes_to_a_socket_that_nobody_reads(program):
    reader, writer = socket.socketpair()
    not_read(program, reader.detach(), writer.detach())


def test_notes_to_a_file_that_may_not_grow(program):
    """The limit on the length of files is as a full device: no signal ends the daemon, and notes are dropped."""

    def limited():
        resource.setrlimit(resource.RLIMIT_FSIZE, (1_000, resource.RLIM_INFINITY))

    with Daemon(program, PLAIN, preexec_fn=limited) as daemon:
        for moment in range(100):
            daemon.ask(b"tick %d\n" % moment)
        same("status", daemon.ask(b"status\n").split()[-1], "99")
        same("bytes of notes", os.path.getsize(daemon.told), 1_000)
        resource.prlimit(daemon.process.pid, resource.RLIMIT_FSIZE, (resource.RLIM_INFINITY,) * 2)
        daemon.ask(b"status\n")
        daemon.stop()
        with open(daemon.told) as file:
            told = file.read().splitlines()
    # 1,000 bytes are 47 whole notes and a part of one
    note = "[INFO  ifsvm] closed"
    same("notes", [told[:47], told[47], told[48:]], [
        [note] * 47, note[:13],
        ["[WARN  ifsvm] 54 notes dropped: no room on standard error", note, "[INFO  ifsvm] stop"],
    ])


RACER = """\
import errno, json, os, socket, sys
path, end, user = sys.argv[1:]
# what follows is the other user's: the interpreter may be root's alone
os.setgroups([])
os.setgid(int(user))
os.setuid(int(user))
counts = dict.fromkeys(("in", "kept out", "none listens", "no file"), 0)
names = {errno.EACCES: "kept out", errno.ECONNREFUSED: "none listens", errno.ENOENT: "no file"}
print("races", flush=True)
while not os.path.exists(end):
    for _ in range(50):
        with socket.socket(socket.AF_UNIX) as client:
            try:
                client.connect(path)
                counts["in"] += 1
            except OSError as fault:
                counts[names.get(fault.errno, "in")] += 1
print(json.dumps(counts))
"""


def test_socket_between_its_making_and_ready(program):
    """At umask 0 a client of another user, who tries all the time, gets in at none of 200 starts (as root alone), and others have
    no right at any look."""
    with tempfile.TemporaryDirectory() as folder, Daemon(program, PLAIN) as daemon:
        os.chmod(folder, 0o755)
        path, end = os.path.join(folder, "socket"), os.path.join(folder, "end")
        racer = None
        if os.getuid() == 0:
            racer = subprocess.Popen([sys.executable, "-c", RACER, path, end, str(NOBODY)], stdout=subprocess.PIPE)
            same("the racing client", racer.stdout.readline(), b"races\n")
        modes = set()
        for _ in range(STARTS):
            words = [program, "serve", "--notes", "off", daemon.image, path]
            with subprocess.Popen(words, stdout=subprocess.PIPE, umask=0) as started:
                while started.poll() is None and not modes_seen(path, modes):
                    pass
                same("first line", started.stdout.readline(), b"ready\n")
                modes_seen(path, modes)
                same("stop", asked(path, b"stop\n"), b"bye\n")
                same("status at the end", started.wait(SOON), 0)
        with open(end, "w"):
            pass
        if racer:
            counts = json.loads(racer.communicate(timeout=SOON)[0])
            same("connections of another user", counts["in"], 0)
            holds(f"the racing client never found the socket: {counts}", counts["kept out"] > 0)
        same("rights of the socket's file at all looks", modes, {0o770})
        daemon.stop()


def modes_seen(path, modes):
    """Adds the rights of the file at a path, and says whether there is one."""
    with contextlib.suppress(FileNotFoundError):
        modes.add(os.stat(path).st_mode & 0o7777)
        return True


def test_small_stack(program):
    """It is found before a socket is made, and the smallest that is not refused is enough."""
    tests = quoted([f"exit {it}" for it in range(64)], "if", " every 1 { }")
    policy = f'if carp0.link.up set-state b state a {{ {tests} }} state b {{ init run "true" }}'
    with Daemon(program, policy) as daemon:
        for size in (131_072, 204_800, STACK - 4_096):
            ran = serve(program, daemon.image, daemon.file("other"), env={}, preexec_fn=stack_of(size))
            told = f"device stack: {size} bytes, and {STACK} are needed\n".encode()
            same(f"serve with a stack of {size} bytes", (ran.returncode, ran.stdout, ran.stderr), (3, b"", told))
            holds("its socket is there", not os.path.exists(daemon.file("other")))
        daemon.stop()
    with Daemon(program, policy, "--command-limit", "5", env={}, preexec_fn=stack_of(STACK)) as daemon:
        work(daemon)
        daemon.stop()


def stack_of(size):
    return lambda: resource.setrlimit(resource.RLIMIT_STACK, (size, size))


def work(daemon):
    """Has a daemon do one of all that it does."""
    daemon.ask(b"tick 0\nstatus\ntrace\nlink carp0 up\nlink em9 up\n\xff\n" + b"x" * 300 + b"\n")
    daemon.ask(b"".join(b"tick %d\n" % moment for moment in range(1, 300)))
    daemon.ask(b"trace\n" * 20)
    daemon.ask(b"reload\n")
    daemon.ask(b"tick 400\n")
    with open(daemon.image, "rb") as file:
        image = file.read()
    for given in (b"IFSX", image[:-1], image):
        with open(daemon.image, "wb") as file:
            file.write(given)
        daemon.ask(b"reload\n")
    same("it serves", daemon.ask(b"status\n")[:6], "status")


def memory_of(size):
    return lambda: resource.setrlimit(resource.RLIMIT_AS, (size, size))


def starts_at_all(program, size):
    """Whether the program runs within so many bytes."""
    try:
        ran = subprocess.run([program, "--version"], capture_output=True, env={}, timeout=SOON, preexec_fn=memory_of(size))
    except (OSError, subprocess.SubprocessError):
        return False
    return ran.returncode == 0


def test_little_memory(program):
    """From the least memory with which the program runs on, a daemon says that it has too little, or serves."""
    with Daemon(program, testing(["true"])) as daemon:
        step = 65_536
        least = next(size for size in range(16 * step, 10_000 * step, step) if starts_at_all(program, size))
        served = 0
        for size in range(least, least + 40 * step, step):
            path = daemon.file(f"memory{size}")
            words = [program, "serve", daemon.image, path]
            streams = {"stdout": subprocess.PIPE, "stderr": subprocess.PIPE}
            with subprocess.Popen(words, env={}, preexec_fn=memory_of(size), **streams) as process:
                first = process.stdout.readline()
                if first == b"ready\n":
                    served += 1
                    for request in (b"tick 0\n", b"trace\n" * 20, b"reload\n", b"status\n"):
                        asked(path, request)
                    same(f"end of a daemon in {size} bytes", process.poll(), None)
                    process.kill()
                else:
                    told = (first, process.stderr.read())
                    holds(f"serve in {size} bytes: {process.wait(SOON)} {told}", process.wait(SOON) in (1, 3) and any(told))
        holds("none served", served > 0)
        daemon.stop()


def test_characters_of_notes(program):
    """Those that a terminal may act on are hexadecimal in notes, and their neighbours are as they are."""
    # a policy leaves newlines out
    name = "b" + "".join(map(chr, ACTING + SHOWN)).replace("\n", "")
    policy = f"state a {{ if carp0.link.up set-state \"{name}\" }} state \"{name}\" {{ init run \": '{name}'\" }}\n"
    with Daemon(program, policy) as daemon:
        daemon.send("link carp0 up")
        told = escaped(name)
        same("notes", daemon.changes(), [
            ("INFO", f'state "a" -> "{told}" by link "carp0" up'),
            ("INFO", f"command \": '{told}'\": exit 0 after M ms"),
        ])
        # replies are as they were: bytes from 80 on are not escaped in them
        reply = re.sub("[\x01-\x1f\x7f]", lambda it: f"\\x{ord(it[0]):02x}", name)
        same("status", daemon.send("status").split(" owed")[0], f'status "{reply}"')
        ran = send(program, daemon.socket, "--escape", "status")
        same("send --escape status", ran.stdout.decode().split(" owed")[0], f'status "{told}"')
        ran = subprocess.run([program, "explain", daemon.image, daemon.socket], capture_output=True, timeout=SOON)
        holds("explain does not name the state", f'=> "{told}" cost ' in ran.stdout.decode())
        same("what else it prints", escaped(ran.stdout.decode()), ran.stdout.decode())
        daemon.stop()


def test_how_send_escapes(program):
    raw = b"a\x1b[31m\xc2\x9b\xe2\x80\xae\xe2\x80\xb0\xff\xe2\x80\\\n\tz\n\x7f"
    told = b"a\\x1b[31m\\xc2\\x9b\\xe2\\x80\\xae\xe2\x80\xb0\\xff\\xe2\\x80\\\n\\x09z\n\\x7f"
    with tempfile.TemporaryDirectory(dir=".") as folder:
        for options, wanted in (([], raw), (["--escape"], told), (["--escape", "--check", "--wait", "9"], told)):
            path = os.path.join(folder, f"socket{len(options)}")
            thread, _got = answered(path, raw)
            ran = send(program, path, *options, "status")
            thread.join(SOON)
            same(f"send {options}", (ran.returncode, ran.stdout, ran.stderr), (0, wanted, b""))
        ran = send(program, "socket", "--escape", "--no-wait", "status")
        same("send --escape --no-wait", (ran.returncode, ran.stdout), (2, b""))


def explained(program, daemon, reply, *options):
    """What explain makes of a reply, or says."""
    path = daemon.file("answers")
    thread, _got = answered(path, reply)
    ran = subprocess.run([program, "explain", *options, daemon.image, path], capture_output=True, timeout=SOON)
    thread.join(SOON)
    os.remove(path)
    return ran.returncode, ran.stdout.decode(), ran.stderr.decode().replace(path, "SOCKET")


def test_what_explain_takes_of_a_daemon(program):
    """Nothing that a terminal acts on, 256 steps and 1,048,576 bytes at most."""
    odd = "".join(map(chr, ACTING)).replace("\n", "")
    step = 'take -> taken "a" cost 0 queue 0\n'
    with Daemon(program, PLAIN) as daemon:
        reply = f'status "{odd}"\nlink {odd} up -> done{odd} "a" cost {odd} queue {odd}\ntick {odd} -> ticked "a" cost 1 queue 0\n'
        for options in ([], ["--requests"]):
            status, told, error = explained(program, daemon, reply.encode(), *options)
            same(f"explain {options}", (status, escaped(told), error), (0, told, ""))
            holds("it leaves characters out", told.count(escaped(odd)) == (0 if options else 6))
        status, told, error = explained(program, daemon, f"trace 300\n{step * 300}".encode())
        same("300 steps", (status, told.count("\n"), told.count(" take -> "), error), (0, 257, 256, ""))
        same("300 steps as requests", explained(program, daemon, (step * 300).encode(), "--requests"), (0, "take\n" * 256, ""))
        line = "x" * (MOST - 1) + "\n"
        same("the most bytes", explained(program, daemon, line.encode()), (0, line, ""))
        same("one more", explained(program, daemon, b"x" + line.encode()), (3, "", "device SOCKET: too large\n"))
        daemon.stop()
