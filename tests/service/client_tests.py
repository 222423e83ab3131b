"""What a client may take of the daemon's time, what becomes of its lines, and what `send` prints when its own time is over. Parts
of tests/service/run_service_tests."""
import contextlib
import os
import socket
import tempfile
import threading
import time

from daemons import PLAIN, SOON, Daemon, asks_without_end, commanding, holds, read_all, same, send, until

STATUS = 'status "a" owed yes queue 0 running 0 now 0\n'
UP = 'done "a" cost 6 queue 0\n'


def waits_for(daemon, what, least, most):
    """A client that asks for the state waits for so many seconds."""
    begun = time.monotonic()
    holds("the next client was not served", daemon.send("status").startswith('status "a"'))
    took = time.monotonic() - begun
    holds(f"{what} held another one up for {took:.1f} seconds, and not for {least} to {most}", least < took < most)


def is_dropped(daemon, silent):
    """A silent client has got nothing, and the daemon has noted S1 for it."""
    same("what a silent client gets", read_all(silent), b"")
    daemon.stop()
    same("notes", daemon.ends(), ["fault S1", "closed", "stop"])


# ---- clients that send nothing, or little


def test_silent_client_while_another_one_waits(program):
    with Daemon(program, PLAIN) as daemon, daemon.connect() as silent:
        waits_for(daemon, "a silent client", 0.5, 2)
        is_dropped(daemon, silent)


def test_silent_client_that_is_alone(program):
    """It may wait for 5 seconds, and for less if another one comes."""
    with Daemon(program, PLAIN) as daemon:
        begun = time.monotonic()
        with daemon.connect() as silent:
            same("what a silent client gets", read_all(silent), b"")
        took = time.monotonic() - begun
        holds(f"a silent client had {took:.1f} seconds", 4.5 < took < 7)
        with daemon.connect() as client:
            time.sleep(2.5)
            client.sendall(b"status\n")
            same("a line after 2.5 seconds", client.recv(65_536).decode(), STATUS)
        with daemon.connect() as silent:
            time.sleep(2)
            waits_for(daemon, "a client that was silent for 2 seconds", 0, 1)
            same("what it gets", read_all(silent), b"")
        daemon.stop()
        same("notes", daemon.ends(), ["fault S1", "closed", "fault S1", "closed", "stop"])


def test_silent_client_when_others_cannot_be_seen(program):
    """Without a descriptor for another connection the daemon cannot look who waits."""
    with Daemon(program, PLAIN) as daemon:
        before = daemon.descriptors()
        silent = daemon.connect()
        until("its turn", lambda: daemon.descriptors() > before)
        daemon.limit_descriptors(before + 1)
        waits_for(daemon, "a silent client", 1.2, 3.5)
        is_dropped(daemon, silent)


def test_silent_clients(program):
    with Daemon(program, PLAIN) as daemon:
        silent = [daemon.connect() for _ in range(3)]
        # one of them begins a line
        silent[1].sendall(b"tick 1")
        waits_for(daemon, "three of them, one after half a line,", 6, 10)
        for client in silent:
            same("what a silent client gets", read_all(client), b"")
            client.close()
        daemon.stop()
        same("notes", daemon.ends(), ["fault S1"] * 3 + ["closed", "stop"])


def test_slow_client(program):
    """A client that sends a byte each second, and never a whole line."""
    with Daemon(program, PLAIN) as daemon, daemon.connect() as slow:
        ended = threading.Event()
        slow.sendall(b"x")

        def drip():
            with contextlib.suppress(BrokenPipeError):
                while not ended.wait(1):
                    slow.sendall(b"x")

        thread = threading.Thread(target=drip, daemon=True)
        thread.start()
        waits_for(daemon, "it", 4, 8)
        ended.set()
        thread.join()
        daemon.stop()
        same("notes", daemon.ends(), ["fault S1", "closed", "stop"])


# ---- the age of a connection


def test_client_that_takes_its_time(program):
    """A client that sends a line now and then: once its connection is 10 seconds old, no further one is served."""
    with Daemon(program, PLAIN) as daemon, daemon.connect() as slow:
        begun = time.monotonic()
        served = 0
        with contextlib.suppress(BrokenPipeError, ConnectionResetError):
            while time.monotonic() - begun < 60:
                time.sleep(3)
                slow.sendall(b"link em9 up\n")
                if slow.recv(100) != b"fault C4\n":
                    break
                served += 1
        took = time.monotonic() - begun
        holds(f"{served} lines in {took:.1f} seconds", served == 3 and 11 < took < 15)
        daemon.stop()
        same("notes", daemon.ends(), ["fault S1", "stop"])


def test_lines_of_an_old_connection(program):
    """Lines that have come stay unread once the connection is 10 seconds old; the line before is replied to."""
    with Daemon(program, commanding([], ["sleep 11"])) as daemon, daemon.connect() as client:
        client.sendall(b"link carp0 up\ntick 4\nstop\n")
        same("replies", read_all(client).decode(), UP)
        same("moment", daemon.send("status").split()[-1], "0")
        daemon.stop()
        same("notes", daemon.ends(), ["fault S1", "closed", "stop"])


def test_request_with_a_long_command(program):
    """A client with a single request gets its reply, and that it sends no other one is no fault."""
    with Daemon(program, commanding([], ["sleep 11"])) as daemon:
        same("send", daemon.send("link carp0 up"), UP)
        daemon.stop()
        same("notes", daemon.ends(), ["closed", "stop"])


def test_busy_client(program):
    """A client that asks without end and reads each reply."""
    with Daemon(program, PLAIN) as daemon, daemon.connect() as client:
        asks_without_end(client)
        waits_for(daemon, "it", 0, 11)
        daemon.stop()
        holds(f"its end: {daemon.ends()}", daemon.ends()[0] in ("fault S1", "fault S3"))


def held_up_by_a_slow_reader(daemon, asked, sip):
    """Another client waits for one that asks much and reads so many bytes every two seconds: some 10 seconds at most."""
    with daemon.connect() as slow:
        slow.sendall(asked)
        ended = threading.Event()

        def read():
            with contextlib.suppress(ConnectionResetError):
                while not ended.wait(2) and slow.recv(sip):
                    pass

        thread = threading.Thread(target=read, daemon=True)
        thread.start()
        waits_for(daemon, "it", 8, 11)
        ended.set()
        thread.join()
    daemon.stop()
    holds(f"its end: {daemon.ends()}", daemon.ends()[-3] in ("fault S1", "fault S2"))


def test_client_that_reads_long_replies_slowly(program):
    with Daemon(program, PLAIN) as daemon:
        daemon.ask(b"".join(b"tick %d\n" % moment for moment in range(300)))
        held_up_by_a_slow_reader(daemon, b"trace\n" * 400, 32_768)


def test_client_that_reads_short_replies_slowly(program):
    # replies of ten bytes, of which the system takes a few hundred from a client that reads nothing
    with Daemon(program, PLAIN) as daemon:
        held_up_by_a_slow_reader(daemon, b"link em9 up\n" * 2_000, 60)


def test_client_that_stops_reading_late(program):
    """It asks for much in the tenth second, and reads nothing: the daemon does not wait for 5 seconds more."""
    with Daemon(program, PLAIN) as daemon, daemon.connect() as client:
        for _ in range(3):
            client.sendall(b"link em9 up\n")
            same("reply", client.recv(100), b"fault C4\n")
            time.sleep(3)
        client.sendall(b"link em9 up\n" * 2_000)
        waits_for(daemon, "a client in its tenth second", 0, 2.5)
        daemon.stop()
        holds(f"its end: {daemon.ends()}", daemon.ends()[0] in ("fault S1", "fault S2"))


# ---- `stop` of a client that reads no reply


def test_stop_that_cannot_be_replied_to(program):
    with Daemon(program, PLAIN) as daemon, daemon.connect() as client:
        # from here on nothing can be written to this client
        client.shutdown(socket.SHUT_RD)
        client.sendall(b"stop\n")
        same("status at the end", daemon.process.wait(SOON), 0)
        same("notes", daemon.ends(), ["fault S2"])
        holds("the socket's file is there after stop", not os.path.exists(daemon.socket))


def test_stop_after_a_reply_that_cannot_be_written(program):
    """Of the lines behind it `stop` alone counts, unless a line `reload` comes before it."""
    for given, ends in (
        (b"status\nstop\n", True),
        (b"status\nstop", True),
        (b"status\ntick 4\n\nstop\ntick 5\n", True),
        (b"status\n" + b"trace\n" * 20_000 + b"stop\n", True),
        (b"status\n", False),
        (b"status\nsto", False),
        (b"status\n stop\nstop \nstops\n", False),
        (b"status\n" + b"x" * 300 + b"stop\n", False),
        (b"status\ntick 4\nreload\nstop\n", False),
    ):
        what = f"{given[:20]} and so on, {len(given)} bytes"
        with Daemon(program, PLAIN) as daemon:
            with daemon.connect() as first, daemon.connect() as client:
                # all of the lines have come when their turn comes
                first.sendall(b"status\n")
                same("reply to the first client", first.recv(65_536).decode(), STATUS)
                client.shutdown(socket.SHUT_RD)
                client.sendall(given)
                client.shutdown(socket.SHUT_WR)
                first.close()
                until(f"the end of its connection after {what}", lambda: daemon.ends() == ["closed", "fault S2"])
            if ends:
                same(f"status at the end after {what}", daemon.process.wait(SOON), 0)
                holds("the socket's file is there after stop", not os.path.exists(daemon.socket))
            else:
                same(f"status after {what}", daemon.send("status"), STATUS)
                daemon.stop()


# ---- the time of `send`


@contextlib.contextmanager
def kept_open(path, answer):
    """A listener that takes a request, gives this answer, and does not close the connection."""
    over = threading.Event()
    with socket.socket(socket.AF_UNIX) as listener:
        listener.bind(path)
        listener.listen()

        def serve():
            client, _ = listener.accept()
            with client:
                read_all(client)
                client.sendall(answer)
                over.wait(SOON)

        thread = threading.Thread(target=serve, daemon=True)
        thread.start()
        yield
        over.set()
        thread.join(SOON)


def test_send_prints_what_has_come(program):
    """When its time is over before the end of the reply, and says that there is none unless a whole line has come."""
    with tempfile.TemporaryDirectory(dir=".") as folder:
        for number, (answer, options, status) in enumerate((
            (b"", [], 3),
            (b"stat", [], 3),
            (b"trace 2\ntick 1 -> ti", ["--check"], 3),
            (b'reloaded "a" queue 1\n', ["--check"], 0),
            (b"fault C1\n", [], 0),
            (b"fault C1\n", ["--check"], 1),
        )):
            path = os.path.join(folder, str(number))
            with kept_open(path, answer):
                ran = send(program, path, "--wait", "1", *options, "reload")
            told = f"device {path}: no reply\n".encode() if status == 3 else b""
            same(f"send {options} with {answer}", (ran.returncode, ran.stdout, ran.stderr), (status, answer, told))
