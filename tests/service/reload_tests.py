"""Tests of `reload`: an image takes over in a daemon that runs."""
import contextlib
import fcntl
import os
import socket
import tempfile
import threading
import time

from daemons import PLAIN, SOON, Daemon, commanding, holds, read_all, results, same, send, testing, until

LIMIT = 16_777_216
# how many images may take over
RELOADS = 64


def when_known(there):
    """A policy whose init tells, by the files that it makes, which links it knows."""
    known = "".join(
        f'if {name}.link.{state} run "touch {there}/{name}.{state}" '
        for name in ("carp0", "carp1", "em9")
        for state in ("up", "down", "unknown")
    )
    return f"state x {{ init {{ {known} }} }}\n"


def test_reload_takes_over(program):
    """The links that are known stand in the new image by their names, whatever their order there."""
    looking = "state a { if carp1.link.down run ':' if em0.link.up run ':' if carp0.link.up run ':' }\n"
    with Daemon(program, looking) as daemon:
        for request in ("link carp0 up", "link carp1 down", "link em0 up", "tick 5"):
            daemon.send(request)
        known = daemon.file("known")
        os.mkdir(known)
        daemon.compile(when_known(known))
        same("reload", daemon.send("reload"), 'reloaded "x" queue 3\n')
        same("status", daemon.send("status"), 'status "x" owed yes queue 0 running 0 now 0\n')
        same("links that are known", sorted(os.listdir(known)), ["carp0.up", "carp1.down", "em9.unknown"])
        same("trace", daemon.send("trace"), "trace 3\n" + 'take -> taken "x" cost 0 queue 0\n' * 3)
        # an interface that the image between did not have is forgotten
        daemon.compile(looking)
        same("reload", daemon.send("reload"), 'reloaded "a" queue 0\n')
        same("em0 is unknown again", daemon.send("link em0 unknown"), "same\n")
        same("carp0 is still up", daemon.send("link carp0 up"), "same\n")
        daemon.compile("state none { }\n")
        same("reload without interfaces", daemon.send("reload"), 'reloaded "none" queue 0\n')
        daemon.compile(looking)
        same("reload", daemon.send("reload"), 'reloaded "a" queue 0\n')
        same("all is forgotten", daemon.send("link carp0 unknown"), "same\n")
        daemon.stop()
        same("notes", [it for it in daemon.ends() if it != "closed"], ["reload"] * 4 + ["stop"])
        taken = [note for level, note in daemon.changes() if level == "INFO" and "image" in note]
        same("notes of the images", taken, [f'image taken over in state "{it}"' for it in ("x", "a", "none", "a")])


# why files cannot be read, in notes
MISSING = "No such file or directory (os error 2)"
NOT_REGULAR = "not a regular file"


def check_refusals(daemon, wanted):
    """The notes of refused reloads have the line of the reply, and then say why: in these words, or in some of the image's."""
    notes = [note for level, note in daemon.changes() if level == "WARN"]
    same("how many reloads are noted as refused", len(notes), len(wanted))
    for note, (line, why) in zip(notes, wanted):
        begins = f"image refused: {line}: "
        holds(f"the note {note!r} does not begin with {begins!r}", note.startswith(begins))
        said = note.removeprefix(begins)
        holds(f"the note {note!r} does not say {why or 'why'!r}", said == why if why else said != "")


def test_reload_that_is_refused(program):
    """The core goes on as it was, its waiting tests too."""
    with Daemon(program, testing(["sleep 1"])) as daemon:
        same("tick", daemon.send("tick 3"), 'tick "a" cost 4 queue - starts 0:1\n')
        with open(daemon.image, "rb") as file:
            good = file.read()
        before = daemon.send("status")
        refused = []

        def refuses(what, line, why=None):
            began = time.monotonic()
            same(what, daemon.send("reload"), f"refused {line}\n")
            holds(f"{what}: it took long", time.monotonic() - began < SOON)
            same(f"status after {what}", daemon.send("status").replace("running 0", "running 1"), before)
            refused.append((line, why))

        def put(content):
            with open(daemon.image, "wb") as file:
                file.write(content)

        for what, content, line, why in (
            ("another magic", b"IFSX", "I2 byte 0", None),
            ("an empty file", b"", "I1 byte 0", None),
            ("a cut image", good[:-1], f"I1 byte {len(good) - 4}", None),
            ("a byte more", good + b"\0", f"I7 byte {len(good)}", None),
            ("a budget too low", good[:9] + bytes(3) + b"\1" + good[13:], "V12 head", None),
            ("16,777,216 bytes", b"IFSX" + bytes(LIMIT - 4), "I2 byte 0", None),
            ("16,777,217 bytes", bytes(LIMIT + 1), "L2", "too large"),
        ):
            put(content)
            refuses(what, line, why)
        os.remove(daemon.image)
        refuses("no file", "L2", MISSING)
        os.mkdir(daemon.image)
        refuses("a folder", "L2", NOT_REGULAR)
        os.rmdir(daemon.image)
        os.mkfifo(daemon.image)
        refuses("a pipe that nobody writes", "L2", NOT_REGULAR)
        with open(os.open(daemon.image, os.O_RDWR), "wb", buffering=0) as writer:
            writer.write(good)
            refuses("a pipe that never ends", "L2", NOT_REGULAR)
        os.remove(daemon.image)
        os.symlink("/dev/zero", daemon.image)
        refuses("a device that never ends", "L2", NOT_REGULAR)
        os.remove(daemon.image)
        os.symlink("nowhere", daemon.image)
        refuses("a link that leads nowhere", "L2", MISSING)
        os.remove(daemon.image)
        same("send --check of a refused reload", send(program, daemon.socket, "--check", "reload").returncode, 1)
        refused.append(("L2", MISSING))
        until("the test's end", lambda: ("0", "1", "ok") in results(daemon.send("trace")))
        put(good)
        same("the image again", daemon.send("reload"), 'reloaded "a" queue 0\n')
        daemon.stop()
        check_refusals(daemon, refused)


def test_refused_images_are_not_kept(program):
    """However often a client asks, the memory is the same."""
    with Daemon(program, PLAIN) as daemon:
        # a good image, and then bytes without which it would be accepted
        size = os.path.getsize(daemon.image)
        with open(daemon.image, "ab") as file:
            file.write(bytes(1_000_000))

        def refuses(times):
            for _ in range(times):
                same("reload", daemon.ask(b"reload\n"), f"refused I7 byte {size}\n")
            return daemon.memory()

        before, after = refuses(8), refuses(64)
        holds(f"memory grew from {before} to {after} kB", all(b <= a + 4_096 for a, b in zip(before, after)))
        daemon.stop()


def test_refusal_is_told_at_once(program):
    """The line of a refused reload goes out, and the connection ends, though standard error has no room for notes."""
    reader, writer = os.pipe()
    with open(reader, "rb", buffering=0) as notes, Daemon(program, PLAIN, stderr=writer) as daemon, daemon.connect() as client:
        room_of_notes = fcntl.fcntl(writer, fcntl.F_SETPIPE_SZ, 8_192)
        os.write(writer, bytes(room_of_notes))
        os.close(writer)
        os.remove(daemon.image)
        client.settimeout(SOON)
        client.sendall(b"reload\n")
        same("what is told", read_all(client), b"refused L2\n")
        with daemon.connect() as second:
            # who is answered comes after both notes of the first connection
            second.sendall(b"status\n")
            second.recv(65_536)
            same("notes", notes.read(room_of_notes).strip(b"\0"), b"")
        daemon.stop()
        told = b"[WARN  ifsvm] 2 notes dropped: no room on standard error\n[INFO  ifsvm] closed\n[INFO  ifsvm] stop\n"
        same("later notes", notes.read(), told)


def test_reload_while_tests_run(program):
    """The end of a test of the image before is not taken for one of the new image's, whose runs go on in number."""
    with room() as folder, Daemon(program, testing([f"until [ -e {folder}/end ]; do sleep 0.02; done"])) as daemon:
        same("tick 0", daemon.send("tick 0"), 'tick "a" cost 4 queue - starts 0:1\n')
        same("reload", daemon.send("reload"), 'reloaded "a" queue 0\n')
        same("status", daemon.send("status"), 'status "a" owed yes queue 0 running 0 now 0\n')
        same("tick 0 again", daemon.send("tick 0"), 'tick "a" cost 4 queue - starts 0:2\n')
        same("both run", len(daemon.children()), 2)
        open(f"{folder}/end", "w").close()
        until("both ended", lambda: not running(daemon))
        same("the ends that counted", results(daemon.send("trace")), [("0", "2", "ok")])
        # and one whose index the new image has not
        os.remove(f"{folder}/end")
        same("tick 1", daemon.send("tick 1"), "tick starts 0:3\n")
        daemon.compile("state none { }\n")
        same("reload without tests", daemon.send("reload"), 'reloaded "none" queue 0\n')
        open(f"{folder}/end", "w").close()
        until("it ended", lambda: not running(daemon))
        same("trace", daemon.send("trace"), "trace 0\n")
        daemon.stop()


def running(daemon):
    """The children, where a request has had the daemon look at those that ended."""
    daemon.send("status")
    return daemon.children()


@contextlib.contextmanager
def room():
    """A folder of its own, by its whole path."""
    with tempfile.TemporaryDirectory(dir=".") as folder:
        yield os.path.abspath(folder)


def lines_of(path):
    """The lines of a file, none if it is not there."""
    with contextlib.suppress(FileNotFoundError), open(path) as file:
        return file.readlines()
    return []


def test_commands_of_the_first_opening(program):
    """They run in their order, and wait for no client."""
    with room() as folder:
        log = f"{folder}/log"
        with Daemon(program, commanding([f"echo 1 >> {log}", f"echo 2 >> {log}"], [])) as daemon:
            until("both commands", lambda: len(lines_of(log)) == 2)
            same("order of commands", lines_of(log), ["1\n", "2\n"])
            same("ends of connections", daemon.ends(), [])
            daemon.stop()


def test_commands_of_the_opening(program):
    """The reply comes before the opening's commands run, which wait in the queue till then, in their order."""
    with room() as folder, Daemon(program, PLAIN) as daemon:
        log = f"{folder}/log"
        daemon.compile(commanding([f"sleep 1; echo 1 >> {log}", f"echo 2 >> {log}"], []))
        with daemon.connect() as client:
            client.sendall(b"status\nreload\nstatus\n")
            client.shutdown(socket.SHUT_WR)
            began = time.monotonic()
            told = b""
            while told.count(b"\n") < 2 and (part := client.recv(65_536)):
                told += part
            holds("the reply came after the commands", time.monotonic() - began < 0.9 and not os.path.exists(log))
            same("what is told", told, b'status "a" owed yes queue 0 running 0 now 0\nreloaded "a" queue 2\n')
            same("what is told after it", read_all(client), b"")
            holds("the connection was closed after the commands", not os.path.exists(log))
        same("status", daemon.send("status"), 'status "a" owed yes queue 0 running 0 now 0\n')
        with open(log) as file:
            same("order of commands", file.read(), "1\n2\n")
        daemon.stop()


def test_send_of_a_reload_waits_for_no_command(program):
    """It has its reply and the end of the connection while the first command of the opening runs."""
    with Daemon(program, PLAIN) as daemon:
        daemon.compile(commanding(["sleep 4"], []))
        began = time.monotonic()
        ran = send(program, daemon.socket, "--check", "--wait", "2", "reload")
        same("send --wait", (ran.returncode, ran.stdout, ran.stderr), (0, b'reloaded "a" queue 1\n', b""))
        # it is started a moment after the end of the connection
        until("the command", daemon.children)
        holds("the command was not running", time.monotonic() - began < 3)
        daemon.stop()
        same("notes", daemon.ends(), ["reload", "stop"])


def test_reload_of_a_client_that_is_gone(program):
    """The new image stands, and the commands of its opening ran, also where nobody could be told."""
    with room() as folder, Daemon(program, commanding(["sleep 0.5"], [])) as daemon:
        daemon.compile(f"state x {{ init run 'echo ran >> {folder}/log' }}\n")
        for number in range(1, 4):
            with daemon.connect() as first, daemon.connect() as client:
                # the daemon waits for the first client, while the second goes away
                first.sendall(b"status\n")
                first.recv(65_536)
                client.sendall(b"reload\n")
                client.shutdown(socket.SHUT_RDWR)
                client.close()
            # no other client comes before
            until("the command", lambda: len(lines_of(f"{folder}/log")) == number)
            same("status", daemon.send("status"), 'status "x" owed yes queue 0 running 0 now 0\n')
            same("how often the command ran", len(lines_of(f"{folder}/log")), number)
        daemon.stop()
        same("notes", [it for it in daemon.ends() if it != "closed"], ["reload"] * 3 + ["stop"])


def test_most_reloads(program):
    """After 64 images have taken over no other does, and what they took is theirs alone."""
    with Daemon(program, PLAIN) as daemon:
        policies = [commanding([], [f"echo {'x' * 100} {number}"]) for number in range(RELOADS)]
        size = 0
        for number, policy in enumerate(policies):
            daemon.compile(policy)
            same(f"reload {number}", daemon.send("reload"), 'reloaded "a" queue 0\n')
            if number == 0:
                # whoever is answered comes after the connection of the reload has ended
                daemon.send("status")
                descriptors, memory = daemon.descriptors(), daemon.memory()
            size += os.path.getsize(daemon.image)
        daemon.send("status")
        same("descriptors", daemon.descriptors(), descriptors)
        # the arena takes its pieces twice as large as the one before
        least = 64 + 2 * size // 1024
        holds(f"memory grew from {memory} to {daemon.memory()} kB", all(b <= a + least for a, b in zip(memory, daemon.memory())))
        same("link", daemon.send("link carp0 up"), 'done "a" cost 6 queue 0\n')
        before = daemon.send("status")
        same("the 65th", daemon.send("reload"), "refused L3\n")
        same("status", daemon.send("status"), before)
        os.remove(daemon.image)
        same("it is refused before the file is read", daemon.send("reload"), "refused L3\n")
        same("status", daemon.send("status"), before)
        daemon.stop()
        check_refusals(daemon, [("L3", "there were 64 reloads since the start")] * 2)


def test_image_replaced_while_it_is_read(program):
    """A file that is put in its place whole is read whole, as it was before or as it is after."""
    bodies = {name: " ".join(f'if em{it}.link.up run "{name} {it} {120 * name}"' for it in range(40)) for name in "xy"}
    states = [f"state {name} {{ {body} }}\n" for name, body in bodies.items()]
    with Daemon(program, states[0]) as daemon:
        images = []
        for policy in states:
            daemon.compile(policy)
            with open(daemon.image, "rb") as file:
                images.append(file.read())
        going = threading.Event()

        def replace():
            number = 0
            while not going.is_set():
                number += 1
                with open(daemon.file("next"), "wb") as file:
                    file.write(images[number % 2])
                os.rename(daemon.file("next"), daemon.image)

        replacing = threading.Thread(target=replace)
        replacing.start()
        try:
            told = {daemon.send("reload") for _ in range(RELOADS)}
        finally:
            going.set()
            replacing.join()
        same("what was told", told - {'reloaded "x" queue 0\n', 'reloaded "y" queue 0\n'}, set())
        daemon.stop()


def test_image_overwritten_while_it_is_read(program):
    """A file that is written over in its place is taken as it was read, or refused; the daemon goes on."""
    with Daemon(program, PLAIN) as daemon:
        with open(daemon.image, "rb") as file:
            good = file.read()
        going = threading.Event()

        def overwrite():
            while not going.is_set():
                with open(daemon.image, "wb") as file:
                    for byte in good:
                        file.write(bytes([byte]))
                        file.flush()

        writing = threading.Thread(target=overwrite)
        writing.start()
        try:
            told = [daemon.send("reload") for _ in range(RELOADS)]
        finally:
            going.set()
            writing.join()
        wrong = [it for it in told if it != 'reloaded "a" queue 0\n' and not it.startswith(("refused I", "refused V"))]
        same("what else was told", wrong, [])
        same("status", daemon.send("status"), 'status "a" owed yes queue 0 running 0 now 0\n')
        daemon.stop()


def test_lines_like_reload(program):
    """Other lines end nothing, and their faults are told."""
    with Daemon(program, PLAIN) as daemon:
        lines = ["reload ", " reload", "Reload", "reload x", "reload\r", "reload" + " " * 251]
        same("faults", daemon.ask("".join(f"{it}\n" for it in lines).encode() + b"status\n"),
             "fault C1\n" * 5 + "fault C2\n" + 'status "a" owed yes queue 0 running 0 now 0\n')
        same("without newline", daemon.ask(b"reload"), 'reloaded "a" queue 0\n')
        daemon.stop()
        same("notes", daemon.ends(), ["closed", "reload", "stop"])
