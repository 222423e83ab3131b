"""Runs of a built program on the largest policy, the largest image and the longest line of digits, through files and
pipes: nothing is refused, and every byte arrives."""
import contextlib
import os
import shutil
import struct
import subprocess
import threading

import bench_inputs as inputs
from bench_inputs import CMD, JF, JUMP, KNOWN, LINK, NOT, POP, QUEUE, RET, STATE, TEST, UP, WANT, op
from running import contents, ran, write

NUMBERS = range(10_000, 11_024)
# texts of 1,024 bytes
NAMES = [f"{number}{'x' * 1_019}" for number in NUMBERS]
MASK = 1 << 63 | 0b1111
TESTS = "0,1,2,3,63"
FILL = "x" * 1_018


def lines(*given):
    return "".join(f"{line}\n" for line in given)


def routine(*code):
    return struct.pack(">BH", 0, len(code)) + b"".join(code)


def image(budgets, start, always, tables, routines):
    """The bytes of an image: numbers, the always part, interfaces, tests, commands and states, and routines."""
    counts = [*[len(table) for table in tables], len(routines)]
    front = [struct.pack(">HHIH", *budgets), struct.pack(">HHHHH", *counts), struct.pack(">H", start)]
    entries = [entry for table in tables for entry in table]
    return b"".join([b"IFSV\x01", *front, struct.pack(">HHQ", *always), *entries, *routines])


def largest_listing():
    """The text of an image that is accepted, and has as much as an image may have."""
    front = ["ifsv 1", "stack 32", "frames 32", "cost 300000", "commands 64", "start 255"]
    front += [f"always init 0 body 1 tests {TESTS}"]
    tables = [f'iface "{name}"' for name in NAMES[:64]] + [f'test 604800 "{name}"' for name in NAMES[:64]]
    tables += [f'command "{name}"' for name in NAMES]
    tables += [f'state "{name}" init 6 body 7 tests {TESTS}' for name in NAMES[:256]]
    code = ["jump 1", *["link 63 up", "pop"] * 511, "ret"]
    return lines(*front, *tables, *["routine results 0", *code] * 8)


def largest_image():
    """The bytes of that image."""
    names = [inputs.text(name) for name in NAMES]
    tests = [struct.pack(">I", 604_800) + name for name in names[:64]]
    states = [inputs.state(name, 6, 7, MASK) for name in NAMES[:256]]
    code = routine(op(JUMP, 1), *[op(LINK, 63, UP), op(POP)] * 511, op(RET))
    return image((32, 32, 300_000, 64), 255, (0, 1, MASK), [names[:64], tests, names, states], [code] * 8)


def largest_policy():
    """The text of a policy that compiles, and has as much as a policy may have: 1,048,576 bytes, 16,384 tokens, full
    tables and 8,192 instructions."""
    links = [f"if {'(' * 25} ! e{number}.link.up {')' * 25} {{ }}" for number in NUMBERS[:64]]
    tests = [f"if {'(' * 25} t{number} every 604800 {')' * 25} {{ }}" for number in NUMBERS[:64]]
    # no state wishes for itself, of which `check` has a note
    wishes = {number: f"set-state s{10_000 if number != 10_000 else 10_255} " * 10 for number in NUMBERS[:256]}
    states = [f"state s{number} {{ init {{ $n{number} }} {wish}}}" for number, wish in wishes.items()]
    said = lines("init-state s10255", *links, *tests, *["set-state s10000"] * 31, *states)
    return said.ljust(inputs.MOST_BYTES, "\n")


def commands(number):
    return [f"{letter}{number}{FILL}" for letter in "abcd"]


def definitions():
    """As many definitions as there may be; each is of four commands."""
    for number in NUMBERS[:256]:
        yield from ("-D", f"n{number}=" + " ".join(f"run {command}" for command in commands(number)))


def compiled():
    """The bytes of the image that the policy compiles to."""
    names = [inputs.text(f"e{number}") for number in NUMBERS[:64]]
    tests = [struct.pack(">I", 604_800) + inputs.text(f"t{number}") for number in NUMBERS[:64]]
    texts = [inputs.text(command) for number in NUMBERS[:256] for command in commands(number)]
    states = [inputs.state(f"s{10_000 + index}", 2 + 2 * index, 3 + 2 * index) for index in range(256)]
    body = [it for test in range(64) for it in (op(KNOWN, test), op(JF, 510))]
    for index in range(64):
        body += [op(LINK, index, UP), op(NOT), op(JF, len(body) + 3)]
    for test in range(64):
        body += [op(TEST, test), op(JF, len(body) + 2)]
    body += [op(STATE, 0), op(WANT)] * 31 + [op(RET)]
    routines = [routine(op(RET)), routine(*body)]
    for index in range(256):
        init = [it for command in range(4) for it in (op(CMD, 4 * index + command), op(QUEUE))]
        wish = [op(STATE, 255 if index == 0 else 0), op(WANT)]
        routines += [routine(*init, op(RET)), routine(*wish * 10, op(RET))]
    budgets = 1, 1, len(body) + 21 + 9, 4
    return image(budgets, 255, (0, 1, (1 << 64) - 1), [names, tests, texts, states], routines)


def longest_line():
    """The bytes of an image that is accepted, 65,536 of them, which are the most that a line of digits may spell."""
    texts = [inputs.text(name) for name in NAMES[:63]] + [inputs.text("x" * 835)]
    return image((0, 1, 3, 0), 0, (0, 0, 0), [[], [], texts, [inputs.state("a", 0, 0)]], [routine(op(RET))])


def read_end(descriptor, got):
    with open(descriptor, "rb") as end:
        got.append(end.read())


def to_file(program, words):
    run = ran(program, *words, "made/image")
    return run, contents("made/image")


def to_named_pipe(program, words):
    os.mkfifo("made/pipe")
    got = []
    reader = threading.Thread(target=read_end, args=("made/pipe", got))
    reader.start()
    run = ran(program, *words, "made/pipe")
    # where the program did not open the pipe the reader still waits for a writer
    with contextlib.suppress(OSError):
        os.close(os.open("made/pipe", os.O_WRONLY | os.O_NONBLOCK))
    reader.join()
    return run, got[0]


def to_descriptor(program, words):
    end, other = os.pipe()
    got = []
    reader = threading.Thread(target=read_end, args=(end, got))
    reader.start()
    run = ran(program, *words, f"/dev/fd/{other}", pass_fds=[other])
    os.close(other)
    reader.join()
    return run, got[0]


def to_output(program, words):
    status, output, error = ran(program, *words, "/dev/stdout")
    cut = output.rfind(b"ok ")
    return (status, output[cut:], error), output[:cut]


def told(given, wanted):
    """What is told of bytes of which there are too many to print."""
    return f"{len(given)} bytes" + ("" if given == wanted else f", not the {len(wanted)} wanted")


def written(program):
    """What asm and compile write is the image, whole, to a file and to each kind of pipe."""
    for words, wanted in ((["asm", "listing"], largest_image()), (["compile", *definitions(), "policy"], compiled())):
        for sink in (to_file, to_named_pipe, to_descriptor, to_output):
            shutil.rmtree("made", ignore_errors=True)
            os.mkdir("made")
            run, data = sink(program, words)
            gave = run, told(data, wanted)
            good = (0, f"ok {len(wanted)} bytes\n".encode(), b""), told(wanted, wanted)
            yield f"ifsvm {words[0]} of the largest {words[-1]}, {sink.__name__}", gave, good


def answered(program):
    """What each word prints, of a file and of a pipe that gives the same bytes."""
    listing, stated = largest_listing().encode(), b"ok stack 32 frames 32 cost 300000 commands 64\n"
    counts = b"ok 64 interfaces 64 tests 1024 commands 256 states\n"
    for words, name, wanted in (
        (["verify"], "largest", stated),
        (["verify"], "compiled", b"ok stack 1 frames 1 cost 541 commands 4\n"),
        (["disasm"], "largest", listing),
        (["check", *definitions()], "policy", counts),
    ):
        given = contents(name)
        good = 0, told(wanted, wanted), b""
        status, output, error = ran(program, *words, name)
        yield f"ifsvm {words[0]} {name}", (status, told(output, wanted), error), good
        status, output, error = ran(program, *words, "/dev/stdin", input=given)
        yield f"ifsvm {words[0]} {name}, of a pipe", (status, told(output, wanted), error), good


def talks(program):
    """Sessions on the largest images and on the longest line: two bodies of 1,024 instructions run, and tests start."""
    state = f'"{NAMES[255]}"'
    ticked = f"tick {state} cost 2048 queue - starts 0:1,1:2,2:3,3:4,63:5"
    replies = lines(f"status {state} owed yes queue 0 running 0 now 0", ticked, "bye").encode()
    run = ran(program, "sim", "largest", input=b"status\ntick 5\nstop\n")
    yield "ifsvm sim largest", run, (0, replies, b"")
    first = commands(10_255)[0]
    run = ran(program, "sim", "compiled", input=b"take\nlink e10063 up\nstop\n")
    # tests without values hold the always body back after 3 instructions; 21 are the state's, and 9 the next one's init
    replies = f'taken 1020 "{first}"\ndone "s10000" cost 33 queue 0,1,2,3\nbye\n'.encode()
    yield "ifsvm sim compiled", run, (0, replies, b"")
    given = longest_line().hex().encode() + b"\nstatus\n"
    run = ran(program, input=given)
    yield "ifsvm on the longest line", run, (0, b'status "a" owed yes queue 0 running 0 now 0\n', b"")


def served(program):
    """A daemon on the largest image."""
    words = ["ifsvm", "serve", "largest", "socket"]
    streams = {"stdin": subprocess.DEVNULL, "stdout": subprocess.PIPE, "stderr": subprocess.PIPE}
    with subprocess.Popen(words, executable=program, env={}, **streams) as daemon:
        first = daemon.stdout.readline()
        status = ran(program, "send", "socket", "status")
        stop = ran(program, "send", "socket", "stop")
        if stop[0] != 0:
            daemon.kill()
        daemon.communicate(timeout=60)
    line = f'status "{NAMES[255]}" owed yes queue 0 running 0 now 0\n'.encode()
    gave = first, status, stop, daemon.returncode
    yield "ifsvm serve largest", gave, (b"ready\n", (0, line, b""), (0, b"bye\n", b""), 0)


def answers(program):
    """Each run's name, what it gave, and what it has to give."""
    texts = {"listing": largest_listing().encode(), "policy": largest_policy().encode()}
    for name, data in {**texts, "largest": largest_image(), "compiled": compiled()}.items():
        write(name, data)
    for runs in (written, answered, talks, served):
        yield from runs(program)
