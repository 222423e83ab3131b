"""Runs of a built program that write an image: what it says, and what then stands in the folder `made`."""
import os
import shutil
import stat
import threading

from running import contents, cut_off, limited, ran_on, write

# what compile makes of `state a { if carp0.link.up run "echo m" }`
FIRST = bytes.fromhex(
    "49465356 01 0001 0001 00000007 0001"
    "0001 0000 0001 0001 0004 0000"
    "0000 0001 0000000000000000"
    "0005 6361727030"
    "0006 6563686f206d"
    "0001 61 0002 0003 0000000000000000"
    "00 0001 00000000"
    "00 0001 00000000"
    "00 0001 00000000"
    "00 0005 03020000 0e000004 09000000 0b000000 00000000"
)
SMALLEST = bytes.fromhex(
    "49465356 01 0000 0001 00000003 0000"
    "0000 0000 0000 0001 0001 0000"
    "0000 0000 0000000000000000"
    "0001 61 0000 0000 0000000000000000"
    "00 0001 00000000"
)
# the upgrade of the smallest image
UPGRADED = SMALLEST[:4] + b"\2" + SMALLEST[5:-7] + b"\0" + SMALLEST[-7:]
# routine 0 of the body's routine takes a command
GIVEN = bytes.fromhex(
    "49465356 02 0001 0002 00000007 0001"
    "0001 0000 0001 0001 0003 0000"
    "0001 0001 0000000000000000"
    "0005 6361727030"
    "0006 6563686f206d"
    "0001 61 0001 0002 0000000000000000"
    "01 01 00 0002 0b000000 00000000"
    "00 00 0001 00000000"
    "00 00 0003 09000000 10000000 00000000"
)
GIVEN_LINES = [
    "ifsv 2", "stack 1", "frames 2", "cost 7", "commands 1", "start 0", "always init 1 body 1 tests -", 'iface "carp0"',
    'command "echo m"', 'state "a" init 1 body 2 tests -', "routine params command results -", "queue", "ret",
    "routine params - results -", "ret", "routine params - results -", "cmd 0", "call 0", "ret",
]
SMALLEST_LINES = [
    "ifsv 1", "stack 0", "frames 1", "cost 3", "commands 0", "start 0", "always init 0 body 0 tests -",
    'state "a" init 0 body 0 tests -', "routine results 0", "ret",
]
# without a routine, which the verifier and not the assembler refuses
WITHOUT_ROUTINES = SMALLEST[:23] + b"\0\0" + SMALLEST[25:-7]
OLD = b"what stood there"
TOO_LARGE = "too large"
MISSING = "No such file or directory"
FULL = "No space left on device"
NOTE = "note line 1: || and && without parentheses\n"


def lines(*given):
    return "".join(f"{line}\n" for line in given)


def smallest(number=0, *others):
    """The text of the smallest image, of which a line from 1 gives way to others."""
    changed = list(SMALLEST_LINES)
    if number:
        changed[number - 1:number] = others
    return lines(*changed)


# texts that are refused: the word, the name of the file, the text, the refusal
REFUSED_TEXTS = [
    ("compile", "long", 'state a { init { ' + 'run "x" ' * 512 + "} }\n", "G1 routine 2"),
    ("compile", "waiting", "state a { if " + "x.link.up && ( " * 31 + "y.link.up && z.link.up" + " )" * 31 + ' run "x" }\n',
     "G3 routine 3"),
    ("asm", "version", smallest(1, "ifsv 2"), "A1 line 9"),
    ("asm", "third", smallest(1, "ifsv 3"), "A1 line 1"),
    ("asm", "given_five", lines(*GIVEN_LINES).replace("params command", "params command,command,truth,truth,state"),
     "A2 line 11"),
    ("asm", "given_what", lines(*GIVEN_LINES).replace("params command", "params commands"), "A1 line 11"),
    ("asm", "stack", smallest(2, "stack 33"), "A2 line 2"),
    ("asm", "no_stack", smallest(2), "A3 line 2"),
    ("asm", "seven", lines(*SMALLEST_LINES[:7]), "A3 line 8"),
]
# texts of files by their names
TEXTS = {
    "first": 'state a { if carp0.link.up run "echo m" }\n',
    "none_told": 'state a { init { ' + 'run "x" ' * 64 + "} }\n",
    "one_over": 'state a { init { ' + 'run "x" ' * 65 + "} }\n",
    "smallest": smallest(),
    "loose": "; the smallest\n\n" + smallest().replace(" ", " \t").replace("init 0", "init 000").rstrip("\n"),
    "second": smallest(1, "ifsv 2").replace("routine results 0", "routine params - results -"),
    "first_form": smallest(9, "routine params - results -"),
    "given": lines(*GIVEN_LINES),
    "capital": smallest(10, "Ret"),
    "eight": lines(*SMALLEST_LINES[:8]),
    **{name: text for _, name, text, _ in REFUSED_TEXTS},
}
TRY = "\n\nFor more information, try '--help'.\n"


def missing(word, usage, *operands):
    named = "".join(f"\n  <{operand}>" for operand in operands)
    return f"error: the following required arguments were not provided:{named}\n\nUsage: ifsvm {word} {usage}{TRY}"


def undefined(word):
    return (f"error: invalid value '{word}' for '-D <NAME=VALUE>': it is no macro name, '=' and a value"
            f"\n\nUsage: ifsvm [COMMAND]{TRY}")


def unexpected(usage):
    return f"error: unexpected argument 'more' found\n\nUsage: ifsvm {usage}{TRY}"


# runs that write a file: words; what stands in the folder before; the bytes that are told; what stands there then
WRITTEN = [
    ("compile first made/image", {}, 113, {"image": FIRST}),
    ("compile first made/image", {"image": OLD}, 113, {"image": FIRST}),
    ("compile first made/image", {"image.1.new": OLD}, 113, {"image": FIRST, "image.1.new": OLD}),
    ("compile made/first made/first", {"first": TEXTS["first"].encode()}, 113, {"first": FIRST}),
    ("compile first /dev/null", {}, 113, {}),
    ("asm smallest made/image", {}, 61, {"image": SMALLEST}),
    ("asm smallest made/image", {"image": OLD}, 61, {"image": SMALLEST}),
    ("asm loose made/image", {}, 61, {"image": SMALLEST}),
    ("asm eight made/image", {}, 54, {"image": WITHOUT_ROUTINES}),
    ("asm second made/image", {}, 62, {"image": UPGRADED}),
    ("asm given made/image", {}, 106, {"image": GIVEN}),
    ("upgrade good made/image", {}, 62, {"image": UPGRADED}),
    ("upgrade good made/image", {"image": OLD}, 62, {"image": UPGRADED}),
    ("upgrade made/image made/image", {"image": SMALLEST}, 62, {"image": UPGRADED}),
    ("upgrade made/old made/image", {"old": UPGRADED}, 62, {"old": UPGRADED, "image": UPGRADED}),
    ("upgrade made/old made/image", {"old": GIVEN}, 106, {"old": GIVEN, "image": GIVEN}),
    ("upgrade cheap made/image", {}, 62, {"image": UPGRADED[:12] + b"\2" + UPGRADED[13:]}),
    ("upgrade made/old made/image", {"old": WITHOUT_ROUTINES}, 54,
     {"old": WITHOUT_ROUTINES, "image": WITHOUT_ROUTINES[:4] + b"\2" + WITHOUT_ROUTINES[5:]}),
]
# further runs that are refused, and leave the folder as it is: words; what stands in the folder; the refusal
REFUSED = [
    ("compile twice made/image", {"image": OLD}, "P10 line 2"),
    ("compile twice nowhere/image", {}, "P10 line 2"),
    ("compile one_over made/image", {"image": OLD}, "G4"),
    ("compile empty made/image", {}, "P9 line 1"),
    ("compile bytes made/image", {"image": OLD}, "P1 line 3"),
    ("compile bytes made/image -D x=&", {}, "P1 line 3"),
    ("compile longest made/image", {}, "P5 line 1"),
    ("compile outside made/image -D y=&", {}, "P4 line 0"),
    ("asm empty made/image", {"image": OLD}, "A3 line 1"),
    ("asm first_form made/image", {"image": OLD}, "A1 line 9"),
    ("asm capital nowhere/image", {}, "A1 line 10"),
    ("asm bytes made/image", {"image": OLD}, "A1 line 3"),
    ("asm longest made/image", {}, "A1 line 1"),
    ("upgrade empty made/image", {"image": OLD}, "I1 byte 0"),
    ("upgrade made/old made/image", {"old": SMALLEST[:4] + b"\3"}, "I3 byte 4"),
    ("upgrade longest made/image", {}, "I2 byte 0"),
]
# the same of runs that fail at a file: its name, and what is wrong with it
FAILED = [
    ("compile longer made/image", {"image": OLD}, "longer", TOO_LARGE),
    ("compile missing made/image", {}, "missing", MISSING),
    ("compile first nowhere/image", {}, "nowhere/image", MISSING),
    ("compile first made", {}, "made", "Is a directory"),
    ("compile first first/image", {}, "first/image", "Not a directory"),
    ("compile first /dev/full", {}, "/dev/full", FULL),
    ("compile binding /dev/full", {}, "/dev/full", FULL),
    ("asm longer made/image", {}, "longer", TOO_LARGE),
    ("asm missing made/image", {}, "missing", MISSING),
    ("asm smallest nowhere/image", {}, "nowhere/image", MISSING),
    ("asm smallest /dev/full", {}, "/dev/full", FULL),
    ("upgrade longer made/image", {"image": OLD}, "longer", TOO_LARGE),
    ("upgrade missing made/image", {}, "missing", MISSING),
    ("upgrade good nowhere/image", {}, "nowhere/image", MISSING),
    ("upgrade good /dev/full", {}, "/dev/full", FULL),
]
# the same of words that are no request: what is said of them
MISUSED = [
    ("compile", {}, missing("compile", "<FILE> <IMAGE>", "FILE", "IMAGE")),
    ("compile first", {}, missing("compile", "<FILE> <IMAGE>", "IMAGE")),
    ("compile missing nowhere/image -D x", {}, undefined("x")),
    ("compile first made/image -D 1x=a", {"image": OLD}, undefined("1x=a")),
    ("asm smallest", {}, missing("asm", "<FILE> <IMAGE>", "IMAGE")),
    ("asm smallest made/image more", {}, unexpected("asm [OPTIONS] <FILE> <IMAGE>")),
    ("upgrade", {}, missing("upgrade", "<IMAGE> <OUT>", "IMAGE", "OUT")),
    ("upgrade good", {}, missing("upgrade", "<IMAGE> <OUT>", "OUT")),
    ("upgrade good made/image more", {}, unexpected("upgrade [OPTIONS] <IMAGE> <OUT>")),
]
# policies with notes, which stand before the last line
NOTED = [("compile binding made/image", NOTE + "ok 131 bytes\n"), ("compile none_told made/image", "ok 597 bytes\n")]


def make(before):
    """The folder with these files alone."""
    shutil.rmtree("made", ignore_errors=True)
    os.mkdir("made")
    for name, data in before.items():
        write(os.path.join("made", name), data)


def made():
    return {name: contents(os.path.join("made", name)) for name in sorted(os.listdir("made"))}


def mode(path):
    return stat.S_IMODE(os.stat(path).st_mode)


def rows():
    """Words; what stands in the folder before; status, standard output, standard error; what stands there then."""
    for words, before, size, after in WRITTEN:
        yield words, before, 0, f"ok {size} bytes\n", "", after
    refused = [(f"{word} {name} made/image", {}, refusal) for word, name, _, refusal in REFUSED_TEXTS]
    for words, before, refusal in refused + REFUSED:
        yield f"{words} --quiet", before, 1, f"refused {refusal}\n", "", before
    for words, before, error in MISUSED:
        yield words, before, 2, "", error, before
    for words, before, file, cause in FAILED:
        yield words, before, 3, "", f"device {file}: {cause}\n", before


def table(program):
    for words, before, status, output, error, after in rows():
        make(before)
        run = ran_on(program, words)
        yield f"ifsvm {words}", (*run, made()), (status, output.encode(), error.encode(), after)
    for words, output in NOTED:
        make({})
        run = ran_on(program, words)
        size = len(made().get("image", b""))
        yield f"ifsvm {words}", (*run, f"ok {size} bytes".encode() in run[1]), (0, output.encode(), b"", True)


def modes(program):
    """A file keeps its mode, and a new one has that of the process."""
    for before, kept in ((0o600, 0o600), (0o444, 0o444), (0o755, 0o755), (None, 0o640)):
        make({"image": OLD} if before else {})
        if before:
            os.chmod("made/image", before)
        run = ran_on(program, "compile first made/image", umask=0o027)
        yield f"the mode {before} of an image", (*run, mode("made/image"), made()), (0, b"ok 113 bytes\n", b"", kept, {"image": FIRST})


def links(program):
    """The file that a link leads to is replaced, and keeps its mode; a link that leads nowhere is a fault, and stays."""
    make({"image": OLD})
    os.chmod("made/image", 0o604)
    os.symlink("image", "made/link")
    run = ran_on(program, "compile first made/link")
    gave = (*run, os.readlink("made/link"), mode("made/image"), made())
    yield "a link", gave, (0, b"ok 113 bytes\n", b"", "image", 0o604, {"image": FIRST, "link": FIRST})
    make({})
    os.symlink("missing", "made/link")
    run = ran_on(program, "compile first made/link")
    gave = (*run, os.listdir("made"), os.readlink("made/link"))
    yield "a link that leads nowhere", gave, (3, b"", f"device made/link: {MISSING}\n".encode(), ["link"], "missing")


def no_room(program):
    """Where the bytes find no room the old image stands, and nothing else. An output that may not grow is as a full one."""
    for words in ("compile first made/image", "asm smallest made/image", "upgrade good made/image"):
        for before in ({}, {"image": OLD}):
            make(before)
            run = ran_on(program, words, preexec_fn=cut_off)
            wanted = (3, b"", b"device made/image: File too large\n", before)
            yield f"ifsvm {words}, on {len(before)} files without room", (*run, made()), wanted
    for words, told in (("disasm good", "standard output: File too large"), ("sim good", "S2")):
        make({})
        write("requests", b"status\n" * 9)
        with open("made/output", "wb") as output, open("requests", "rb") as requests:
            run = ran_on(program, words, stdin=requests, stdout=output, preexec_fn=cut_off)
        size = os.path.getsize("made/output")
        yield f"ifsvm {words}, to a file without room", (*run, size), (3, b"", f"device {told}\n".encode(), 50)


def closing(descriptors):
    return lambda: [os.close(it) for it in descriptors]


def closed_streams(program):
    """Where standard streams are closed an image is as ever, and what has no place is lost."""
    runs = (("compile first made/image", 0, b"ok 113 bytes\n", b"", {"image": FIRST}),
            ("asm seven made/image --quiet", 1, b"refused A3 line 8\n", b"", {}),
            ("compile missing made/image", 3, b"", f"device missing: {MISSING}\n".encode(), {}))
    for descriptors in ((0,), (1,), (2,), (0, 1), (0, 2), (1, 2), (0, 1, 2)):
        for words, status, output, error, after in runs:
            make({})
            run = ran_on(program, words, preexec_fn=closing(descriptors))
            wanted = (status, b"" if 1 in descriptors else output, b"" if 2 in descriptors else error, after)
            yield f"ifsvm {words}, without the streams {descriptors}", (*run, made()), wanted


def streams(program):
    """What is no regular file is written as it stands; the image stands whole where its line finds no place."""
    run = ran_on(program, "compile first /dev/stdout")
    yield "ifsvm compile first /dev/stdout", run, (0, FIRST + b"ok 113 bytes\n", b"")
    make({})
    os.mkfifo("made/pipe")
    got = []
    reader = threading.Thread(target=lambda: got.append(contents("made/pipe")))
    reader.start()
    run = ran_on(program, "asm smallest made/pipe")
    if run[0] != 0:
        os.close(os.open("made/pipe", os.O_WRONLY))
    reader.join()
    yield "ifsvm asm smallest PIPE", (*run, got, os.listdir("made")), (0, b"ok 61 bytes\n", b"", [SMALLEST], ["pipe"])
    for words, after in (
        ("compile first made/image", FIRST), ("asm smallest made/image", SMALLEST), ("upgrade good made/image", UPGRADED),
    ):
        make({})
        with open("/dev/full", "wb") as full:
            run = ran_on(program, words, stdout=full)
        told = f"device standard output: {FULL}\n".encode()
        yield f"ifsvm {words} > /dev/full", (*run, made()), (3, b"", told, {"image": after})


def starved(program):
    """Want of memory is told, and the old image stands."""
    for word, code in (("compile", "P0"), ("asm", "A0"), ("upgrade", "I0")):
        make({"image": OLD})
        run = ran_on(program, f"{word} longest made/image", preexec_fn=limited)
        yield f"ifsvm {word} with little memory", (*run, made()), (1, f"refused {code}\n".encode(), b"", {"image": OLD})


def there_and_back(program):
    """What compile, asm and upgrade write is verified or refused as it has to be, and is the same through disasm and asm."""
    for words, told in (
        ("compile first made/image", "ok stack 1 frames 1 cost 7 commands 1\n"),
        ("compile binding made/image", "ok stack 3 frames 1 cost 11 commands 1\n"),
        ("asm smallest made/image", "ok stack 0 frames 1 cost 3 commands 0\n"),
        ("asm eight made/image", "refused V2 head\n"),
        ("asm given made/image", "ok stack 1 frames 2 cost 7 commands 1\n"),
        ("upgrade good made/image", "ok stack 0 frames 1 cost 3 commands 0\n"),
        ("upgrade cheap made/image", "refused V12 head\n"),
    ):
        make({})
        ran_on(program, words)
        verified = ran_on(program, "verify made/image --quiet")
        yield f"ifsvm {words}, verified", verified[1:], (told.encode(), b"")
        with open("made/text", "wb") as text:
            shown = ran_on(program, "disasm made/image", stdout=text)
        back = ran_on(program, "asm made/text made/back")
        stand = made()
        size = len(stand.get("image", b""))
        gave = (shown, back, stand.get("back") == stand.get("image") is not None)
        yield f"ifsvm {words}, there and back", gave, ((0, b"", b""), (0, f"ok {size} bytes\n".encode(), b""), True)


def answers(program):
    """Each run's name, what it gave, and what it has to give."""
    for runs in (table, modes, links, no_room, closed_streams, streams, starved, there_and_back):
        yield from runs(program)
