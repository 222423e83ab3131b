"""Sessions of a built program whose refused lines are explained: what is on standard error, and that the replies stay as they are."""
import contextlib
import json
import os
import pty

from running import ran, ran_on, write

POLICY = b'state a { if em0.link.up && carp0.link.down || "ping -c 1 h" every 10 run "x" }\n'
# a line, its reply, and the report on it: the columns of its place, what it says behind `error: `, and its hint
FIRST = "expected `link`, `result`, `tick`, `take`, `status`, `trace` or `stop`"
LINES = [
    ("lnk em0 up", "C1", (1, 3), "`lnk` cannot stand here; expected `link`", "did you mean `link`?"),
    ("link em0 uq", "C1", (10, 2), "`uq` cannot stand here; expected `up`, `down` or `unknown`", "did you mean `up`?"),
    ("link em0 open", "C1", (10, 4), "`open` cannot stand here; expected `up`, `down` or `unknown`", None),
    ("link em0", "C1", (9, 0), "the line ends too early; expected `up`, `down` or `unknown`", None),
    ("link", "C1", (5, 0), "the line ends too early; expected the name of an interface", "the image has `em0` and `carp0`"),
    ("result 0 1 okay", "C1", (12, 4), "`okay` cannot stand here; expected `ok` or `fail`", None),
    ("result 0 1", "C1", (11, 0), "the line ends too early; expected `ok` or `fail`", None),
    ("result 0", "C1", (9, 0), "the line ends too early; expected a number", None),
    ("result x 1 ok", "C1", (8, 1), "`x` cannot stand here; expected a number", None),
    ("tick", "C1", (5, 0), "the line ends too early; expected a number", None),
    ("tick 5s", "C1", (6, 2), "`5s` cannot stand here; expected a number", "digits alone: `5`"),
    ("tick 5 6", "C1", (8, 1), "a request ends before this; expected the end of the line", "leave the rest of the line out"),
    ("take 3", "C1", (6, 1), "a request ends before this; expected the end of the line", "leave the rest of the line out"),
    ("statsu", "C1", (1, 6), "`statsu` cannot stand here; expected `take`, `status`, `trace` or `stop`", "did you mean `status`?"),
    ("tik", "C1", (1, 3), f"`tik` cannot stand here; {FIRST}", "did you mean `tick`?"),
    ("what is it", "C1", (1, 4), f"`what` cannot stand here; {FIRST}", None),
    ("", "C1", (1, 0), f"an empty line is no request; {FIRST}", None),
    ("link  em0 UP", "C1", (6, 1), "one space separates the words of a request", "write `link em0 up`"),
    ("STATUS", "C1", (1, 6), "the words of a request are in lower case", "write `status`"),
    ("take\r", "C1", (5, 4), "a carriage return is no part of a request", "write `take`"),
    ("reload", "C1", (1, 6), "`reload` is for a daemon, and a session keeps its image", None),
    ('test "ping -c 1 h" fail', "C1", (1, 4), "`test` begins a line with names", "`sim --names` takes such lines"),
    ("x" * 300, "C2", None, "the line has 300 bytes, and a request at most 256", None),
    ("tick 18446744073709551616", "C3", (6, 20), "a number is at most 18446744073709551615", None),
    ("result 65536 1 ok", "C3", (8, 5), "the number of a test is at most 65535", None),
    ("result 0 18446744073709551616 ok", "C3", (10, 20), "a number is at most 18446744073709551615", None),
    ("link em1 up", "C4", (6, 3), "the image has no interface `em1`", "did you mean `em0`?"),
    ("link eth7 up", "C4", (6, 4), "the image has no interface `eth7`", "the image has `em0` and `carp0`"),
    ('link "em0" up', "C4", (6, 5), 'the image has no interface `"em0"`',
     "names have no quotes here; `sim --names` takes names in quotes"),
]
# the same for lines with names
NAMED = [
    ("wait 5s", "C1", (6, 2), "this is no wait; expected a number of seconds, from 1 to 604800", "digits alone: `5`"),
    ('test "ping -c 1 h" ok', "C1", (22, 0), "the line ends too early; expected `pass` or `fail`", None),
    ('test "png" fail', "C1", (6, 5), "the image has no test with this text", "the text of a test is quoted as `explain` quotes it"),
    ("tik", "C1", (1, 3), f"`tik` cannot stand here; {FIRST.replace(' or `stop`', ', `stop`, `test` or `wait`')}",
     "did you mean `tick`?"),
]
# lines that are no faults
GOOD = ["link em0 up", "tick 5", "result 7 1 ok", "result 0 9 ok", "take", "status", "tick 4", "link carp0 unknown"]


def report(number, line, place, said, hint):
    """The report on a line of standard input."""
    column, length = place
    shown = line.replace("\r", "\\x0d")
    text = f"standard input:{number}:{column}: error: {said}\n{number:>5} |{' ' if shown else ''}{shown}\n"
    text += f"{' ' * 6}| {' ' * (column - 1)}{'^' * max(length, 1)}\n"
    return text + (f"hint: {hint}\n" if hint else "")


def told(cases, number=1):
    """The reports on lines, in order."""
    return "".join(report(number + it, line, *rest) for it, (line, _, *rest) in enumerate(cases))


def explained(program):
    """Each line has its report, with its number, and all lines have the replies that they have without reports."""
    for words, cases in (("sim image --explain", LINES), ("sim image --names --explain", NAMED)):
        cases = [case for case in cases if case[2]]
        for line, code, *rest in cases:
            ran_once = ran_on(program, words, input=f"take\n{line}\n".encode()).texts()
            yield f"ifsvm {words}: {line}", ran_once, (0, f"empty\nfault {code}\n", report(2, line, *rest))
        given = "".join(f"{line}\n" for line, *_ in cases).encode()
        replies = "".join(f"fault {code}\n" for _, code, *_ in cases)
        yield f"ifsvm {words} on all lines", ran_on(program, words, input=given).texts(), (0, replies, told(cases))
    good = "".join(f"{line}\n" for line in GOOD).encode()
    explained, plain = (ran_on(program, words, input=good) for words in ("sim image --explain", "sim image"))
    yield "ifsvm sim image --explain, good lines", explained, plain


def long_lines(program):
    """The report on a line that is too long shows a part of it."""
    for length in (257, 300, 100_000):
        status, output, error = ran_on(program, "sim image --explain", input=b"x" * length).texts()
        first, excerpt, *_ = error.split("\n")
        wanted = f"standard input:1:257: error: the line has {length} bytes, and a request at most 256"
        yield f"ifsvm sim image --explain on {length} bytes", (status, output, first, len(excerpt) < 180), (0, "fault C2\n", wanted, True)


def forms(program):
    """Without --explain there is no report; --quiet writes none, and --json an object for each."""
    given = b"lnk em0 up\ntake\ntick\n"
    replies = b"fault C1\nempty\nfault C1\n"
    yield "ifsvm sim image", ran_on(program, "sim image", input=given), (0, replies, b"")
    yield "ifsvm sim image --explain --quiet", ran_on(program, "sim image --explain --quiet", input=given), (0, replies, b"")
    status, output, error = ran_on(program, "sim image --explain --json", input=given)
    found = [json.loads(line) for line in error.splitlines()]
    places = [(it["file"], it["severity"], it["code"], it["line"], it["column"], it["expected"]) for it in found]
    wanted = [("-", "error", "C1", 1, 1, ["`link`"]), ("-", "error", "C1", 3, 5, ["a number"])]
    yield "ifsvm sim image --explain --json", (status, output, places), (0, replies, wanted)


def typed(program, words, text):
    """The status and both outputs of a run whose standard input is a terminal, at which a text is typed."""
    terminal, end = pty.openpty()
    os.write(terminal, text + b"\x04")
    with contextlib.closing(os.fdopen(terminal, "rb", 0)):
        done = ran(program, *words.split(), stdin=end)
        os.close(end)
    return done.texts()


def at_a_terminal(program):
    """A person who types lines gets reports, and without words the help."""
    yield "ifsvm sim image at a terminal", typed(program, "sim image", b"tik\nstop\n"), (0, "fault C1\nbye\n", told(LINES[14:15]))
    yield "ifsvm sim image --quiet at a terminal", typed(program, "sim image --quiet", b"tik\nstop\n"), (0, "fault C1\nbye\n", "")
    yield "ifsvm at a terminal", typed(program, "", b""), ran_on(program, "--help").texts()


def answers(program):
    """Each run's name, what it gave, and what it has to give."""
    write("explained", POLICY)
    yield "ifsvm compile explained image", ran_on(program, "compile explained image --quiet").status, 0
    for runs in (explained, long_lines, forms, at_a_terminal):
        yield from runs(program)
