"""Runs of a built program whose reports go to standard error: what is there, in which form, and that nothing else changes."""
import contextlib
import json
import os
import pty
import re

from running import contents, cut_off, limited, ran, ran_on, write

# a refused and an accepted file of each word that has the flags; what is written goes to /dev/null
FILES = (
    ("check twice", "check outside"),
    ("check bytes", "check binding"),
    ("check wordy", "check outside"),
    ("compile twice /dev/null", "compile first /dev/null"),
    ("compile one_over /dev/null", "compile none_told /dev/null"),
    ("graph twice", "graph outside"),
    ("asm seven /dev/null", "asm smallest /dev/null"),
    ("asm bytes /dev/null", "asm loose /dev/null"),
    ("verify cheap", "verify good"),
    ("verify empty", "verify good"),
    ("disasm empty", "disasm cheap"),
    ("upgrade empty /dev/null", "upgrade good /dev/null"),
    ("sim cheap", "sim good"),
    ("sim empty", "sim good"),
)
# words whose file is standard input, if it is `-`
OF_INPUT = ("check", "compile", "graph", "asm", "verify", "disasm", "upgrade")
ESCAPE = b"\x1b"
# the members that every report in JSON has
MEMBERS = {"file", "severity", "code", "message", "expected", "related"}
TRY = "\n\nFor more information, try '--help'.\n"


def file_of(words):
    return words.split()[1]


def flagged(words, flag):
    return f"{words} {flag}"


def is_text(error, name):
    """Whether an error is a report on a file as text: its name, a place if there is one, and what is wrong."""
    return re.match(rf"{re.escape(name)}(:\d+:\d+)?: error: \S.*\n", error.decode()) is not None and error.endswith(b"\n")


def objects(error):
    """The objects of reports in JSON, one a line."""
    with contextlib.suppress(ValueError):
        found = [json.loads(line) for line in error.decode().splitlines()]
        if error.endswith(b"\n") and all(isinstance(it, dict) for it in found):
            return found
    return f"no objects: {error!r}"


def refusal(output):
    """The code of a refused file, by standard output."""
    return output.decode().split()[1]


def said(found):
    """The file, severity and code of each object that has a message."""
    if not isinstance(found, list):
        return found
    return [(it.get("file"), it.get("severity"), it.get("code")) for it in found if it.get("message")]


def forms(program):
    """Each form of the report on a refused file; on an accepted one there is none. Status and standard output stay the same."""
    for refused, accepted in FILES:
        status, output, error = ran_on(program, refused)
        yield f"ifsvm {refused}: its report", (status, is_text(error, file_of(refused)), ESCAPE in error), (1, True, False)
        quiet = ran_on(program, flagged(refused, "--quiet"))
        yield f"ifsvm {refused} --quiet", quiet, (status, output, b"")
        *answer, error = ran_on(program, flagged(refused, "--json"))
        wanted = (status, output), [(file_of(refused), "error", refusal(output))], False
        yield f"ifsvm {refused} --json", (tuple(answer), said(objects(error)), ESCAPE in error), wanted
        status, output, error = ran_on(program, accepted)
        yield f"ifsvm {accepted}: its reports", (status, error), (0, b"")
        for flag in ("--quiet", "--json"):
            yield f"ifsvm {accepted} {flag}", ran_on(program, flagged(accepted, flag)), (status, output, b"")


def explained(program):
    """`explain` has the report as text."""
    status, output, error = ran_on(program, "explain cheap missing")
    yield "ifsvm explain cheap missing", (status, output, is_text(error, "cheap")), (1, b"refused V12 head\n", True)


def exclusive(program):
    """The flags exclude each other, and other words have none of them."""
    for words in ("check", "verify", "sim"):
        usage = f"Usage: ifsvm {words} --quiet <{'FILE' if words == 'check' else 'IMAGE'}>"
        told = f"error: the argument '--quiet' cannot be used with '--json'\n\n{usage}{TRY}"
        yield f"ifsvm {words} with both flags", ran_on(program, f"{words} good --quiet --json"), (2, b"", told.encode())
    for words in ("serve good nowhere --quiet", "explain good nowhere --json", "send nowhere status --quiet"):
        status, output, error = ran_on(program, words)
        yield f"ifsvm {words}", (status, output, b"unexpected argument" in error), (2, b"", True)


def from_input(program):
    """Standard input is read as the file would be, and the report has its name."""
    for refused, accepted in FILES:
        for words in (refused, accepted):
            word, name, *rest = words.split()
            if word not in OF_INPUT:
                continue
            given = contents(name)
            there, here = ran_on(program, words), ran(program, word, "-", *rest, input=given)
            yield f"ifsvm {word} - of {name}", here[:2], there[:2]
            is_named = is_text(here[2], "standard input") if there[0] else here[2] == b""
            yield f"ifsvm {word} - of {name}: its report", is_named, True
    too_large = b"device standard input: too large\n"
    for word in ("check", "verify"):
        yield f"ifsvm {word} - of too much", ran(program, word, "-", input=bytes(16_777_217)), (3, b"", too_large)
    folder = os.open("folder", os.O_RDONLY)
    run = ran(program, "check", "-", stdin=folder)
    os.close(folder)
    yield "ifsvm check - < folder", run, (3, b"", b"device standard input: Is a directory\n")
    write("-", b"state a { }\n")
    yield "ifsvm check ./-", ran_on(program, "check ./-"), (0, b"ok 0 interfaces 0 tests 0 commands 1 states\n", b"")
    os.remove("-")


def to_terminal(program, words, environment, stream="stderr"):
    """The status and output of a run of which one stream is a terminal, and what the terminal got."""
    terminal, end = pty.openpty()
    status, output, _ = ran_on(program, words, env=environment, **{stream: end})
    os.close(end)
    parts = []
    # the end of a terminal that nobody holds is an error
    with contextlib.suppress(OSError):
        while part := os.read(terminal, 65_536):
            parts.append(part)
    os.close(terminal)
    return status, output, b"".join(parts)


def colours(program):
    """Colours go to a terminal alone, and only if it is not dumb, NO_COLOR is empty or not set, and CLICOLOR is not 0."""
    for refused, accepted in FILES:
        status, output, _ = ran_on(program, refused)
        for environment, flag, wanted in (
            ({}, "", True),
            ({"NO_COLOR": ""}, "", True),
            ({"NO_COLOR": "1"}, "", False),
            ({"NO_COLOR": "no"}, "", False),
            ({"TERM": "dumb"}, "", False),
            ({"TERM": "dumber"}, "", True),
            ({"CLICOLOR": "0"}, "", False),
            ({"CLICOLOR": "1", "TERM": "xterm"}, "", True),
            ({}, "--json", False),
        ):
            *answer, told = to_terminal(program, flagged(refused, flag), environment)
            name = f"ifsvm {refused} {flag} at a terminal with {environment}"
            yield name, (answer, told != b"", ESCAPE in told), ([status, output], True, wanted)
        told = to_terminal(program, flagged(refused, "--quiet"), {})
        yield f"ifsvm {refused} --quiet at a terminal", told, (status, output, b"")
        told = to_terminal(program, accepted, {})
        yield f"ifsvm {accepted} at a terminal", told, (*ran_on(program, accepted)[:2], b"")


def excerpts(program):
    """At a terminal an analysis shows the lines of the file that it is on, with colours where reports have them."""
    write("claimed", b"never from a to b\nnever rest in b while em0.link.down\n")
    write("lit", b"state a {\n\tif em0.link.up && em0.link.down set-state b\n}\nstate b { }\n")
    for words, shown in (
        ("prove moves claimed", b"claimed:1:1: warning: broken, by these requests: `a` is left, `b` is entered\n"
         b"    1 | never from a to b\n      | ^^^^^^^^^^^^^^^^^\n    link em0 up\nline 2: holds\n"),
        ("lint lit", b"    2 | \tif em0.link.up && em0.link.down set-state b\n"),
        ("compare moves lit", b"    1 | state a {\n"),
    ):
        plain = told_at(program, words, {"TERM": "dumb"})
        yield f"ifsvm {words} at a terminal", (shown in plain, ESCAPE in plain), (True, False)
        coloured = told_at(program, words, {})
        without = re.sub(rb"\x1b\[[0-9;]*m", b"", coloured)
        yield f"ifsvm {words} at a terminal, with colours", (without, coloured != plain), (plain, True)
        for flag in ("--json", "--quiet"):
            told = told_at(program, flagged(words, flag), {})
            yield f"ifsvm {words} {flag} at a terminal", told, ran_on(program, flagged(words, flag))[1]
    yield "ifsvm prove at a terminal", told_at(program, "prove moves claimed", {"NO_COLOR": "1"}).endswith(b"\nline 2: holds\n"), True


def told_at(program, words, environment):
    """What a terminal gets that is the standard output of a run. It ends lines in its own way."""
    return to_terminal(program, words, environment, "stdout")[2].replace(b"\r\n", b"\n")


def closed():
    os.close(2)


def nowhere(program):
    """Where standard error takes nothing the status and standard output are the same."""
    for refused, _ in FILES:
        status, output, _ = ran_on(program, refused)
        with open("/dev/full", "wb") as full:
            yield f"ifsvm {refused} 2> /dev/full", ran_on(program, refused, stderr=full)[:2], (status, output)
        yield f"ifsvm {refused} 2>&-", ran_on(program, refused, preexec_fn=closed)[:2], (status, output)
        reader, writer = os.pipe()
        os.close(reader)
        yield f"ifsvm {refused}, with an error that nobody reads", ran_on(program, refused, stderr=writer)[:2], (status, output)
        os.close(writer)
        with open("told", "wb") as file:
            file.write(b"x" * 40)
            file.flush()
            run = ran_on(program, refused, stderr=file, preexec_fn=cut_off)
        yield f"ifsvm {refused}, with an error that may not grow", (*run[:2], os.path.getsize("told")), (status, output, 50)
    os.remove("told")


def refusals_of_analyses(program):
    """What an analysis refuses is an object on standard output in JSON, and nothing is on standard error."""
    for words, given, code in (
        ("lint twice --json", b"", "P10"),
        ("lint bytes --json", b"", "P1"),
        ("prove twice - --json", b"", "P10"),
        ("prove one_over - --json", b"", "G4"),
        ("prove moves - --json", b"never from\n", "Q1"),
        ("compare twice moves --json", b"", "P10"),
        ("compare moves wordy --json", b"", "P5"),
    ):
        status, output, error = ran_on(program, words, input=given)
        found = objects(output)
        wanted = (1, [("-" if code == "Q1" else found[0].get("file"), "error", code)], b"")
        yield f"ifsvm {words}", (status, said(found), error), wanted
        yield f"ifsvm {words}: its members", MEMBERS <= found[0].keys(), True
    for words in ("lint longest --json", "prove longest moves --json", "compare longest moves --json", "compare moves longest --json"):
        status, output, error = ran_on(program, words, preexec_fn=limited)
        yield f"ifsvm {words}, with little memory", (status, said(objects(output)), error), (1, [("", "error", "P0")], b"")


def unused(program):
    """A definition that no text uses has a warning, with the macro that may be meant."""
    write("macros", b'state a { if $wan.link.up run "x" }\n')
    text = (
        b"-D:5: warning: the policy has no `$wna`\n   -D | wna=em7\n      |     ^^^\n%b\n"
    )
    accepted = b"ok 1 interfaces 0 tests 1 commands 1 states\n"
    near = text % b"hint: did you mean `wan`?"
    yield "ifsvm check macros, misspelt", ran(program, "check", "macros", "-D", "wan=em0", "-D", "wna=em7"), (0, accepted, near)
    far = text.replace(b"wna", b"z").replace(b"-D:5", b"-D:3").replace(b"|     ^", b"|   ^")
    far %= b"hint: the definition changes nothing: leave it out"
    yield "ifsvm check macros, too much", ran(program, "check", "macros", "-D", "wan=em0", "-D", "z=em7"), (0, accepted, far)
    # it is used by another definition, though that is not used
    status, _, error = ran(program, "check", "macros", "-D", "wan=em0", "-D", "y='$z'", "-D", "z=em7")
    yield "ifsvm check macros, used by another", (status, error.count(b"warning: "), b"`$y`" in error), (0, 1, True)
    yield "ifsvm check macros --quiet", ran(program, "check", "macros", "-D", "wan=em0", "-D", "z=em7", "--quiet"), (0, accepted, b"")
    status, output, error = ran(program, "compile", "macros", "/dev/null", "-D", "wan=em0", "-D", "wna=em7", "--json")
    found = objects(error)
    yield "ifsvm compile macros --json", (status, said(found), found[0]["definition"]), (0, [("macros", "warning", "unused")], "wna")


def cut(program):
    """Of a line that is long or binary a part is shown, with its place."""
    write("long_command", b"state a { run " + b"x" * 100_000 + b" }\n")
    write("binary", b"state a { }\n" + bytes(range(128, 256)) * 8)
    for name in ("long_command", "binary"):
        _, _, error = ran_on(program, f"check {name}").texts()
        lines = error.split("\n")
        yield f"ifsvm check {name}: the widest line", max(map(len, lines)) < 180, True
        yield f"ifsvm check {name}: carets", lines[2].endswith("^"), True


def closed_pipe(program):
    """A program ends quietly if nobody reads what it prints."""
    quiet = ("check outside", "--help", "verify good", "lint outside --json")
    for words, given in (*((it, b"") for it in quiet), ("sim good", b"take\n")):
        reader, writer = os.pipe()
        os.close(reader)
        yield f"ifsvm {words}, with output that nobody reads", ran_on(program, words, stdout=writer, input=given), (3, b"", b"")
        os.close(writer)


def answers(program):
    """Each run's name, what it gave, and what it has to give."""
    for runs in (forms, explained, exclusive, from_input, colours, excerpts, nowhere, refusals_of_analyses, unused, cut, closed_pipe):
        yield from runs(program)
