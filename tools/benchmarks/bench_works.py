"""The works that are measured: what a program is given, and what tells its answer from a wrong one."""
import os

import bench_inputs as inputs
from bench_measures import Task, write
from bench_programs import TOP

EXAMPLE = os.path.join(TOP, "examples", "gateway", "policy")
REQUESTS = 200_000
TICKS = 100_000
EVENTS = 200
# requests of the two sessions of which the difference is counted
FEW, MANY = 1_000, 6_000
# starts of lines that a session has where a request is not served
UNSERVED = ("fault", "refused", "busy", "stale", "backwards", "nosuch")


class Work:
    """A line of the tables: its task, its unit and how many of it, and the bytes of its text or image, if it is of one.
    Where two smaller tasks and the units between them are given, their difference is counted."""

    def __init__(self, what, task, unit="", amount=0, size=0, pair=None):
        self.what, self.task, self.unit, self.amount = what, task, unit, amount
        self.size, self.pair = size, pair


def served(count):
    def is_right(answer):
        lines = answer.splitlines()
        return len(lines) == count and not any(line.startswith(UNSERVED) for line in lines)

    return is_right


def session(image, requests):
    """A session on the image of a file."""
    return Task(["sim", image], "".join(f"{line}\n" for line in requests).encode(), served(len(requests)))


def session_by_hexadecimal(image, requests):
    given = image.hex() + "\n" + "".join(f"{line}\n" for line in requests)
    return Task([], given.encode(), served(len(requests)))


def start():
    return Task(["--version"], b"", "ifsvm 0.2.0\n".__eq__)


def of_file(word, file):
    """A word on a file, which is good: a policy without a note, an accepted image, an image or a text of one."""
    written = ["image"] if word in ("compile", "asm") else []
    beginning = {"disasm": "ifsv 1\n", "verify": "ok stack "}.get(word, "ok ")
    return Task([word, file, *written], b"", lambda answer: answer.startswith(beginning))


def of_text(what, word, name, text, unit, amount):
    """The work of a word on a text, which is written to the file of that name."""
    data = text.encode()
    return Work(f"{word}, {what.format(len(data))}", of_file(word, write(name, data)), unit, amount, len(data))


def of_image(what, word, name, unit, amount):
    """The work of a word on the image of a file."""
    return Work(f"{word}, {what}", of_file(word, name), unit, amount, os.path.getsize(name))


def sessions(program):
    """The works of sessions, of which the instructions that are executed are told by a program."""
    requests, few, many = [inputs.gateway_requests(count) for count in (REQUESTS, FEW, MANY)]
    image = write("gateway", inputs.gateway())
    yield Work(f"session on a file, {REQUESTS:,} requests", session(image, requests), "a request", REQUESTS,
               pair=(session(image, few), session(image, many), MANY - FEW))
    small, large = [session_by_hexadecimal(inputs.gateway(), lines) for lines in (few, many)]
    yield Work(f"session by hexadecimal, {REQUESTS:,} requests", session_by_hexadecimal(inputs.gateway(), requests),
               "a request", REQUESTS, pair=(small, large, MANY - FEW))
    image = write("heavy", inputs.heavy())
    task, small, large = [session(image, inputs.links(count)) for count in (EVENTS, 1, 9)]
    executed = task.executed(program)
    yield Work(f"session, {EVENTS} events of {executed // EVENTS:,}", task, "an executed instruction", executed,
               pair=(small, large, large.executed(program) - small.executed(program)))


def policies():
    """The works on texts of policies."""
    with open(EXAMPLE) as file:
        example = file.read()
    lines = example.count("\n")
    example_of = "the gateway's policy of {:,} bytes"
    yield of_text(example_of, "check", "example", example, "a line", lines)
    blocks = inputs.MOST_BLOCKS
    yield of_text("a policy of {:,} bytes, 11,730 tokens", "check", "policy", inputs.policy(blocks), "a token", 11_730)
    yield of_text(example_of, "compile", "example", example, "a line", lines)
    text = inputs.full_policy()
    yield of_text("{:,} bytes, 8,189 instructions", "compile", "full", text, "an instruction", 8_189)
    for standings, what in ((1, "different"), (2, "513 twice")):
        text = inputs.conditions(standings)
        what = f"{{:,}} bytes, 1,026 conditions, {what}"
        yield of_text(what, "compile", f"conditions{standings}", text, "a condition", 1_026)


def images():
    """The works on images and their texts."""
    what, amount = "{:,} bytes, 8,192 instructions", 8_192
    name = write("wide", inputs.wide(8))
    size = os.path.getsize(name)
    yield of_image(what.format(size), "verify", name, "a verified instruction", amount)
    yield of_text(what, "asm", "text", inputs.assembly(), "an instruction", amount)
    yield of_image(what.format(size), "disasm", name, "an instruction", amount)


def listings():
    """The works on texts of full images and on these images, by how far apart the escapes in their texts are."""
    kinds = {
        f"escapes {min(inputs.DENSE)} to {max(inputs.DENSE)} apart": inputs.escaped(inputs.DENSE),
        f"escapes {min(inputs.SPARSE)} to {max(inputs.SPARSE)} apart": inputs.escaped(inputs.SPARSE),
        "no escapes": inputs.plain,
        "short lines": inputs.brief,
    }
    for number, (kind, words_of) in enumerate(kinds.items()):
        text = inputs.full_listing(words_of)
        lines = text.count("\n")
        yield of_text(f"{{:,}} bytes, {kind}", "asm", f"listing{number}", text, "a line", lines)
        name = write(f"full{number}", inputs.full_image(words_of))
        yield of_image(f"{os.path.getsize(name):,} bytes, {kind}", "disasm", name, "a line", lines)


def ticks(tests):
    """The work of ticks at which none of so many active tests is due."""
    image = write(f"waiting{tests}", inputs.waiting(tests))
    task, small, large = [session(image, inputs.waiting_requests(tests, count)) for count in (TICKS, FEW, MANY)]
    what = f"session, {TICKS:,} ticks, {tests} idle test{'' if tests == 1 else 's'}"
    return Work(what, task, "a tick", TICKS, pair=(small, large, MANY - FEW))


def uses():
    """The work of a text of macros that are each another one, of 16,384 tokens."""
    text = inputs.uses(inputs.MOST_BYTES)
    lines = text.count("x = '$y'\n")
    return of_text("{:,} bytes of x = '$y'", "check", "uses", text, "a line", lines)


def all_works(program):
    """All works of the tables, the ticks and the text of macros last."""
    return [*sessions(program), *policies(), *images(), *listings(), *[ticks(tests) for tests in (1, inputs.MOST_TESTS)], uses()]
