"""Jobs for the library by chance, from a seed, and what built programs give of them. run_library compares the library with it, and
run_page the module of the page. A job is a word, an input, definitions or none, and request lines, claims or another policy."""
import collections
import os
import random
import re
import tempfile
from itertools import zip_longest
from pathlib import Path

import made_policies
from changed_bytes import ANYWHERE, Changer, ImageChanger, Places
from changed_texts import BY_HAND, PolicyChanger, TextChanger
from hostile_sources import Sources, quietly
from image_reader import Refused
from plain_core import Core
from plain_policy import LINKS, Policy
from running import EXAMPLES, TOP, Wrong, absolute, defining, policies_of_examples, ran, workers, write
from vector_files import cases_in

SEED, JOBS, MOST_TOLD = "library jobs", 5_500, 20
# the words by their numbers in the library, and then those of other functions
WORDS = ("check", "compile", "verify", "disasm", "asm", "upgrade", "graph")
CALLS = (*WORDS, "sim", "lint", "prove", "compare")
ON_POLICIES = ("check", "compile", "graph", "lint", "prove", "compare")
# calls with another file, and its name in reports
OTHER_FILES = {"prove": "claims", "compare": "new"}
WRITING = ("compile", "asm", "upgrade")
GOOD, REFUSED, NO_DEFINITIONS = 0, 1, 5
# further statuses of the program: of a command line, and of an analysis
WRONG_WORDS, DEFECT, UNDECIDED = 2, 1, 4
MACROS = re.compile(rb"\$(\w+)|^(\w+) *=", re.M)
VALUES = ("em0", '"em0"', "'a b'", "em0.link.up", "( em0.link.up || em1.link.up )", '"t" every 5', "em0.link.up &&", "", "$x",
          "x = y", "{", "'a", "\u00fc", "\x1b[31m", "run a\n run b", "5", "\\", "x" * 1_025)
NO_DEFINITION = (b"", b"l", b"=x", b"1=x", b"a b=c", b"\xffl=x", b"l=\xff", b"-l=x")
ODD_LINES = ("status", "trace", "take", "stop", "link", "link nowhere up", "tick", "tick 18446744073709551616", "result 0 0 ok",
             "", " ", "\u00fc", "take it", "result 65536 1 fail", "tick 007", "x" * 5_000)
# what one function of the library gives
Result = collections.namedtuple("Result", "status text file")


class Job(collections.namedtuple("Job", "number call input definitions beside")):
    """A word, an input, definitions, and request lines, claims or another policy."""

    def all_definitions(self):
        """The definitions as the library takes them."""
        return b"".join(it + b"\0" for it in self.definitions)


class AssemblyChanger(TextChanger):
    """Changes an assembly text."""

    def change(self, times):
        for _ in range(times):
            self.data = self.data or b"s"
            self.chance.choice(IN_ASSEMBLY)(self)
        return self.data

    def number(self):
        """Another number in the place of one."""
        place, end = self.chance.choice([found.span() for found in re.finditer(rb"\d+", self.data)] or [(0, 0)])
        self.replaced(place, end - place, self.chance.choice((b"0", b"1", b"007", b"65535", b"65536", b"300000", b"-1", b"")))


IN_ASSEMBLY = (*ANYWHERE, *[TextChanger.lines, TextChanger.words, TextChanger.copy_word, AssemblyChanger.number] * 4)


class Maker:
    """Makes the jobs of a seed. A built program compiles and disassembles what some are made of."""

    def __init__(self, seed, program, room):
        self.seed, self.program, self.sources = seed, program, Sources(seed, program, room)
        self.images = [it for group in self.sources.images for it in group]
        self.old = [it for it in self.images if it[0][4] == 1]
        self.listings, path = [], os.path.join(room, "listed")
        for data, _ in self.images:
            write(path, data)
            self.listings.append(quietly(program, "disasm", path)[1].encode())
        self.claims = list(claims())
        self.sessions = [(self.sources.compiled(policy), requests) for policy, requests in sessions()]

    def job(self, number):
        """The job of a number."""
        chance, call = random.Random(f"{self.seed} {number}"), CALLS[number % len(CALLS)]
        if call == "prove":
            return Job(number, call, *self.claimed(chance))
        if call == "compare":
            policy, given = self.policy(chance)
            return Job(number, call, policy, given, PolicyChanger(chance, policy).change(chance.choice((0, 1, 1, 2))))
        if call in ON_POLICIES:
            return Job(number, call, *self.policy(chance), b"")
        # no definition of a good form changes what is said of an image or an assembly text
        definitions = [b"l=em0", "m=\u00fc".encode()] if chance.randrange(8) == 0 else []
        if call == "sim":
            image, requests = self.session(chance)
            return Job(number, call, image, [], requests)
        return Job(number, call, self.assembly(chance) if call == "asm" else self.image(chance, call), definitions, b"")

    def policy(self, chance):
        """A policy text, and definitions."""
        kind = chance.randrange(16)
        if kind < 5:
            maker = made_policies.Maker(chance)
            return maker.text().encode(), [f"{name}={value}".encode() for name, value in maker.given]
        if kind == 5:
            return chance.choice(BY_HAND)[1].encode(), definitions(chance, b"")
        text = chance.choice(chance.choice((self.sources.texts, self.sources.made_texts)))
        text = PolicyChanger(chance, text).change(chance.choice((0, 1, 1, 2, 3)))
        return text, definitions(chance, text) if chance.randrange(3) == 0 else []

    def claimed(self, chance):
        """A policy text, definitions, and claims."""
        policy, lines = chance.choice(self.claims)
        if chance.randrange(8) == 0:
            lines = chance.choice(self.claims)[1]
        if chance.randrange(6) == 0:
            policy = PolicyChanger(chance, policy).change(1)
        lines = TextChanger(chance, lines).change(chance.choice((0, 0, 1, 1, 2)))
        return policy, definitions(chance, policy) if chance.randrange(8) == 0 else [], lines

    def image(self, chance, call):
        """An image for a word: as it was made, or changed, or made by hand with a fault."""
        kind = chance.randrange(8)
        if kind < 2:
            return chance.choice(self.sources.by_hand)
        data, places = chance.choice(self.old if call == "upgrade" else chance.choice(self.sources.images))
        return data if kind < 5 else ImageChanger(chance, data, places).change(chance.choice((1, 1, 2, 3)))

    def assembly(self, chance):
        return AssemblyChanger(chance, chance.choice(self.listings)).change(chance.choice((0, 1, 1, 2, 3)))

    def session(self, chance):
        """An image, and request lines."""
        kind = chance.randrange(8)
        if kind < 4:
            image, requests = self.made_session(chance)
        elif kind < 5:
            image, requests = chance.choice(self.sessions)
        else:
            image = self.image(chance, "sim")
            requests = lines_for(chance, image)
        if chance.randrange(6) == 0 and requests:
            changer = Changer(chance, requests)
            chance.choice(ANYWHERE)(changer)
            requests = changer.data
        return image, requests

    def made_session(self, chance):
        """The image of a policy by chance, and request lines that go on from what a plain core replies."""
        while True:
            maker = made_policies.Maker(chance)
            text = maker.text()
            core = Core(Policy(text, maker.given))
            if core.room <= 64:
                break
        requests, _ = made_policies.requests(chance, core, 40)
        write("of_session", text.encode())
        write("of_session.image", b"")
        quietly(self.program, "compile", "of_session", "of_session.image", *defining(maker.given))
        return Path("of_session.image").read_bytes(), "".join(f"{line}\n" for line in requests).encode()


def definitions(chance, text):
    """Definitions by chance, most of macros that a text has."""
    names = [(used or defined).decode() for used, defined in MACROS.findall(text)] + ["x", "m0"]
    made = [f"{chance.choice(names)}={chance.choice(VALUES)}".encode() for _ in range(chance.choice((0, 1, 1, 1, 2, 5)))]
    return made + [chance.choice(NO_DEFINITION)] if chance.randrange(10) == 0 else made


def claims():
    """Policies with claims on them: those of the examples, and those of vectors/claims.txt."""
    for path in sorted(EXAMPLES.glob("*/claims")):
        yield (path.parent / "policy").read_bytes(), path.read_bytes()
    for _, sections in cases_in("claims.txt"):
        texts = {section.word: section.text() for section in sections}
        if "policy" in texts and "claims" in texts:
            yield texts["policy"], texts["claims"]


def sessions():
    """The policies of the examples with their request lines."""
    for path in policies_of_examples():
        yield path.read_bytes(), (path.parent / "requests").read_bytes()


def lines_for(chance, image):
    """Request lines by chance for an image, which may be none."""
    try:
        names = [image[place : place + length].decode() for place, length in Places(image).texts[:8]]
    except (Refused, UnicodeDecodeError):
        names = []
    now, lines = 0, []
    for _ in range(chance.choice((0, 1, 5, 20, 60))):
        now += chance.choice((0, 1, 5, 600))
        link = f"link {chance.choice(names or ['em0'])} {chance.choice(LINKS)}"
        result = f"result {chance.randrange(4)} {chance.randrange(1, 9)} {chance.choice(('ok', 'fail'))}"
        lines.append(chance.choice((*[link] * 3, *[f"tick {now}", result] * 2, "take", chance.choice(ODD_LINES))))
    return "\n".join(lines).encode() + chance.choice((b"", b"\n", b"\nstop", b"\r\n"))


class Runner:
    """Runs built programs on jobs, in the present folder."""

    def __init__(self, programs):
        self.programs = programs

    def wanted(self, job):
        """What the functions of the library have to give of a job: what a program prints and writes."""
        program = self.programs[job.number // len(CALLS) % len(self.programs)]
        status, output, report, made = self.said(program, job)
        if status == WRONG_WORDS:
            return [Result(NO_DEFINITIONS, b"", b"")] * (2 if job.call in WORDS else 1)
        if job.call in WORDS:
            return [Result(status, output, made), Result(GOOD, report, b"")]
        if job.call in OTHER_FILES:
            return [analysis(status, output)]
        if job.call == "lint" and status != REFUSED:
            # the last line counts the questions
            output = output[: output.rstrip(b"\n").rfind(b"\n") + 1]
        return [Result(status, b"" if status == REFUSED and job.call == "sim" else output, b"")]

    def said(self, program, job):
        """The status of a program, what it prints on standard output and standard error, and the file that it writes."""
        Path("input").write_bytes(job.input)
        Path("made").unlink(missing_ok=True)
        files = ["input", *(["made"] if job.call in WRITING else [])]
        if job.call in OTHER_FILES:
            Path(OTHER_FILES[job.call]).write_bytes(job.beside)
            files.append(OTHER_FILES[job.call])
        given = defining(job.definitions if job.call in ON_POLICIES else [])
        try:
            run = ran(program, job.call, "--json", *given, *files, input=job.beside if job.call == "sim" else b"")
        except Wrong as wrong:
            return None, str(wrong).encode(), b"", b""
        return *run, Path("made").read_bytes() if Path("made").exists() else b""


def analysis(status, output):
    """What the library has to give of claims or of two policies. If something is broken, differs or is not decided, the program has
    another status."""
    if b'"severity":"error"' in output.split(b"\n")[0]:
        return Result(REFUSED, output, b"")
    return Result(GOOD if status in (DEFECT, UNDECIDED) else status, output, b"")


def made_job(maker, runner, number):
    """The job of a number, and what a program gives of it."""
    job = maker.job(number)
    return job, runner.wanted(job)


def jobs(programs, count):
    """Jobs, each with what the functions of the library have to give of it."""
    with tempfile.TemporaryDirectory(prefix="ifsvm-jobs-") as room:
        programs = absolute(programs)
        with workers(Maker(SEED, programs[0], room), Runner(programs)) as called:
            yield from called(made_job, count)


class Comparison:
    """Compares what is found with what is wanted of jobs, counts them, and keeps those that differ in out/jobs."""

    def __init__(self, name, count):
        self.name, self.count, self.counts = name, count, collections.Counter()
        self.failed = 0

    def compare(self, job, wanted, found):
        self.counts[job.call, wanted[0].status] += 1
        if found == wanted:
            return
        self.failed += 1
        kept = TOP / "out" / "jobs" / f"{self.name.replace(' ', '_')}-{job.number}"
        kept.mkdir(parents=True, exist_ok=True)
        for file, data in {"input": job.input, "definitions": job.all_definitions(), "beside": job.beside}.items():
            (kept / file).write_bytes(data)
        if self.failed <= MOST_TOLD:
            print(f"{self.name} job {job.number} of the seed `{SEED}` FAILED, {job.call}, kept in {kept.relative_to(TOP)}:")
            for one, other in zip_longest(found, wanted, fillvalue=Result("of no function", b"", b"")):
                if one != other:
                    print(f"  {shown(one, other)}\n  in place of {shown(other, one)}")

    def ended(self):
        """Prints how many jobs were compared. Whether each was, and all gave what is wanted."""
        compared = self.counts.total()
        said = []
        for call in CALLS:
            statuses = {status: number for (of, status), number in self.counts.items() if of == call}
            said.append(f"{call} {sum(statuses.values())} ({statuses.get(GOOD, 0)} good, {statuses.get(REFUSED, 0)} refused)")
            if compared >= JOBS and not (statuses.get(GOOD) and statuses.get(REFUSED)):
                print(f"{self.name}: no job of {call} is good, or none is refused")
                self.failed += 1
        if compared != self.count or not compared:
            print(f"{self.name}: {compared} jobs were compared in place of {self.count}")
            self.failed += 1
        print(f"{self.name}: {', '.join(said)}")
        print(f"{self.name}: {compared} jobs, {self.failed} FAILED")
        return self.failed == 0


def shown(result, other):
    """A result, its text and its file from a little before the place where they differ from another one's."""
    texts = [(one, max(0, len(os.path.commonprefix([one, of_other])) - 60)) for one, of_other in zip(result[1:], other[1:])]
    (text, place), (file, byte) = texts
    shown_text = f"{len(text)} bytes of text, from byte {place} {text[place : place + 200]!r}"
    return f"status {result.status}, {shown_text}; {len(file)} bytes of file, from byte {byte} {file[byte : byte + 100].hex()}"
