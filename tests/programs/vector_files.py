"""The worked cases of vectors/, as they are in its files. vectors/README.md describes these."""
import collections
import os
import re

VECTORS = os.path.join(os.path.dirname(os.path.abspath(__file__)), "..", "..", "vectors")
GIVEN = ("policy", "assembly", "image", "facts")
# the expected sections of a policy, of an assembly text, and of the image that is given or made
OF_POLICY = ("check", "graph", "compile")
OF_IMAGE = ("image", "verify", "disasm", "code", "upgrade", "session")
# the sections that run_slips looks at
OF_SLIP = ("slip", "repair", "meant", "report", "steps")
# the sections that run_findings looks at
OF_FINDINGS = ("defects", "lint")
# the sections that run_claims looks at
OF_CLAIMS = ("claims", "prove", "printed", "refused", "refusals")
# those that run_compare looks at
OF_PAIRS = ("other", "compare", "edits")
# those that run_facts looks at
OF_FACTS = ("words", "nagios", "prometheus", "samples", "options")
WORDS = ("like", "define", *GIVEN, *OF_POLICY, "asm", *OF_IMAGE, *OF_SLIP, *OF_FINDINGS, *OF_CLAIMS, *OF_PAIRS, *OF_FACTS)
FLAGS = ("cut", "escaped", "repeated", "numbered")
LINE_ENDS = b"line ends: "
Given = collections.namedtuple("Given", "kind text defines")


class Wrong(Exception):
    """What is wrong, and with which section."""

    def __init__(self, section, what):
        super().__init__(f"{section}: {what}")


class Section:
    """The word, the flags and the lines of a section."""

    def __init__(self, header):
        self.word, *self.flags = header.decode(errors="replace").split(" ")
        self.lines = []

    def text_lines(self):
        """The lines of the text, repeated and with their escapes undone."""
        lines = self.lines
        if "repeated" in self.flags or "numbered" in self.flags:
            lines = repeated(lines, "numbered" in self.flags)
        if "escaped" in self.flags:
            lines = [re.sub(rb"\\x([0-9a-f]{2})(\*(\d+);)?", unescaped, line) for line in lines]
        return lines

    def text(self):
        return joined(self.text_lines(), "cut" in self.flags)


def joined(lines, is_cut, end=b"\n"):
    """A text of lines, each with its end but the last of a text that is cut."""
    text = b"".join(line + end for line in lines)
    return text.removesuffix(end) if is_cut else text


def repeated(lines, is_numbered):
    """The lines, of which those between `*N` and `*` appear N times."""
    out, block, times = [], None, 0
    for line in lines:
        if block is None and re.fullmatch(rb"\*\d+", line):
            block, times = [], int(line[1:])
        elif block is not None and line == b"*":
            for time in range(times):
                number = str(time).encode()
                out += [it.replace(b"#", number) if is_numbered else it for it in block]
            block = None
        else:
            (out if block is None else block).append(line)
    return out


def unescaped(found):
    return bytes([int(found[1], 16)]) * int(found[3] or 1)


def cases_in(file):
    """The name and the sections of each case of a file of vectors/."""
    with open(os.path.join(VECTORS, file), "rb") as opened:
        return list(cases_of(opened.read()))


def cases_of(text):
    """The name and the sections of each case of a file."""
    _front, *pieces = re.split(rb"^=== ", text, flags=re.M)
    for piece in pieces:
        name, *lines = piece.rstrip(b"\n").split(b"\n")
        sections = []
        for line in lines:
            if line.startswith(b"--- "):
                sections.append(Section(line[4:]))
            elif sections:
                sections[-1].lines.append(line)
        yield name.decode(), sections


def by_word(sections):
    """The sections by their words, each of which is known and appears once."""
    found = {}
    for section in sections:
        if section.word not in WORDS or section.word in found:
            raise Wrong(section.word, "an unknown section, or one that appears twice")
        if not set(section.flags) <= set(FLAGS):
            raise Wrong(section.word, f"an unknown flag of {section.flags}")
        found[section.word] = section
    return found


def texts_of(sections):
    """The texts of sections by their words."""
    return {word: section.text().decode() for word, section in by_word(sections).items()}


def hexadecimal(section):
    try:
        return bytes.fromhex(section.text().decode())
    except ValueError as error:
        raise Wrong(section.word, error) from error


def definitions(section):
    lines = [line.decode() for line in section.text_lines()]
    if not all("=" in line for line in lines):
        raise Wrong("define", "a line has no '='")
    return lines


def changed(lines, changes):
    """Lines, with the changes of a section `like`."""
    found = {}
    for change in changes:
        match = re.fullmatch(rb"(?:line (\d+):(?: (.*))?|no line (\d+))", change, flags=re.S)
        if not match or not 1 <= int(match[1] or match[3]) <= len(lines) + 1:
            raise Wrong("like", f"no change: {change!r}")
        new = found.setdefault(int(match[1] or match[3]), [])
        if match[1]:
            new.append(match[2] or b"")
    return [new for number, line in enumerate(lines + [None], 1) for new in found.get(number, [line]) if new is not None]


def line_end(changes):
    """The end of each line of a changed text, and the changes of its lines."""
    ends = [it.removeprefix(LINE_ENDS) for it in changes if it.startswith(LINE_ENDS)]
    if len(ends) > 1:
        raise Wrong("like", "two ends of lines")
    return (ends or [b"\n"])[0], [it for it in changes if not it.startswith(LINE_ENDS)]


def given_like(section, sections, others):
    """What is given by a section `like`: the text that another case has, some lines of which are changed."""
    name, *changes = section.text_lines() or [b""]
    end, changes = line_end(changes)
    other = by_word(others.get(name.decode(), []))
    if not other or "like" in other:
        raise Wrong("like", f"no case with a text: {name.decode()!r}")
    other = given_text(other)
    lines = other.text.removesuffix(b"\n").split(b"\n") if other.text else []
    defines = definitions(sections["define"]) if "define" in sections else other.defines
    return Given(other.kind, joined(changed(lines, changes), "cut" in section.flags, end), defines)


def given_text(sections):
    """The text that a case has: a policy, an assembly text or an image."""
    kind = next((kind for kind in GIVEN if kind in sections), None)
    if not kind:
        raise Wrong("case", "nothing is given")
    return Given(kind, sections[kind].text(), definitions(sections["define"]) if "define" in sections else [])


def given_by(sections, others):
    """What a case of a file gives: its own text, or another case's with changes."""
    like = sections.get("like")
    return given_like(like, sections, others) if like else given_text(sections)
