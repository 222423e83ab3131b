"""What a reader does for the hint of a report on a policy: the text that the hint makes, and whether that is the policy meant."""
import json
import re

from running import defining, ran, write

SAME = "the same for every list of steps\n"
LEXEME = re.compile(
    r"""(?P<gap>(?:[ \t\r\n]|\\\n|\#(?:[^\n\\]|\\(?!\n)|\\\n[^\n]*)*)+)|(?P<word>[A-Za-z0-9_/][-A-Za-z0-9_/:+@%*~]*)"""
    r"""|(?P<quoted>"(?:\\"|[^"])*"|'(?:\\'|[^'])*')|(?P<use>\$[A-Za-z_]\w*)|(?P<sign>&&|\|\||[{}().=!])"""
)
MISSING = "(?:a|the word) `(.+?)` is missing "


def offset_of(text, line, column):
    """The offset of a place in a text."""
    start = 0
    for _ in range(line - 1):
        start = text.index("\n", start) + 1
    return start + column - 1


class Followed:
    """A text with the report on it, and what its hint makes of it."""

    def __init__(self, text, report):
        self.text, self.report, self.hint = text, report, report["hint"] if "hint" in report else ""
        self.place = self.span(report)

    def span(self, entry):
        if "line" not in entry or "definition" in entry:
            return None
        return tuple(offset_of(self.text, *(entry[f"{at}{it}"] for it in ("line", "column"))) for at in ("", "end_"))

    def put(self, span, word):
        """The text with a word in the place of a part."""
        return f"{self.text[: span[0]]}{word}{self.text[span[1] :]}"

    def at(self, words):
        """The part that has these words."""
        for entry in self.report["related"]:
            if entry["message"] == words:
                return self.span(entry)
        return None

    def insert(self, offset, word):
        """The text with a word before an offset."""
        return f"{self.text[:offset]} {word} {self.text[offset:]}"

    def ways(self):
        """What a reader does for each hint: a pattern, and the text that is made of what it found."""
        place = self.place
        return (
            (r"leave this `(.+?)` out", lambda it: self.put(place, "")),
            (r"leave the `(.+?)` on line (\d+) out", lambda it: self.put(self.at("this one"), "")),
            (MISSING + r"before line (\d+)", lambda it: self.insert(self.start_of(int(it[2])), it[1])),
            (MISSING + "at the end of the text", lambda it: self.insert(len(self.text), it[1])),
            (MISSING + "before this", lambda it: self.insert(place[0], it[1])),
            (MISSING + "before `(.+?)` on line", lambda it: self.insert(self.at("before this")[0], it[1])),
            (MISSING + "behind `(.+?)` on line", lambda it: self.insert(self.at("behind this")[1], it[1])),
            (r"write `(.+?)` in place of `(.+?)`", lambda it: self.swapped(it[1], it[2])),
            (r"did you mean `(.+?)`\?", lambda it: self.put(place, it[1])),
            (r"write `(\S+\.link\.\w+)`$", lambda it: self.put(self.dotted(), it[1])),
            (r"write `(.+?)`(?: for `(.+?)`)?$", lambda it: self.put(place, it[1])),
        )

    def start_of(self, line):
        return offset_of(self.text, line, 1)

    def dotted(self):
        """The words with dots between them around the place."""
        for found in re.finditer(r'(?:"[^"\n]*"|[$\w][\w/-]*)(?:\.\w+)*', self.text):
            if found.start() <= self.place[0] <= found.end():
                return found.span()
        return self.place

    def swapped(self, new, old):
        """The text with what is at the place in another way, or what begins before it."""
        words = [re.escape(it) for it in old.split(" ")]
        for found in re.finditer(r"\s*".join(words), self.text):
            if found.start() <= self.place[0] <= found.end():
                return self.put(found.span(), new)
        return None

    def text_by_hint(self):
        """The text that the hint makes. There is none if it says nothing to write, or two things."""
        if not self.place or re.search(r", or |, and | or `|\?.+", self.hint):
            return None
        for pattern, made in self.ways():
            found = re.search(pattern, self.hint)
            if found:
                return made(found)
        return None


def checked(program, defines, text):
    """The status of `check` on a text, and its report if it is refused."""
    write("policy", text.encode())
    run = ran(program, "check", "--json", *defining(defines), "policy").texts()
    if run.status != 1:
        return run.status, None
    return 1, json.loads(run.error.splitlines()[0])


def lexemes(text):
    """The lexemes of a text, without blanks and comments."""
    return [it[0] for it in LEXEME.finditer(text) if it.lastgroup != "gap"]


def is_same(program, defines, meant, text):
    """Whether `compare` says that a text is the policy that is meant."""
    write("old", meant.encode())
    write("new", text.encode())
    return ran(program, "compare", *defining(defines), "old", "new").texts().output == SAME


def advice(program, defines, meant, text):
    """How it goes with the hint on a text, in a word, and the hint: `back` if it leads to the policy that is meant, `WRONG` if it
    leads to another one."""
    status, report = checked(program, defines, text)
    if not report:
        return "accepted" if status == 0 else f"status {status}", ""
    followed = Followed(text, report)
    made = followed.text_by_hint()
    if made is None:
        return "not followed" if followed.hint else "without a hint", followed.hint
    if lexemes(made) == lexemes(meant):
        return "back", followed.hint
    if checked(program, defines, made)[0] != 0:
        return "still refused", followed.hint
    return "back" if is_same(program, defines, meant, made) else "WRONG", followed.hint
