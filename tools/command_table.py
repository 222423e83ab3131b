"""The words of the program with their parts, as the parser of its command line has them in crates/ifs_command_line, and in mdoc."""
import re
from pathlib import Path

SOURCES = Path(__file__).resolve().parent.parent / "crates" / "ifs_command_line" / "src"
FILES = ("words.rt", "parts.rt", "serve.rt")
CONSTANT = re.compile(r"^(?:pub\(crate\) )?const (\w+): [^=]*=\s*(.*?);$", re.M | re.S)
TOKEN = re.compile(r'\s*(?://[^\n]*\n\s*)*("(?:\\.|[^"\\])*"|[\w:]+|[&\[\]{}(),])')


class Literals:
    """Reads the literals of a text: texts, names, lists, and structs as pairs of a name and fields."""

    def __init__(self, text):
        self.tokens, at = [], 0
        while found := TOKEN.match(text, at):
            self.tokens.append(found[1])
            at = found.end()
        self.at = 0

    def take(self):
        self.at += 1
        return self.tokens[self.at - 1]

    def follows(self, token):
        return self.at < len(self.tokens) and self.tokens[self.at] == token

    def until(self, end):
        """What is read up to a closing sign, without the commas."""
        while not self.follows(end):
            yield self.value()
            if self.follows(","):
                self.take()
        self.take()

    def value(self):
        token = self.take()
        if token == "&":
            return self.value()
        if token == "[":
            return list(self.until("]"))
        if token.startswith('"'):
            return re.sub(r"\\(.)", r"\1", token[1:-1])
        if self.follows("("):
            self.take()
            return token, list(self.until(")"))
        if self.follows("{"):
            self.take()
            return token, dict(self.fields())
        return token

    def fields(self):
        while not self.follows("}"):
            name = self.take().rstrip(":")
            yield name, self.value()
            if self.follows(","):
                self.take()
        self.take()


def constants():
    """The values of the constants of the sources, by their names."""
    text = "".join((SOURCES / name).read_text() for name in FILES)
    return {name: Literals(value).value() for name, value in CONSTANT.findall(text)}


def resolved(value, known):
    """A value with the constants that it names in their places."""
    if isinstance(value, str):
        return resolved(known[value], known) if value.isupper() and value in known else value
    if isinstance(value, list):
        return [resolved(it, known) for it in value]
    name, fields = value
    if isinstance(fields, dict):
        return name, {key: resolved(it, known) if key != "name" else it for key, it in fields.items()}
    return name, fields


def words():
    """Each word with its parts, in the order of the help. A part is its kind and its fields."""
    known = constants()
    for table in ("ON_POLICIES", "ON_IMAGES", "ON_DAEMONS"):
        for _, fields in resolved(known[table], known):
            parts = [part if isinstance(part, tuple) else (part, {}) for part in fields["parts"]]
            yield fields["name"], [(kind.removeprefix("Part::"), it) for kind, it in parts]


def value_of(name):
    """The value of an option in mdoc. One of several words is in quotes."""
    names = [f"Ar {it}" for it in name.lower().split(" ")]
    return names[0] if len(names) == 1 else f"Qo {' '.join(names)} Qc"


def option_of(kind, fields):
    """An option in mdoc, behind `.Op`."""
    if kind == "Definitions":
        return "Fl D Ar name Ns = Ns Ar value ..."
    if kind == "Echo":
        return "Fl -echo"
    flag = f"Fl -{fields['id']}"
    if kind == "Flag":
        return flag
    several = " Ar ..." if kind == "Values" else ""
    return f"{flag} {value_of(fields['name'])}{several}"


def operand_of(kind, fields):
    """An operand in mdoc. It is empty if the part is none."""
    if kind == "FactsOperand":
        return ".Op Ar file"
    return {"Operand": f".Ar {fields.get('name', '').lower()}", "Socket": ".Ar socket"}.get(kind, "")


def groups(options):
    """Options that exclude each other, together."""
    found = []
    for kind, fields in options:
        excluded = set(fields.get("conflicts", []))

        def excludes(other):
            return other.get("id") in excluded or fields.get("id") in other.get("conflicts", [])

        group = next((it for it in found if all(excludes(other) for _, other in it)), None)
        if group is None:
            found.append([(kind, fields)])
        else:
            group.append((kind, fields))
    return found


def synopsis(only=()):
    """The lines of a SYNOPSIS in mdoc: of all words, or of some."""
    for word, parts in words():
        if only and word not in only:
            continue
        yield ".Nm ifsvm"
        yield f".Cm {word}"
        options = [part for part in parts if not operand_of(*part)]
        yield from (".Op " + " | ".join(option_of(*option) for option in group) for group in groups(options))
        yield from (operand_of(*part) for part in parts if operand_of(*part))
