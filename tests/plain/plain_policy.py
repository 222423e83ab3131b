"""Reads a policy's text into its tree, as docs/LANGUAGE.md says. Slow, plain, and by itself: nothing of the crates is
used. Texts that are no policies are of no interest here: they end with an error."""
import re

LINKS = ("unknown", "down", "up")
RESERVED = {"state", "init-state", "init", "if", "run", "set-state", "every"}
ITEM = re.compile(
    r"""(?P<gap>(?:[ \t\r\n]|\\\n|\#(?:[^\n]|(?<=\\)\n)*)+)
      | (?P<quoted>"(?:[^"\\]|\\"|\\(?!"))*"|'(?:[^'\\]|\\'|\\(?!'))*')
      | \$(?P<use>[A-Za-z_][A-Za-z0-9_]*)
      | (?P<word>[A-Za-z0-9_/][A-Za-z0-9_/:+@%*~-]*)
      | (?P<sign>&&|\|\||[{}().=!])""",
    re.VERBOSE,
)


class Item:
    """A word, a quoted text with its value, a sign, or the use of a macro."""

    def __init__(self, kind, value):
        self.kind, self.value = kind, value

    def is_string(self):
        return self.kind == "quoted" or (self.kind == "word" and self.value not in RESERVED)

    def is_macro_name(self):
        return self.kind == "word" and self.is_string() and re.fullmatch(r"[A-Za-z_]\w*", self.value, re.ASCII)

    def says(self, *words):
        """Whether it is one of these words or signs, not in quotes."""
        return self.kind in ("word", "sign") and self.value in words


def unquoted(text):
    """The value of a quoted text."""
    quote, inner = text[0], text[1:-1]
    return re.sub(r"\\\n|\n|\\([ \t" + quote + "])", lambda found: found[1] or "", inner)


def items(text):
    """The items of a text."""
    place, found = 0, []
    while place < len(text):
        match = ITEM.match(text, place)
        kind = match.lastgroup
        if kind == "quoted":
            found.append(Item(kind, unquoted(match[kind])))
        elif kind != "gap":
            found.append(Item(kind, match[kind]))
        place = match.end()
    return found


def is_definition(read, place):
    """Whether a macro's name, the sign = and a string stand there."""
    if place + 2 >= len(read):
        return False
    name, equals, value = read[place : place + 3]
    return name.is_macro_name() and equals.says("=") and value.is_string()


def tokens(text, given):
    """The tokens of a text beside these definitions, pairs of a name and a value."""
    known = {}
    for name, value in given:
        if name not in known:
            known[name] = tokens_after(items(value), known, set())
    return tokens_after(items(text), known, set(known))


def tokens_after(read, known, kept):
    """Items without their definitions, and with the tokens of macros in place of their uses. The text's own
    definitions go into what is known, but for the names that are kept."""
    place, made = 0, []
    while place < len(read):
        item = read[place]
        if is_definition(read, place):
            if item.value not in kept:
                known[item.value] = tokens_after(items(read[place + 2].value), known, kept)
            place += 3
            continue
        made += known[item.value] if item.kind == "use" else [item]
        place += 1
    return made


class Part:
    """The always part or a state: the actions of its init and those of its body."""

    def __init__(self):
        self.init, self.body = [], []


class Policy:
    """The tree of a policy, with its tables in the order of first use; the names in the tree are numbers. An action
    is ("run", command), ("set-state", state) or ("if", condition, actions). A condition is ("link", interface, word),
    ("test", test), ("not", condition), ("and", conditions) or ("or", conditions)."""

    def __init__(self, text, given=()):
        self.rest = tokens(text, given)
        self.interfaces, self.tests, self.commands, self.states = [], [], [], []
        self.always, self.parts = Part(), []
        initial = None
        while self.rest:
            if self.takes("init-state"):
                initial = self.string()
            elif self.takes("state"):
                self.state()
            else:
                self.into(self.always)
        names = self.states
        self.initial = names.index(initial) if initial is not None else 0
        for block in self.blocks():
            block[:] = [named(action, names) for action in block]

    def blocks(self):
        """The inits and bodies of all parts, in the order of their routines."""
        return [block for part in (self.always, *self.parts) for block in (part.init, part.body)]

    def next(self):
        return self.rest.pop(0)

    def takes(self, *words):
        """Takes the next token if it is one of these."""
        return self.next().value if self.rest and self.rest[0].says(*words) else None

    def needs(self, *words):
        taken = self.takes(*words)
        assert taken, f"one of {words} has to stand here"
        return taken

    def string(self):
        item = self.next()
        assert item.is_string(), f"{item.value} is no string"
        return item.value

    def state(self):
        self.states.append(self.string())
        part = Part()
        self.needs("{")
        while not self.takes("}"):
            self.into(part)
        self.parts.append(part)

    def into(self, part):
        """Reads an init or an action of a part."""
        if self.takes("init"):
            part.init += self.block()
        else:
            part.body.append(self.action())

    def block(self):
        if not self.takes("{"):
            return [self.action()]
        actions = []
        while not self.takes("}"):
            actions.append(self.action())
        return actions

    def action(self):
        word = self.needs("run", "set-state", "if")
        if word == "run":
            return ("run", number_in(self.commands, self.string()))
        if word == "set-state":
            return ("set-state", self.string())
        return ("if", self.any(), self.block())

    def any(self):
        operands = [self.all()]
        while self.takes("||"):
            operands.append(self.all())
        return ("or", operands) if operands[1:] else operands[0]

    def all(self):
        operands = [self.one()]
        while self.takes("&&"):
            operands.append(self.one())
        return ("and", operands) if operands[1:] else operands[0]

    def one(self):
        if self.takes("!"):
            return ("not", self.one())
        if self.takes("("):
            inner = self.any()
            self.needs(")")
            return inner
        return self.test()

    def test(self):
        text = self.string()
        if self.takes("every"):
            return ("test", number_in(self.tests, (text, int(self.next().value))))
        self.needs(".")
        self.needs("link")
        self.needs(".")
        return ("link", number_in(self.interfaces, text), self.needs(*LINKS))


def number_in(table, entry):
    """The number of an entry, which comes into the table at its first use."""
    if entry not in table:
        table.append(entry)
    return table.index(entry)


def named(action, states):
    """An action with the numbers of states in place of their names."""
    if action[0] == "set-state":
        return ("set-state", states.index(action[1]))
    if action[0] == "if":
        return ("if", action[1], [named(inner, states) for inner in action[2]])
    return action
