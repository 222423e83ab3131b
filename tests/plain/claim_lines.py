"""Reads a claims file on a policy. Slow, plain, and by itself: nothing of the crates is used."""
from plain_core import asked
from plain_policy import is_definition, items, tokens_after
from strict_policy import NO_POLICY, TOKENS, StrictPolicy

BYTES, CLAIMS, CHANGES = 65_536, 1_024, 65_535
# the words before a condition that ask for the values of its tests
KNOWING = ("known", "unknown")
WORDS = {"never", "rest", "in", "while", "from", "to", "enter", "run", "within", "changes", "at", "any", "moment", "may", "flap", *KNOWING}


class Refused(Exception):
    """The line of a file that is no claim, from 1; none if the file is too large."""

    def __init__(self, line):
        super().__init__(line)
        self.line = line


class Line(StrictPolicy):
    """The tokens of a line, and the tables of the policy that it speaks of. It is no policy itself."""

    def __init__(self, rest, policy):
        self.rest, self.policy = rest, policy
        # a condition is inside of an `if`
        self.open, self.in_init, self.initials = 1, False, 0
        self.interfaces, self.tests = list(policy.interfaces), list(policy.tests)

    def is_name(self):
        return bool(self.rest) and self.rest[0].is_string() and not self.stands(*WORDS)

    def named(self, table):
        """The number of the name that comes next."""
        assert self.is_name(), "a name"
        return table.index(self.next().value)

    def names(self):
        return self.all_named(self.policy.states)

    def all_named(self, table):
        """The numbers of the names that come next, one or more."""
        found = [self.named(table)]
        while self.is_name():
            found.append(self.named(table))
        return found

    def condition(self):
        """The condition that is the rest of the line, in a pair with `known` or `unknown` if this word is before it. It adds nothing to
        the tables."""
        self.needs("while")
        word, found = self.knowing(), self.any()
        assert (self.interfaces, self.tests) == (self.policy.interfaces, self.policy.tests), "an unknown name"
        assert not word or asked(found), "no test"
        return (word, found) if word else found

    def knowing(self):
        """`known` or `unknown`, if it is next. Before a dot it is the name of an interface, and before `every` a test."""
        is_name = len(self.rest) > 1 and (self.rest[1].says(".") or self.rest[1].says("every"))
        return None if is_name else self.takes(*KNOWING)

    def resting(self, words):
        self.needs("in")
        return (words, self.names(), self.condition())

    def claim(self):
        """The claim that all tokens say."""
        first = self.needs("never", "rest", "at", "may")
        found = {"never": self.never, "rest": self.rests, "at": self.at_moments, "may": self.flaps}[first]()
        assert not self.rest, "more than a claim"
        return found

    def never(self):
        if self.stands("rest"):
            self.next()
            return self.resting("never rests")
        word = self.needs("from", "enter", "run")
        if word == "enter":
            states = self.names()
            return ("never enters while", states, self.condition()) if self.rest else ("never enters", states)
        if word == "run":
            return ("never runs", self.all_named(self.policy.commands), self.condition())
        first, others = self.names(), self.needs("to") and self.names()
        assert not set(first) & set(others), "one state on both sides"
        return ("never from", first, others)

    def rests(self):
        if not self.stands("within"):
            return self.resting("rests in")
        self.next()
        number = self.next()
        assert number.kind == "word" and number.value.isdigit() and int(number.value) <= CHANGES, "a number"
        self.needs("changes")
        return ("rests within", int(number.value))

    def at_moments(self):
        for word in ("any", "moment", "never"):
            self.needs(word)
        return self.resting("never in")

    def flaps(self):
        self.needs("flap")
        return ("may flap", self.names())


def macros_of(text, given):
    """The macros at the end of a policy's text, beside these definitions."""
    known = {}
    for name, value in given:
        if name not in known:
            known[name] = tokens_after(items(value), known, set())
    tokens_after(items(text), known, set(known))
    return known


def tokens_of(line, known):
    read = items(line)
    assert not any(it.says("=") for it in read), "a sign"
    assert not any(is_definition(read, place) for place in range(len(read)))
    made = tokens_after(read, known, set())
    assert len(made) <= TOKENS, "too many tokens"
    return made


def claims_in(text, data, given=()):
    """The claims of a file on the policy of a text: pairs of a line, from 1, and a claim. Ends with `Refused`."""
    if len(data) > BYTES:
        raise Refused(None)
    try:
        lines = data.decode().split("\n")
    except UnicodeDecodeError as error:
        raise Refused(1 + data[: error.start].count(b"\n")) from None
    policy, known, found = StrictPolicy(text), macros_of(text, given), []
    for number, line in enumerate(lines, 1):
        try:
            tokens = tokens_of(line, known)
            if tokens:
                assert len(found) < CLAIMS, "too many claims"
                found.append((number, Line(tokens, policy).claim()))
        except NO_POLICY:
            raise Refused(number) from None
    return found
