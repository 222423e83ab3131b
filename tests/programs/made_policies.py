"""Makes policy texts and request lines by chance, from a seed: the same ones each time."""
from plain_policy import LINKS

BLANKS = (" ", " ", " ", "\n", "\t", "  ", "\r\n", " \\\n", " # why \\\n so\n", "\n# a note { $none\n\n")
TOKEN_ROOM = 56
ODD_NAMES = ("state", "a b", 'say "x"', "back\\slash", "tab\there", "zürich", "if", "x=y", "#1", "$up", "run")
LAST = 2**64 - 1


class Maker:
    """Makes one policy text, and the definitions that are given beside it."""

    def __init__(self, chance):
        self.chance = chance
        self.size = chance.choice((1, 1, 2, 2, 3, 6, 12))
        self.tests_of_ten = chance.choice((0, 1, 1, 3, 6))
        self.interfaces = self.names("em", 1 + self.below(2 * self.size))
        self.tests = [(self.command("ping"), self.period()) for _ in range(self.below(2 * self.size + 1))]
        self.commands = [self.command("echo") for _ in range(1 + self.below(3 * self.size))]
        self.states = self.names("s", 1 + self.below(self.size + 2))
        self.macros, self.given, self.head = {}, [], []
        self.conditions, self.init_conditions, self.repeated_of_ten = [], [], chance.choice((0, 5, 7, 8))
        self.runs = 0

    def below(self, bound):
        return self.chance.randrange(bound)

    def one_in(self, count):
        return self.below(count) == 0

    def period(self):
        return self.chance.choice((1, 2, 5, 7, 10, 60, 604_800))

    def names(self, stem, count):
        """Names, all distinct, some of them odd."""
        plain = [f"{stem}{number}" for number in range(count)]
        odd = self.chance.sample(ODD_NAMES, min(count, 2)) if self.one_in(4) else []
        return odd + plain[len(odd) :]

    def command(self, word):
        return self.chance.choice((f"{word} {self.below(40)}", f"{word}{self.below(9)}", f"{word} \"a\" 'b'", f"{word} \\n"))

    def quoted(self, text):
        """A string with this value. What ends with a backslash or has one before a mark is not made."""
        quote = self.chance.choice("\"'")
        inner = text.replace(quote, "\\" + quote)
        if self.one_in(6):
            middle = self.below(len(text) + 1)
            if not text[:middle].endswith("\\") and text.find(quote) < 0:
                inner = text[:middle] + self.chance.choice(("\n", "\\\n")) + text[middle:]
        return quote + inner + quote

    def string(self, text):
        """A string, by a macro or without quotes where that is possible."""
        if self.one_in(8):
            return "$" + self.macro(self.quoted(text))
        plain = text.isalnum() and text.isascii() and text not in ("state", "if", "run")
        return text if plain and not self.one_in(3) else self.quoted(text)

    def macro(self, tokens):
        """The name of a macro that stands for these tokens. Some are used again, some are defined anew, and some
        take their value from the definitions beside the text."""
        for name, value in self.macros.items():
            if value == tokens:
                return name
        name = f"m{len(self.macros)}"
        if len(self.macros) > 200:
            name = "m0"
        self.macros[name] = tokens
        place = self.below(8)
        if place == 0 and "$" not in tokens:
            self.given.append((name, tokens))
            if self.one_in(2):
                self.given.append((name, "{ not this one"))
                self.head.append(f"{name} = {self.quoted('nor this one )')}")
        else:
            if place == 1:
                self.head.append(f"{name} = before")
            self.head.append(f"{name} = {self.quoted(tokens)}")
        return name

    def leaf(self):
        if self.tests and self.below(10) < self.tests_of_ten:
            text, period = self.chance.choice(self.tests)
            zeros = "00" if self.one_in(9) else ""
            return f"{self.string(text)} every {zeros}{period}"
        return f"{self.string(self.chance.choice(self.interfaces))}.link.{self.chance.choice(LINKS)}"

    def one(self, depth):
        kind = self.below(6)
        if kind == 0:
            return f"! {self.one(depth)}"
        if kind <= 2 and depth > 0:
            return f"( {self.any(depth - 1)} )"
        if kind == 3:
            return "$" + self.macro(f"( {self.any(0)} )" if depth > 0 else self.leaf())
        return self.leaf()

    def chain(self, sign, make, depth):
        count = self.chance.choice((1, 1, 1, 1, 2, 3))
        return f" {sign} ".join(make(depth) for _ in range(count))

    def all(self, depth):
        return self.chain("&&", self.one, depth)

    def any(self, depth):
        return self.chain("||", self.all, depth)

    def condition(self, depth):
        """A condition, some of them once more, also in parentheses that change nothing."""
        if self.conditions and self.below(10) < self.repeated_of_ten:
            condition = self.chance.choice(self.conditions)
            return f"( {condition} )" if self.one_in(4) else condition
        self.conditions.append(self.any(depth))
        return self.conditions[-1]

    def run(self):
        self.runs += 1
        return f"run {self.string(self.chance.choice(self.commands))}"

    def action(self, depth):
        kind = self.below(8)
        if kind < 3 and depth > 0:
            return f"if {self.condition(self.below(3))} {self.block(depth - 1)}"
        if kind == 3:
            return self.change()
        if self.runs > TOKEN_ROOM or kind == 4:
            return f"if {self.condition(1)} {{ }}"
        return self.run()

    def change(self):
        return f"set-state {self.string(self.chance.choice(self.states))}"

    def block(self, depth):
        if self.one_in(3):
            return self.action(depth)
        return "{ " + " ".join(self.action(depth) for _ in range(self.below(4))) + " }"

    def init_block(self):
        """An init, whose conditions ask for links alone."""
        tests, self.tests = self.tests, []
        states, self.states = self.states, []
        conditions, self.conditions = self.conditions, self.init_conditions
        made = " ".join(self.init_action(1) for _ in range(self.below(4)))
        self.tests, self.states, self.conditions = tests, states, conditions
        return f"init {{ {made} }}"

    def init_action(self, depth):
        if depth > 0 and self.one_in(3):
            return f"if {self.condition(1)} {{ {' '.join(self.init_action(depth - 1) for _ in range(self.below(3)))} }}"
        return self.run()

    def part(self):
        """The inits and actions of a part, in some order."""
        made = [self.action(3) for _ in range(self.below(2 + self.size))]
        if not self.one_in(4):
            made.append(f"if {self.condition(1)} {self.change()}")
        if not self.one_in(3):
            made.insert(self.below(len(made) + 1), self.init_block())
        return made

    def text(self):
        parts = [f"state {self.string(name)} {{ {' '.join(self.part())} }}" for name in self.states]
        always = self.part() if self.one_in(2) else []
        for piece in always:
            parts.insert(self.below(len(parts) + 1), piece)
        if self.one_in(2):
            parts.insert(self.below(len(parts) + 1), f"init-state {self.string(self.chance.choice(self.states))}")
        return "\n".join(self.head + [self.spaced(part) for part in parts]) + "\n"

    def spaced(self, part):
        """Some blanks of a piece of text, outside of quotes, made other ones."""
        made, open_quote, before = [], None, ""
        for letter in part:
            if open_quote is None and letter in "\"'":
                open_quote = letter
            elif letter == open_quote and before != "\\":
                open_quote = None
            made.append(self.chance.choice(BLANKS) if letter == " " and open_quote is None and self.one_in(3) else letter)
            before = letter
        return "".join(made)


class SmallMaker(Maker):
    """Makes policies of few facts."""

    def __init__(self, chance):
        super().__init__(chance)
        self.size = min(self.size, 3)
        self.interfaces, self.tests, self.states = self.interfaces[:3], self.tests[:2], self.states[:5]


class AnalysisMaker(Maker):
    """Makes policies for analyses: of 2 to 6 states, 1 to 4 links and at most 3 tests, as far as they are used."""

    def __init__(self, chance):
        super().__init__(chance)
        self.size = min(self.size, 3)
        self.interfaces = self.names("em", 1 + self.below(4))
        self.tests = [(self.command("ping"), self.period()) for _ in range(self.below(4))]
        self.states = self.names("s", 2 + self.below(5))


def request(chance, core):
    """A request line, of use to a core that stands so."""
    policy = core.policy
    running = [(test, planned[1]) for test, planned in enumerate(core.plan) if planned and planned[1]]
    kind = chance.randrange(20)
    if kind < 7 and policy.interfaces:
        return f"link {chance.choice(policy.interfaces)} {chance.choice(LINKS)}"
    if kind < 14 and running:
        test, run = chance.choice(running)
        return f"result {test} {run - (kind == 13)} {chance.choice(('ok', 'ok', 'fail'))}"
    if kind < 17:
        return f"tick {core.now + chance.choice((0, 1, 1, 3, 5, 10, 60))}"
    if kind < 19:
        return "take"
    return chance.choice((
        "status", "trace", f"tick {core.now + 604_800}", f"tick {max(core.now - 1, 0)}", "link nowhere up", "take it",
        f"result {chance.randrange(4)} {chance.randrange(1, core.next_run + 2)} ok", f"result {len(core.plan)} 1 ok",
        f"tick {LAST + 1}", "result 65536 1 fail", "link up", f"tick {core.now + 2}",
    ))


def full(chance, core):
    """A request line that fills the queue: links that change."""
    if core.policy.interfaces and not chance.randrange(8) == 0:
        return f"link {chance.choice(core.policy.interfaces)} {chance.choice(LINKS)}"
    return request(chance, core)


def requests(chance, core, count):
    """So many request lines, and the core's replies to them; a part of them takes nothing from the queue."""
    lines, replies = [], []
    begin = chance.randrange(count)
    for turn in range(count):
        make = full if begin <= turn < begin + count // 2 else request
        lines.append(make(chance, core))
        replies.append(core.answer(lines[-1]))
    late = chance.choice((LAST - 5, LAST, core.now))
    for line in (f"tick {max(late, core.now)}", "trace", "status", "stop"):
        lines.append(line)
        replies.append(core.answer(line))
    return lines, replies
