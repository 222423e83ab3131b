"""Policy texts to be refused, by hand, and others that are changed by chance."""
import re

from changed_bytes import ANYWHERE, Changer

SIGNS = b"{}().=!&|$#\"'\\\n\r\t "
# what is put in where an action or a state may stand
ACTIONS = (b"init { }", b"set-state s0", b"init-state s0", b'if "t" every 5 { }', b"if em0.link.up { }", b'run ""',
           b"state s0 { }",
           b"init set-state s0", b'init if "t" every 1 { }', b"run " + b"y" * 1_024, b"run " + b"y" * 1_025, b'run "\0"',
           b"if " + b"! " * 32 + b"em0.link.up { }", b"if " + b"( " * 30 + b"em0.link.up" + b" )" * 30 + b" { }",
           b"if a.link.up || b.link.up && c.link.up { }", b"x = '$x b'", b"x = 'a = b'", b"x = y", b"run $x", b"m0 = '\"a' ")
PIECES = (b"!", b"(", b")", b"{", b"}", b"&&", b"||", b"&", b"$", b"$m0", b'"', b"'", b"\\", b"#", b"\\\n", b"=",
          b"every 0", b"..")
PERIODS = (b"0", b"1", b"604800", b"604801", b"007", b"5s", b"99999999999999999999", b'"5"', b"1_0", b"")
TOKENS = (b"state", b"init-state", b"init", b"if", b"run", b"set-state", b"every", b"link", b"up", b"unknown", b"10s", b"0",
          b"and", b"not", b"else", b"set", b"==", b"//", b"wan.link.up", b"$none", b"late = 'y'", b"'a b' = c", b"\"\"")
ODD = ("\ufeff", "\u00a0", "\u00fc", "\u201c", "\u2028", "\u65e5", "\x1b", "\0", ";", ",", "\\n", "$x", "\\\n")
QUOTES = (b"'", b'"', "\u201d".encode(), b"`", b"")


def characters(line):
    """How many characters a line has: the bytes that begin one."""
    return sum(byte & 0xC0 != 0x80 for byte in line)


def nested(bangs):
    return "state a { if " + "! " * bangs + 'em0.link.up run "x" }'


def joined(count, form):
    """A text with something for each number."""
    return "".join(form.format(number) for number in range(count))


def waiting(truths):
    """A condition that keeps so many truths waiting."""
    inner = "y.link.up && z.link.up"
    return "state a { if " + "x.link.up && ( " * (truths - 2) + inner + " )" * (truths - 2) + ' run "x" }'


# what `compile` says of a text: ok, or the number with which it is refused
BY_HAND = [
    ("ok", "state a { }"),
    ("ok", 'state s { if a.link.up || b.link.up && c.link.up run "echo y" }'),
    ("P9", ""),
    ("P9", "# a\n"),
    ("P9", 'run "x"'),
    ("P1", "state a { if em0.link.up & em1.link.up run x }"),
    ("P1", "state a { run -x }"),
    ("P1", "\ufeffstate a { }"),
    ("P2", 'state a { init run "x }'),
    ("P2", "state a { run 'a\\'"),
    ("P3", "state a { if $n run x }"),
    ("P4", "x = '$y' state a { }"),
    ("P4", "x = 'a = b' state a { }"),
    ("P4", "x = '\"' state a { }"),
    ("P5", "a " * 16_385),
    ("P6", "a " * 16_384),
    ("P5", joined(257, "m{} = a\n")),
    ("ok", joined(256, "m{} = a\n") + "state a { }"),
    ("ok", "state a { }".ljust(1_048_576)),
    ("P5", "state a { }".ljust(1_048_577)),
    ("P6", "state a {"),
    ("P6", "state a { } }"),
    ("P6", 'state a { if em0.link."up" { } }'),
    ("P6", 'state a { if "t" every 5s run x }'),
    ("P6", 'state a { if "t" every "5" run x }'),
    ("P7", 'state a { if "t" every 0 run x }'),
    ("P7", 'state a { if "t" every 604801 run x }'),
    ("ok", 'state a { if "t" every 00604800 run x }'),
    ("P8", nested(32)),
    ("ok", nested(31)),
    ("P10", "state a { } state a { }"),
    ("P10", 'state a { } state "a" { }'),
    ("P11", "state a { set-state z }"),
    ("P11", "init-state z state a { }"),
    ("P12", "init-state a init-state a state a { }"),
    ("P12", "state a { init run x init run y }"),
    ("P12", "init run x init run y state a { }"),
    ("P13", "state a { init set-state b } state b { }"),
    ("P14", 'state a { init if "t" every 5 run x }'),
    ("P15", "state a { " + joined(65, "if em{}.link.up {{ }} ") + "}"),
    ("ok", "state a { " + joined(64, "if em{}.link.up {{ }} ") + "}"),
    ("P15", "state a { if t every 99 { } " + joined(64, "if t every 1{} {{ }} ") + "}"),
    ("ok", "state a { " + joined(64, "if t every 1{} {{ }} ") + "}"),
    ("P15", "state a { " + joined(1_025, "run x{} ") + "}"),
    ("P15", joined(257, "state s{} {{ }} ")),
    ("ok", joined(256, "state s{} {{ }} ")),
    ("P16", 'state a { run "" }'),
    ("P16", "state a { run " + "x" * 1_025 + " }"),
    ("ok", "state a { run " + "x" * 1_024 + " }"),
    ("P16", 'state "a\0" { }'),
    ("P16", 'state a { run "' + "\u00fc" * 513 + '" }'),
    ("G1", "state a { init { " + "run x " * 512 + "} }"),
    ("G4", "state a { init { " + "run x " * 511 + "} }"),
    ("G2", joined(9, "state s{} {{ " + "set-state s0 " * 511 + "}} ")),
    ("G3", waiting(33)),
    ("ok", waiting(32)),
    ("G4", "state a { init { " + "run x " * 65 + "} }"),
    ("ok", "state a { init { " + "run x " * 64 + "} }"),
]


class TextChanger(Changer):
    """Changes a policy text."""

    def change(self, times):
        for _ in range(times):
            self.data = self.data or b"s"
            self.chance.choice(IN_TEXTS)(self)
        return self.data

    def places_of(self, signs):
        return [place for place, byte in enumerate(self.data) if byte in signs] or [0]

    def set_sign(self):
        """A byte, or a sign, made another sign."""
        place = self.chance.choice((self.place(), *self.chance.choices(self.places_of(SIGNS))))
        self.replaced(place, 1, bytes((self.chance.choice(SIGNS),)))

    def exchange_signs(self):
        self.exchange(*self.chance.choices(self.places_of(SIGNS), k=2), 1)

    def drop_sign(self):
        self.replaced(self.chance.choice(self.places_of(SIGNS)), 1, b"")

    def drop_quote(self):
        self.replaced(self.chance.choice(self.places_of(b"\"'")), 1, b"")

    def double_brace(self):
        place = self.chance.choice(self.places_of(b"{}()"))
        self.replaced(place, 0, self.data[place : place + 1])

    def parts(self, sign):
        """One of the parts between such signs dropped, doubled, or exchanged with another one."""
        parts = self.data.split(sign)
        one, other = self.below(len(parts)), self.below(len(parts))
        kind = self.below(3)
        if kind < 2:
            parts[one : one + 1] = [parts[one]] * (2 * kind)
        else:
            parts[one], parts[other] = parts[other], parts[one]
        self.data = sign.join(parts)

    def lines(self):
        self.parts(b"\n")

    def words(self):
        self.parts(b" ")

    def piece(self):
        """A piece put in, at a blank or anywhere."""
        place = self.chance.choice((self.place(), *self.chance.choices(self.places_of(b" \n"), k=3)))
        self.replaced(place, 0, b" " + self.chance.choice(PIECES) + b" ")

    def action(self):
        """An action, or what may stand in its place, put in behind a brace."""
        self.replaced(self.chance.choice(self.places_of(b"{}")) + 1, 0, b" " + self.chance.choice(ACTIONS) + b" ")

    def copy_word(self):
        """A word, or one in quotes, in the place of another one."""
        words = [found.span() for found in re.finditer(rb"[A-Za-z0-9_/]+|\"[^\"]*\"|'[^']*'", self.data)] or [(0, 1)]
        (taken, taken_end), (place, end) = self.chance.choices(words, k=2)
        self.replaced(place, end - place, self.data[taken:taken_end])

    def period(self):
        places = [found.span() for found in re.finditer(rb"(?<=every )\w*", self.data)] or [(0, 0)]
        place, end = self.chance.choice(places)
        self.replaced(place, end - place, self.chance.choice(PERIODS))


IN_TEXTS = (*ANYWHERE, TextChanger.set_sign, TextChanger.exchange_signs, TextChanger.drop_sign, TextChanger.drop_quote,
            TextChanger.double_brace, TextChanger.lines, TextChanger.lines, TextChanger.words, TextChanger.words,
            TextChanger.piece, TextChanger.piece, TextChanger.period, TextChanger.copy_word, TextChanger.copy_word,
            TextChanger.copy_word, *[TextChanger.action] * 7)


class PolicyChanger(TextChanger):
    """Changes a policy as an operator may do by mistake, or at will."""

    def change(self, times):
        for _ in range(times):
            self.data = self.data or b"s"
            self.chance.choice(IN_POLICIES)(self)
        return self.data

    def double_byte(self):
        place = self.place()
        self.replaced(place, 0, self.data[place : place + 1])

    def change_quote(self):
        self.replaced(self.chance.choice(self.places_of(b"\"'")), 1, self.chance.choice(QUOTES))

    def put_token(self):
        """A token in the place of a word."""
        words = [found.span() for found in re.finditer(rb"[\w/-]+|&&|\|\|", self.data)] or [(0, 1)]
        place, end = self.chance.choice(words)
        self.replaced(place, end - place, self.chance.choice(TOKENS))

    def put_odd(self):
        """An odd character or two, or a byte that is no UTF-8."""
        byte = self.chance.choice((b"\xff", b"\xe4", b"\xe2\x82"))
        self.replaced(self.place(), 0, byte if self.below(6) == 0 else self.chance.choice(ODD).encode())

    def change_dollar(self):
        """A use of a macro less or more."""
        uses, words = self.places_of(b"$"), [found.start() for found in re.finditer(rb"\b[a-z]", self.data)] or [0]
        if self.below(2):
            self.replaced(self.chance.choice(uses), 1, b"")
        else:
            self.replaced(self.chance.choice(words), 0, b"$")

    def change_ends(self):
        self.data = self.data.replace(b"\n", self.chance.choice((b"\r\n", b"\r\n", b"\r", b"\\\n")))


OF_POLICIES = [PolicyChanger.double_byte, PolicyChanger.change_quote, PolicyChanger.put_token, PolicyChanger.put_token,
               PolicyChanger.put_odd, PolicyChanger.change_dollar]
IN_POLICIES = (*IN_TEXTS, *OF_POLICIES * 3, PolicyChanger.change_ends)
