"""Tells of a policy's text whether it is one, as docs/LANGUAGE.md says: the plain reader with the rules that refuse."""
from plain_policy import Policy, items

TOKENS, BYTES, MACROS, OPEN, TEXT, LONGEST_PERIOD = 16_384, 1_048_576, 256, 32, 1_024, 604_800
NO_POLICY = (AssertionError, AttributeError, IndexError, KeyError, ValueError)


class StrictPolicy(Policy):
    """A policy that keeps the rules P6 to P16; ends with an error where one is not kept."""

    def __init__(self, text):
        self.initials, self.open, self.in_init, self.with_init = 0, 0, False, []
        super().__init__(text)
        texts = [*self.interfaces, *self.commands, *self.states, *(text for text, _ in self.tests)]
        assert all(0 < len(it.encode()) <= TEXT and "\0" not in it for it in texts), "P16"
        tables = (self.interfaces, self.tests, self.commands, self.states)
        assert all(len(table) <= most for table, most in zip(tables, (64, 64, 1_024, 256))), "P15"
        assert self.states and len(set(self.states)) == len(self.states), "P9 or P10"

    def stands(self, *words):
        return bool(self.rest) and self.rest[0].says(*words)

    def takes(self, *words):
        taken = super().takes(*words)
        self.initials += taken == "init-state"
        assert self.initials < 2, "P12"
        return taken

    def into(self, part):
        self.in_init = self.stands("init")
        if self.in_init:
            assert part not in self.with_init, "P12"
            self.with_init.append(part)
        super().into(part)
        self.in_init = False

    def inside(self, read):
        """What is read inside of one more `if`, `!` or parenthesis."""
        self.open += 1
        assert self.open <= OPEN, "P8"
        made = read()
        self.open -= 1
        return made

    def action(self):
        assert not (self.in_init and self.stands("set-state")), "P13"
        return self.inside(super().action) if self.stands("if") else super().action()

    def one(self):
        return self.inside(super().one) if self.stands("!", "(") else super().one()

    def test(self):
        if self.rest[1].says("every"):
            seconds = self.rest[2]
            assert seconds.kind == "word" and seconds.value.isdigit(), "P6"
            assert 0 < int(seconds.value) <= LONGEST_PERIOD, "P7"
            assert not self.in_init, "P14"
        return super().test()


def check_macros(text):
    """P4 and P5: values have no `=`, and no limit is passed."""
    read, known, count = items(text), {}, 0
    place = 0
    while place < len(read):
        item = read[place]
        if item.is_macro_name() and len(read) > place + 2 and read[place + 1].says("=") and read[place + 2].is_string():
            value = items(read[place + 2].value)
            assert not any(it.says("=") for it in value), "P4"
            known[item.value] = sum(known[it.value] if it.kind == "use" else 1 for it in value)
            assert known[item.value] <= TOKENS and len(known) <= MACROS, "P4 or P5"
            place += 3
            continue
        count += known[item.value] if item.kind == "use" else 1
        place += 1
    assert count <= TOKENS, "P5"


def tables_of(data):
    """How many interfaces, tests, commands and states a policy in these bytes has; nothing if they are none."""
    try:
        assert len(data) <= BYTES, "P5"
        text = data.decode()
        check_macros(text)
        policy = StrictPolicy(text)
    except NO_POLICY:
        return None
    return tuple(map(len, (policy.interfaces, policy.tests, policy.commands, policy.states)))
