"""Makes images, as docs/IMAGE.md says: some by hand, a case or more for each check, and some by chance from a seed."""
from image_reader import COMMANDS, COST, FRAMES, KINDS, STACK, Image, Refused, check_stacks, find_bounds, greatest_event
from instructions import CODES, NAMES, op

RET = ("ret",)
QUEUES = ([("queue",)], [("queue",)], [("dup",), ("queue",), ("queue",)])


def text(value):
    return len(value).to_bytes(2, "big") + value


class Draft:
    """The parts of an image, which need not be accepted. A part is its init, its body and its mask; an instruction is
    the arguments of `op`. A routine is its number of truths and its instructions, and in version 2 the kinds that it takes,
    those that it leaves, and its instructions."""

    def __init__(self, routines=((0, [RET]),), parts=((0, 0, 0), (0, 0, 0)), initial=0, budgets=(0, 1, 3, 0), counts=None,
                 version=1):
        self.routines, self.parts, self.initial, self.budgets = list(routines), list(parts), initial, budgets
        self.interfaces, self.tests, self.commands = [b"carp0", b"em0"], [(10, b"ping")], [b"echo m", b"echo b"]
        self.names = [b"s%d" % number for number in range(len(parts) - 1)]
        self.counts, self.version = counts, version

    def data(self):
        """The bytes."""
        tables = (self.interfaces, self.tests, self.commands, self.names, self.routines)
        made = b"IFSV" + bytes((self.version,))
        made += b"".join(it.to_bytes(size, "big") for it, size in zip(self.budgets, (2, 2, 4, 2)))
        made += b"".join(it.to_bytes(2, "big") for it in self.counts or map(len, tables))
        made += self.initial.to_bytes(2, "big") + part_bytes(self.parts[0])
        made += b"".join(map(text, self.interfaces))
        made += b"".join(period.to_bytes(4, "big") + text(command) for period, command in self.tests)
        made += b"".join(map(text, self.commands))
        made += b"".join(text(name) + part_bytes(part) for name, part in zip(self.names, self.parts[1:]))
        for *kinds, ops in self.routines:
            made += b"".join(map(kind_bytes, kinds)) + len(ops).to_bytes(2, "big") + b"".join(op(*it) for it in ops)
        return made

    def with_least_budgets(self):
        """States the budgets that it needs, as far as the limits allow, and gives itself."""
        image = Image(self.data())
        check_stacks(image)
        for routine in image.routines:
            find_bounds(image, routine)
        heights, frames = zip(*((it.height, it.frames) for it in image.handlers()))
        needed = (max(heights), max(frames), greatest_event(image, "cost"), greatest_event(image, "commands"))
        self.budgets = tuple(map(min, needed, (STACK, FRAMES, COST, COMMANDS)))
        return self


def kind_bytes(kinds):
    """A number of truths, or kinds behind their number."""
    return bytes((kinds,)) if isinstance(kinds, int) else bytes((len(kinds), *map(KINDS.index, kinds)))


def upgraded(data):
    """The image of version 2 that says what an image says."""
    image = Image(data)
    if image.version == 2:
        return data
    starts = [routine.start for routine in image.routines] + [len(data)]
    made = data[:4] + bytes((2,)) + data[5 : starts[0]]
    for routine, end in zip(image.routines, starts[1:]):
        made += kind_bytes([]) + kind_bytes(routine.results) + data[routine.counted : end]
    return made


def part_bytes(part):
    return b"".join(number.to_bytes(size, "big") for number, size in zip(part, (2, 2, 8)))


def run(*ops, results=0, before=()):
    """An image whose handlers are its last routine, of these instructions, behind others."""
    routines = [*before, (results, list(ops))]
    last = len(routines) - 1
    return Draft(routines, [(last, last, 0)] * 2, budgets=(32, 32, 300_000, 64)).data()


def changed(**fields):
    """The smallest of these images with other fields."""
    draft = Draft()
    for name, value in fields.items():
        setattr(draft, name, value)
    return draft.data()


def reading_faults():
    """Images with a fault of each kind, and such as are at a limit."""
    smallest = Draft().data()
    yield from (smallest[:length] for length in range(len(smallest)))
    yield from (smallest + b"\0", b"ifsv" + smallest[4:])
    yield from (smallest[:4] + bytes((version,)) + smallest[5:] for version in (0, 2, 3, 255))
    yield from (changed(budgets=budgets) for budgets in (
        (32, 32, 300_000, 64), (33, 1, 3, 0), (0, 33, 3, 0), (0, 1, 300_001, 0), (0, 1, 3, 65), (33, 33, 300_001, 65)))
    yield from (changed(counts=counts) for counts in (
        (65, 1, 2, 1, 1), (2, 65, 2, 1, 1), (2, 1, 1_025, 1, 1), (2, 1, 2, 0, 1), (2, 1, 2, 257, 1), (2, 1, 2, 1, 1_025),
        (64, 1, 2, 1, 1), (2, 64, 2, 1, 1), (2, 1, 1_024, 1, 1), (2, 1, 2, 256, 1), (2, 1, 2, 1, 1_024), (2, 1, 2, 1, 0)))
    yield from (changed(tests=[(period, b"t")]) for period in (0, 1, 604_800, 604_801, 2**32 - 1))
    for name in (b"", b"x" * 1_024, b"x" * 1_025, b"a\0", b"\xff", b"\xed\xa0\x80", b"\xc0\x80", b"\xf4\x90\x80\x80",
                 "\U0010ffff".encode(), b"em0", b"\xc3\xa9", b"\xc3"):
        yield from (changed(interfaces=[b"em0", name]), changed(commands=[name, name]), changed(tests=[(1, name)] * 2),
                    changed(names=[name]), changed(names=[b"em0", name], parts=[(0, 0, 0)] * 3))
    yield from (changed(routines=[(results, [RET])]) for results in (1, 2, 255))
    yield changed(routines=[(0, [RET])] * 1_024)
    yield from (changed(routines=[(0, [RET] * count)]) for count in (0, 1_024, 1_025))
    yield from (changed(routines=[(0, [("true",)] * 1_024)] * 8 + [(0, [RET] * more)]) for more in (0, 1))
    yield from (smallest[:-4] + word for name in NAMES for word in odd_words(name))
    yield from (smallest[:-4] + bytes((code, 0, 0, 0)) for code in (0x13, 0x7F, 0xFF))


def odd_words(name):
    """Four bytes each that are near an instruction."""
    code = CODES[name]
    yield from (bytes((code, link, 0, operand)) for link in (0, 1, 2, 3) for operand in (0, 1) if link or operand)
    yield bytes((code, 0, 1, 0))


def index_faults():
    """V2 and V14, in each place that has an index, and V8 and V3."""
    yield changed(initial=1)
    for number in (1, 65_535):
        yield from (changed(parts=[part, (0, 0, 0)]) for part in ((number, 0, 0), (0, number, 0), (0, 0, 2 * number)))
        yield from (changed(parts=[(0, 0, 1), part]) for part in ((number, 0, 0), (0, number, 0), (0, 0, 2 * number)))
    yield from (changed(parts=[(0, 0, mask), (0, 0, 0)]) for mask in (1, 2, 2**63, 2**64 - 1))
    for name in ("link", "test", "known", "cmd", "state", "call", "jump", "jf", "jt"):
        yield from (run(("true",), (name, number), RET) for number in (0, 1, 2, 3, 65_535))
    results = [(1, [("true",), RET]), (0, [RET])]
    for handlers in ([(0, 1, 0), (1, 1, 0)], [(1, 0, 0), (1, 1, 0)], [(1, 1, 0), (0, 1, 0)], [(1, 1, 0), (1, 0, 0)],
                     [(1, 1, 0), (1, 1, 0)], [(0, 0, 0), (0, 0, 0)]):
        yield Draft(results, handlers).data()
    yield run(("call", 0), RET)
    yield run(("call", 1), RET, before=[(0, [("call", 1), RET])])


def form_faults():
    """V3, V4 and V5, alone and together."""
    yield from (run(("jump", target), ("jump", 2), RET) for target in (0, 1, 2, 3))
    yield from (run(("link", 0), ("jf", target), RET) for target in (0, 1, 2, 3))
    yield from (run(), run(("true",)), run(("true",), ("pop",)), run(("jump", 1), ("jump", 1)), run(RET, ("true",)))
    yield from (run(RET, RET), run(RET, ("true",), RET), run(("jump", 2), ("true",), RET),
                run(("jump", 2), ("jump", 3), RET, RET))
    yield from (run(("true",), ("jt", 4), ("jump", 5), ("ret",), ("ret",), ("ret",)), run(before=[(0, [RET])]),
                run(RET, before=[(0, [])]), run(("call", 1), ("jump", 1), before=[(0, [("jump", 7)])]))


def stack_faults():
    """V6, V7, V9 and V10 of what an instruction leaves."""
    pushes = {"truth": ("true",), "command": ("cmd", 0), "state": ("state", 0)}
    for name in NAMES:
        for kinds in ([], ["truth"], ["command"], ["state"], ["truth", "truth"], ["command", "truth"], ["truth", "state"]):
            for results in (0, 1):
                tried = (name, len(kinds) + 1) if name in ("jump", "jf", "jt") else (name,)
                routine = (results, [*(pushes[kind] for kind in kinds), tried, RET])
                yield Draft([routine, (0, [RET])], [(1, 1, 0)] * 2).data()
    yield from (run(*[("true",)] * count, *[("pop",)] * count, RET) for count in (31, 32, 33))
    yield from (run(*[("true",)] * 31, ("dup",), *more, RET)
                for more in ([("dup",)], [("pop",)] * 32, [("not",), ("queue",)]))
    push = ("true",)
    yield from (run(push, ("jf", 3), push, RET), run(push, ("jt", 3), push, ("pop",), RET),
                run(push, ("jf", 4), push, ("jump", 5), ("cmd", 0), ("pop",), RET),
                run(push, ("jf", 4), ("cmd", 1), ("jump", 5), ("cmd", 0), ("pop",), RET),
                run(push, push, ("jf", 4), ("pop",), ("pop",), RET), run(*[push] * 32, ("jf", 34), ("true",), RET),
                run(*[push] * 32, ("jf", 35), ("dup",), ("dup",), RET),
                run(*[push] * 32, ("jf", 35), ("dup",), ("not",), RET))


def bound_faults():
    """V10 to V13 of routines and of the stated budgets, at their limits and over them."""
    push, pop = ("true",), ("pop",)
    for below in (15, 16, 17):
        yield run(*[push] * below, ("call", 0), *[pop] * below, RET, before=[(0, [push] * 16 + [pop] * 16 + [RET])])
        yield run(*[push] * below, ("call", 0), *[pop] * below, pop, RET, before=[(1, [push] * 16 + [pop] * 15 + [RET])])
    for calls in (31, 32):
        yield run(RET, before=[(0, [RET])] + [(0, [("call", number), RET]) for number in range(calls)])
        yield run(("call", calls), RET, before=[(0, [RET])] + [(0, [("call", number), RET]) for number in range(calls)])
    block = (0, [push, pop] * 49 + [("jump", 99), RET])
    yield from (run(*[("call", 0)] * count, *rest, RET, before=[block])
                for count, rest in ((989, []), (990, []), (991, []), (990, [push, pop] * 4), (990, [push, pop] * 5)))
    yield run(*[("call", 0)] * 1_000, RET, before=[block, (0, [("cmd", 0), ("queue",)] * 65 + [RET])])
    yield from (run(*[("cmd", 0), ("queue",)] * count, RET) for count in (64, 65))
    yield from (run(*[("call", 0)] * count, RET, before=[(0, [("cmd", 0), ("queue",)] * 8 + [RET])]) for count in (8, 9))
    for mend in ((0, 0, 0, 0), (-1, 0, 0, 0), (0, -1, 0, 0), (0, 0, -1, 0), (0, 0, 0, -1), (-1, -1, -1, -1), (0, -1, -1, 0)):
        for routines in bounded_routines():
            draft = Draft(routines, [(1, 2, 0), (3, 2, 1), (1, 4, 0)], initial=1).with_least_budgets()
            draft.budgets = tuple(max(budget + more, 0) for budget, more in zip(draft.budgets, mend))
            yield draft.data()


def over_bounds(checks, first=0):
    """Routines from a number on, of which the last is over the bounds of these checks."""
    push, pop = ("true",), ("pop",)
    chain = [(0, [RET])] + [(0, [("call", first + number), RET]) for number in range(31)]
    tall, long = (0, [push] * 32 + [pop] * 32 + [RET]), (0, [push, pop] * 50 + [RET])
    over = {"V10": [push, ("call", first + 32), pop], "V11": [("call", first + 31)], "V12": [("call", first + 33)] * 991,
            "V13": [("call", first + 34)] * 2}
    busy = (0, [("cmd", 0), ("queue",)] * 33 + [RET])
    return [*chain, tall, long, busy, (0, [*(it for check in checks for it in over[check]), RET])]


def ordered_bounds():
    """Several bounds that are too great, in one routine and in two."""
    bounds = ("V10", "V11", "V12", "V13")
    for some in range(1, 16):
        yield run(RET, before=over_bounds([it for number, it in enumerate(bounds) if some >> number & 1]))
    for one in bounds:
        for other in bounds:
            yield run(RET, before=over_bounds([one]) + over_bounds([other], 36))


def ordered_faults():
    """Two faults in two routines, and one of them in a handler's results."""
    push = ("true",)
    faults = ([("cmd", 9), RET], [("jump", 0), RET], [push], [("call", 2), RET], [RET, RET], [("pop",), RET], [push, RET],
              [push, ("jf", 3), push, RET], [push] * 33 + [RET], [("cmd", 0), ("queue",)] * 65 + [RET], [RET])
    for one in faults:
        for other in faults:
            for results in (0, 1):
                routines = [(0, one), (0, other), (results, [push] * results + [RET])]
                yield Draft(routines, [(2, 2, 0)] * 2, budgets=(0, 0, 0, 0)).data()


def bounded_routines():
    """Routines with bounds that differ by the way that is taken, and by whether an init or a body is greater."""
    act, push = [("cmd", 0), ("queue",)], ("link", 1, 2)
    shared = (1, [push, ("known", 0), ("or",), ("not",), RET])
    branch = (0, [push, ("call", 0), ("and",), ("jt", 7), *act, RET, *act, *act, RET])
    straight = (0, [("state", 1), ("want",), RET])
    yield [shared, straight, branch, (0, [*act * 3, RET]), straight]
    yield [shared, (0, [*act * 9, RET]), straight, (0, [*act * 3, RET]), branch]
    yield [shared, straight, (0, [("call", 0), ("pop",), RET]), (0, [("call", 1), ("call", 2), RET]), branch]
    yield [shared, (0, [("cmd", 0), ("pop",), RET]), straight, (0, [("cmd", 1), ("dup",), ("queue",), ("queue",), RET]), branch]


TAKEN = {"truth": ("pop",), "command": ("queue",), "state": ("want",)}
PUSHED = {"truth": ("true",), "command": ("cmd", 0), "state": ("state", 0)}


def taking(*kinds, results=(), more=()):
    """A routine of version 2 that takes kinds off, does more and leaves some."""
    return list(kinds), list(results), [*(TAKEN[it] for it in reversed(kinds)), *more, *(PUSHED[it] for it in results), RET]


def calling(callee, *ops, budgets=(32, 32, 300_000, 64)):
    """An image of version 2 whose state's body has these instructions and can call a routine, and another above it."""
    middle = (*callee[:2], [("call", 0), RET])
    return Draft([callee, middle, ([], [], [*ops, RET]), ([], [], [RET])], [(3, 3, 0), (3, 2, 0)], budgets=budgets, version=2).data()


def kinds_faults():
    """What routines of version 2 take and leave, right and wrong."""
    lists = ([], ["truth"], ["command"], ["state"], ["command", "truth"], ["truth", "command"], ["state", "state"],
             ["truth", "command", "state", "truth"])
    for kinds in lists:
        for given in lists:
            pushes = [PUSHED[it] for it in given]
            yield from (calling(taking(*kinds), *pushes, ("call", callee)) for callee in (0, 1))
            yield calling(taking(results=given), ("call", 0), *(TAKEN[it] for it in reversed(kinds)))
            pushed, taken = [PUSHED[it] for it in kinds], [TAKEN[it] for it in reversed(given)]
            yield calling((list(kinds), list(given), [RET]), *pushed, ("call", 0), *taken)
            yield Draft([(kinds, given, [RET]), ([], [], [RET])], [(1, 1, 0), (0, 1, 0)], version=2).data()
            yield Draft([(kinds, given, [RET]), ([], [], [RET])], [(1, 0, 0), (1, 1, 0)], version=2).data()
    kept = [("true",)] * 29
    for below in (kept[:-1], kept, kept + kept[:1]):
        pops = [("pop",)] * len(below)
        yield calling(taking("truth", "command", "state"), *below, ("true",), ("cmd", 0), ("state", 0), ("call", 0), *pops)
        yield calling(taking(results=["truth"] * 4), *below, ("call", 0), *[("pop",)] * 4, *pops)
        yield calling(taking("truth", more=[*[("true",)] * 4, *[("pop",)] * 4]), *below, ("true",), ("call", 1), *pops)
    for height in (0, 1, 2, 3):
        yield calling(taking("command", "truth"), ("cmd", 0), ("true",), ("call", 0), budgets=(height, 2, 9, 1))
    smallest = Draft([([], [], [RET])], version=2).data()
    end = len(smallest) - 8
    for count in (1, 4, 5, 255):
        for kind in (0, 2, 3, 255):
            yield from (smallest[: end + it] + bytes((count,)) + bytes((kind,)) * min(count, 5) + smallest[end + it + 1 :] for it in (0, 1))
    yield from (smallest[:length] for length in range(len(smallest)))
    full = ([], [], [("true",)] * 1_023 + [RET])
    for routines, more in ((8, 0), (63, 1_023), (63, 1_024), (64, 0)):
        yield Draft([full] * routines + [([], [], [("true",)] * (more - 1) + [RET])] * bool(more), version=2).data()


def by_hand():
    """All of these images, each once, and those of version 1 that can be read in version 2 too."""
    made = [*reading_faults(), *index_faults(), *form_faults(), *stack_faults(), *bound_faults(), *ordered_bounds(),
            *ordered_faults(), *kinds_faults()]
    return list(dict.fromkeys([*made, *filter(None, map(readable, made))]))


def readable(data):
    """The upgrade of an image that can be read."""
    try:
        return upgraded(data)
    except Refused:
        return None


class Maker:
    """Makes an image by chance, whose code has the right kinds, with the least budgets."""

    def __init__(self, chance):
        self.chance = chance
        draft = self.draft = Draft([], version=chance.choice((1, 2)))
        draft.interfaces = [b"em%d" % number for number in range(chance.randrange(4))]
        draft.tests = [(chance.choice((1, 7, 604_800)), b"t%d" % number) for number in range(chance.choice((0, 1, 2, 9)))]
        draft.commands = [b"echo %d" % number for number in range(chance.randrange(4))]
        draft.names = [chance.choice((b"s%d", b"\xc3\xbc%d", b"state of the number %d")) % number
                       for number in range(chance.choice((1, 1, 2, 3, 5)))]
        shared = chance.choice((0, 1, 2, 6))
        for number in range(shared + chance.choice((1, 2, 4))):
            draft.routines.append(self.routine(number < shared))
        draft.parts = [self.part(shared) for _ in range(len(draft.names) + 1)]
        draft.initial = chance.randrange(len(draft.names))
        draft.with_least_budgets()

    def part(self, shared):
        numbers = range(shared, len(self.draft.routines))
        return self.chance.choice(numbers), self.chance.choice(numbers), self.chance.randrange(2 ** len(self.draft.tests))

    def truth(self, depth):
        """Instructions that push a truth."""
        kind = self.chance.randrange(8)
        shared = [number for number, routine in enumerate(self.draft.routines) if routine[:-1] in ((1,), ([], ["truth"]))]
        if kind < 2 and depth:
            return self.truth(depth - 1) + self.truth(depth - 1) + [(self.chance.choice(("and", "or")),)]
        if kind == 2:
            return self.truth(depth) + [("not",)]
        if kind == 3 and shared:
            return [("call", self.chance.choice(shared))]
        if kind < 6 and self.draft.interfaces:
            return [("link", self.chance.randrange(len(self.draft.interfaces)), self.chance.randrange(3))]
        if kind < 7 and self.draft.tests:
            return [(self.chance.choice(("test", "known")), self.chance.randrange(len(self.draft.tests)))]
        return [(self.chance.choice(("true", "false")),)]

    def block(self, depth, place):
        """Instructions that leave the stack as it was; they stand at a place."""
        made = []
        for _ in range(self.chance.choice((0, 1, 1, 2, 3))):
            kind = self.chance.randrange(7)
            if kind == 0 and self.draft.commands:
                made += [("cmd", self.chance.randrange(len(self.draft.commands))), *self.chance.choice(QUEUES)]
            elif kind == 1:
                made += [("state", self.chance.randrange(len(self.draft.names))), ("want",)]
            elif kind == 2 and self.draft.routines:
                made += self.call(self.chance.randrange(len(self.draft.routines)))
            elif kind == 3 and depth:
                kept = self.chance.choice((1, 2, 5))
                below = [("true",)] * kept
                made += below + self.block(depth - 1, place + len(made) + kept) + [("pop",)] * kept
            elif depth:
                made += self.branch(depth, place + len(made))
        return made

    def branch(self, depth, place):
        """A truth, and a block that it may jump over, or one of two blocks."""
        made = self.truth(2)
        inner = self.block(depth - 1, place + len(made) + 1)
        end = place + len(made) + 1 + len(inner)
        if self.chance.randrange(3):
            return made + [(self.chance.choice(("jf", "jt")), end), *inner]
        other = self.block(depth - 1, end + 1)
        return made + [("jf", end + 1), *inner, ("jump", end + 1 + len(other)), *other]

    def call(self, number):
        """A call of a routine, with what it takes before and what it leaves taken off."""
        if self.draft.version == 1:
            return [("call", number)] + [("pop",)] * self.draft.routines[number][0]
        params, results, _ = self.draft.routines[number]
        pushes = [it for kind in params for it in self.pushed(kind)]
        return [*pushes, ("call", number), *self.taken(results)]

    def pushed(self, kind):
        """Instructions that push a value of a kind."""
        if kind == "truth":
            return self.truth(1)
        table = self.draft.commands if kind == "command" else self.draft.names
        return [("cmd" if kind == "command" else "state", self.chance.randrange(len(table)))]

    def taken(self, kinds):
        """Instructions that take these kinds off."""
        return [self.chance.choice((TAKEN[kind], ("pop",))) for kind in reversed(kinds)]

    def kinds(self):
        """Up to four kinds of which there are values."""
        there = [kind for kind in KINDS if kind != "command" or self.draft.commands]
        return self.chance.choices(there, k=self.chance.choice((0, 1, 1, 2, 3, 4)))

    def routine(self, shared):
        """A routine, which is none of a handler where it is shared."""
        if self.draft.version == 1:
            return int(shared), self.block(3, 0) + (self.truth(2) if shared else []) + [RET]
        params, results = (self.kinds(), self.kinds()) if shared else ([], [])
        taken = self.taken(params)
        code = taken + self.block(3, len(taken))
        return params, results, code + [it for kind in results for it in self.pushed(kind)] + [RET]


def by_chance(chance):
    """An image by chance."""
    return Maker(chance).draft.data()
