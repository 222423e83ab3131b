"""Reads an image and verifies it, as docs/IMAGE.md says: the line that `ifsvm verify` prints of any bytes. Slow, plain,
and by itself: nothing of the crates is used, and nothing but that page was."""
from instructions import GIVES, NAMES, OPERANDS, TABLES, TAKES

MAGIC, VERSIONS = b"IFSV", 2
STACK, FRAMES, COST, COMMANDS = 32, 32, 300_000, 64
ROUTINE_COST, ROUTINE_OPS, TEXT, PERIOD = 100_000, 1_024, 1_024, 604_800
IMAGE_OPS = {1: 8_192, 2: 65_535}
KINDS = ("truth", "command", "state")
COUNTS = {"interfaces": (0, 64), "tests": (0, 64), "commands": (0, 1_024), "states": (1, 256), "routines": (0, 1_024)}


class Refused(Exception):
    """A check that fails, and its place."""

    def __init__(self, check, place):
        super().__init__(f"refused {check} {place}")


class Part:
    """The always part or a state: its init routine, its body routine and its mask of tests."""

    def __init__(self, fields):
        self.init, self.body, self.mask = fields.number(2), fields.number(2), fields.number(8)

    def handlers(self):
        return (self.init, self.body)


class Fields:
    """The fields of bytes from the left. Those that were read are kept: a kind, an offset and a length."""

    def __init__(self, data):
        self.data, self.place, self.read = data, 0, []

    def take(self, length, kind):
        """The bytes of the next field, which has to be there whole."""
        taken = self.data[self.place : self.place + length]
        if len(taken) < length:
            raise Refused("I1", f"byte {self.place}")
        self.read.append((kind, self.place, length))
        self.place += length
        return taken

    def refuse(self, check):
        """Refuses the field that was read last."""
        raise Refused(check, f"byte {self.read[-1][1]}")

    def number(self, length, least=0, most=None, check="I4"):
        """A number, which may have limits."""
        number = int.from_bytes(self.take(length, "number"), "big")
        if number < least or (most is not None and number > most):
            self.refuse(check)
        return number

    def text(self, others=None):
        """A text with its length, and among names another one than the others."""
        text = self.take(self.number(2, 1, TEXT, "I5"), "text")
        if 0 in text or not is_utf8(text):
            self.refuse("I5")
        if others is not None and text in others:
            self.refuse("I6")
        return text

    def op(self):
        """An instruction: its text's word, its operand or None, and its link state."""
        code, link, high, low = self.take(4, "op")
        name, operand = NAMES[code] if code < len(NAMES) else None, 256 * high + low
        if name is None or link > (2 if name == "link" else 0) or (operand and name not in OPERANDS):
            self.refuse("I8")
        return name, operand


def is_utf8(text):
    try:
        text.decode()
        return True
    except UnicodeDecodeError:
        return False


class Image:
    """What bytes spell. Ends with a refusal where they spell no image."""

    def __init__(self, data):
        self.fields = fields = Fields(data)
        if fields.take(4, "magic") != MAGIC:
            fields.refuse("I2")
        self.version = fields.number(1, 1, VERSIONS, "I3")
        self.stack, self.frames = fields.number(2, 0, STACK), fields.number(2, 0, FRAMES)
        self.cost, self.commands = fields.number(4, 0, COST), fields.number(2, 0, COMMANDS)
        self.counts = {table: fields.number(2, *limits) for table, limits in COUNTS.items()}
        self.initial, self.always = fields.number(2), Part(fields)
        self.states, self.routines = [], []
        self.read_tables()
        for _ in range(self.counts["routines"]):
            self.read_routine()
        if fields.place < len(data):
            raise Refused("I7", f"byte {fields.place}")

    def read_tables(self):
        """The interfaces, tests, commands and states."""
        names = set()
        for _ in range(self.counts["interfaces"]):
            names.add(self.fields.text(names))
        for _ in range(self.counts["tests"]):
            self.fields.number(4, 1, PERIOD)
            self.fields.text()
        for _ in range(self.counts["commands"]):
            self.fields.text()
        names = set()
        for _ in range(self.counts["states"]):
            names.add(self.fields.text(names))
            self.states.append(Part(self.fields))

    def read_routine(self):
        start = self.fields.place
        if self.version == 1:
            params, results = [], ["truth"] * self.fields.number(1, 0, 1)
        else:
            params, results = self.read_kinds(), self.read_kinds()
        before = sum(len(routine.ops) for routine in self.routines)
        counted = self.fields.place
        count = self.fields.number(2, 0, min(ROUTINE_OPS, IMAGE_OPS[self.version] - before))
        ops = [self.fields.op() for _ in range(count)]
        self.routines.append(Routine(len(self.routines), params, results, ops))
        self.routines[-1].start, self.routines[-1].counted = start, counted

    def read_kinds(self):
        """A number of kinds, and the kinds, the topmost last."""
        count = self.fields.number(1, 0, 4)
        return [KINDS[self.fields.number(1, 0, 2)] for _ in range(count)]

    def parts(self):
        """The always part and the states, with their places in the order of the checks."""
        return [("head", self.always)] + [(f"state {number}", part) for number, part in enumerate(self.states)]

    def handlers(self):
        """The routines of handlers."""
        return [self.routines[handler] for _, part in self.parts() for handler in part.handlers()]


class Routine:
    """A routine, and its bounds once it was looked at. `start` is the offset of its first byte, and `counted` that of its
    number of instructions."""

    def __init__(self, number, params, results, ops):
        self.number, self.params, self.results, self.ops = number, params, results, ops
        self.height = self.frames = self.cost = self.commands = self.start = self.counted = 0

    def refuse(self, check, place):
        raise Refused(check, f"routine {self.number} place {place}")

    def followers(self, place):
        """The places that may follow a place."""
        name, operand = self.ops[place]
        next_one = {"ret": [], "jump": [operand], "jf": [place + 1, operand], "jt": [place + 1, operand]}
        return next_one.get(name, [place + 1])


def check_indices(image):
    """V2: all indices and mask bits are in their tables."""
    if image.initial >= image.counts["states"]:
        raise Refused("V2", "head")
    for place, part in image.parts():
        if max(part.handlers()) >= image.counts["routines"] or part.mask >> image.counts["tests"]:
            raise Refused("V2", place)
    for routine in image.routines:
        for place, (name, operand) in enumerate(routine.ops):
            if name in TABLES and operand >= image.counts[TABLES[name]]:
                routine.refuse("V2", place)


def check_handlers(image):
    """V14: handlers have neither parameters nor results."""
    for place, part in image.parts():
        if any(image.routines[it].params or image.routines[it].results for it in part.handlers()):
            raise Refused("V14", place)


def check_jumps(image):
    """V3: jumps lead down, and stay in their routine."""
    for routine in image.routines:
        for place, (name, operand) in enumerate(routine.ops):
            if name in ("jump", "jf", "jt") and not place < operand < len(routine.ops):
                routine.refuse("V3", place)


def check_ends(image):
    """V4: routines end with ret."""
    for routine in image.routines:
        if not routine.ops or routine.ops[-1][0] != "ret":
            routine.refuse("V4", max(len(routine.ops) - 1, 0))


def check_calls(image):
    """V8: calls go to routines of lower numbers."""
    for routine in image.routines:
        for place, (name, operand) in enumerate(routine.ops):
            if name == "call" and operand >= routine.number:
                routine.refuse("V8", place)


def check_reached(image):
    """V5: each place but 0 follows an earlier one."""
    for routine in image.routines:
        reached = {0}
        for place in range(len(routine.ops)):
            if place not in reached:
                routine.refuse("V5", place)
            reached.update(routine.followers(place))


def left_by(image, routine, place, stack):
    """What the instruction at a place leaves of the kinds on the stack: V6 and V9."""
    name, operand = routine.ops[place]
    if name == "ret":
        if stack != routine.results:
            routine.refuse("V9", place)
        return stack
    wanted = image.routines[operand].params if name == "call" else TAKES.get(name, [])
    taken = stack[len(stack) - len(wanted) :] if len(stack) >= len(wanted) else None
    if taken is None or any(want not in ("any", kind) for want, kind in zip(wanted, taken)):
        routine.refuse("V6", place)
    rest = stack[: len(stack) - len(wanted)]
    if name == "call":
        return rest + image.routines[operand].results
    if name == "dup":
        return rest + taken * 2
    return rest + [GIVES[name]] if name in GIVES else rest


def check_stacks(image):
    """V6, V9, V10 and V7 of what each instruction leaves; heights are found on the way."""
    for routine in image.routines:
        stacks = {0: routine.params}
        for place, (name, operand) in enumerate(routine.ops):
            before = stacks[place]
            after = left_by(image, routine, place, before)
            if len(after) > STACK:
                routine.refuse("V10", place)
            for follower in routine.followers(place):
                if stacks.setdefault(follower, after) != after:
                    routine.refuse("V7", place)
            routine.height = max(routine.height, len(before), len(after))
            if name == "call":
                callee = image.routines[operand]
                routine.height = max(routine.height, len(before) - len(callee.params) + callee.height)


def find_bounds(image, routine):
    """The frames, cost and commands of a routine, from those of the routines that it calls."""
    costs, commands = {}, {}
    routine.frames = 1
    for place in reversed(range(len(routine.ops))):
        name, operand = routine.ops[place]
        costs[place], commands[place] = 1, int(name == "queue")
        if name == "call":
            called = image.routines[operand]
            routine.frames = max(routine.frames, called.frames + 1)
            costs[place] += called.cost
            commands[place] += called.commands
        costs[place] += max((costs[it] for it in routine.followers(place)), default=0)
        commands[place] += max((commands[it] for it in routine.followers(place)), default=0)
    routine.cost, routine.commands = costs[0], commands[0]


def check_bounds(image):
    """V10 to V13 of one routine after the other."""
    for routine in image.routines:
        find_bounds(image, routine)
        bounds = (routine.height, routine.frames, routine.cost, routine.commands)
        for check, bound, limit in zip(("V10", "V11", "V12", "V13"), bounds, (STACK, FRAMES, ROUTINE_COST, COMMANDS)):
            if bound > limit:
                routine.refuse(check, 0)


def greatest_event(image, bound):
    """The greater sum of a bound of handlers: that of an evaluation or of the opening."""
    def of(handler):
        return getattr(image.routines[handler], bound)
    inits, bodies = [of(part.init) for part in image.states], [of(part.body) for part in image.states]
    return max(of(image.always.body) + max(bodies) + max(inits), of(image.always.init) + inits[image.initial])


def check_head(image):
    """V10 to V13 of the stated budgets."""
    height = max(routine.height for routine in image.handlers())
    frames = max(routine.frames for routine in image.handlers())
    bounds = ((height, image.stack), (frames, image.frames), (greatest_event(image, "cost"), image.cost),
              (greatest_event(image, "commands"), image.commands))
    for check, (bound, stated) in zip(("V10", "V11", "V12", "V13"), bounds):
        if bound > stated:
            raise Refused(check, "head")


CHECKS = (check_indices, check_handlers, check_jumps, check_ends, check_calls, check_reached, check_stacks, check_bounds,
          check_head)


def verified(data):
    """The line that `ifsvm verify` prints of bytes, without its newline."""
    try:
        image = Image(data)
        for check in CHECKS:
            check(image)
    except Refused as refused:
        return str(refused)
    return f"ok stack {image.stack} frames {image.frames} cost {image.cost} commands {image.commands}"
