"""The assembly text of a policy's image, from its tree, as docs/LANGUAGE.md and docs/IMAGE.md say. Slow, plain, and by
itself: equal conditions are found by looking at each pair."""
from plain_core import mentioned, room_of

LEAST_SHARED, MOST_SHARED = 5, 510


def condition_code(condition):
    """The instructions of a condition: every operand is computed."""
    kind, *inner = condition
    if kind == "link":
        return [f"link {inner[0]} {inner[1]}"]
    if kind == "test":
        return [f"test {inner[0]}"]
    if kind == "not":
        return condition_code(inner[0]) + ["not"]
    first, *others = inner[0]
    return condition_code(first) + [op for operand in others for op in [*condition_code(operand), kind]]


def condition_height(condition):
    """How many truths a condition has on the stack at most."""
    kind, *inner = condition
    if kind in ("link", "test"):
        return 1
    if kind == "not":
        return condition_height(inner[0])
    first, *others = map(condition_height, inner[0])
    return max([first, *(height + 1 for height in others)])


def conditions(actions):
    """The codes of the conditions of actions, from the top; one stands before those inside its block."""
    return [code for action in actions if action[0] == "if" for code in [condition_code(action[1]), *conditions(action[2])]]


def shared_codes(policy):
    """The codes that are shared, by their numbers."""
    standing = [code for block in policy.blocks() for code in conditions(block)]
    shared = []
    for code in standing:
        if len(code) >= LEAST_SHARED and standing.count(code) >= 2 and code not in shared:
            shared.append(code)
    return shared[:MOST_SHARED]


class Compiler:
    """Writes the code of a policy."""

    def __init__(self, policy):
        self.policy, self.shared = policy, shared_codes(policy)

    def called(self, condition):
        """The code that stands in a condition's place."""
        code = condition_code(condition)
        return [f"call {self.shared.index(code)}"] if code in self.shared else code

    def code(self, actions, place):
        """The instructions of actions that begin at a place."""
        made = []
        for action in actions:
            if action[0] == "run":
                made += [f"cmd {action[1]}", "queue"]
            elif action[0] == "set-state":
                made += [f"state {action[1]}", "want"]
            else:
                made += self.called(action[1])
                inner = self.code(action[2], place + len(made) + 1)
                made += [f"jf {place + len(made) + 1 + len(inner)}", *inner]
        return made

    def init(self, actions):
        return self.code(actions, 0) + ["ret"]

    def body(self, actions):
        tests = sorted(mentioned(actions))
        code = self.code(actions, 2 * len(tests))
        end = 2 * len(tests) + len(code)
        return [op for test in tests for op in (f"known {test}", f"jf {end}")] + code + ["ret"]

    def cost(self, routine):
        """How many instructions a run of a routine executes at most: a shared one has a `ret`."""
        calls = [int(op.split()[1]) for op in routine if op.startswith("call ")]
        return len(routine) + sum(len(self.shared[number]) + 1 for number in calls)

    def height(self, actions):
        """How many values actions have on the stack at most."""
        heights = [max(condition_height(it[1]), self.height(it[2])) if it[0] == "if" else 1 for it in actions]
        return max(heights, default=0)

    def routines(self):
        """The code of each part's init and body, in their order."""
        parts = (self.policy.always, *self.policy.parts)
        return [code for part in parts for code in (self.init(part.init), self.body(part.body))]

    def budgets(self, routines):
        """The least budgets: values on the stack, frames, instructions and commands."""
        costs = [self.cost(routine) for routine in routines]
        inits, bodies = costs[0::2], costs[1::2]
        event = bodies[0] + max(bodies[1:]) + max(inits[1:])
        start = inits[0] + inits[1 + self.policy.initial]
        stack = max(map(self.height, self.policy.blocks()))
        return stack, 2 if self.shared else 1, max(event, start), room_of(self.policy)

    def handlers(self, number, part):
        """The handlers of a part, and the tests that are active with it."""
        tests = ",".join(map(str, sorted(mentioned(part.body)))) or "-"
        init = len(self.shared) + 2 * number
        return f"init {init} body {init + 1} tests {tests}"

    def lines(self):
        policy, routines = self.policy, self.routines()
        words = zip(("stack", "frames", "cost", "commands"), self.budgets(routines))
        yield from ("ifsv 1", *(f"{word} {number}" for word, number in words), f"start {policy.initial}")
        yield f"always {self.handlers(0, policy.always)}"
        yield from (f"iface {quoted(name)}" for name in policy.interfaces)
        yield from (f"test {period} {quoted(text)}" for text, period in policy.tests)
        yield from (f"command {quoted(text)}" for text in policy.commands)
        for number, (name, part) in enumerate(zip(policy.states, policy.parts), 1):
            yield f"state {quoted(name)} {self.handlers(number, part)}"
        for code in self.shared:
            yield from ("routine results 1", *code, "ret")
        for routine in routines:
            yield from ("routine results 0", *routine)


def quoted(text):
    """A text in quotes, as assembly text has it."""
    marks = {'"': '\\"', "\\": "\\\\"}
    return '"' + "".join(marks.get(it, f"\\x{ord(it):02x}" if ord(it) < 32 or ord(it) == 127 else it) for it in text) + '"'


def assembly(policy):
    """The canonical assembly text of a policy's image, and how many conditions are shared."""
    compiler = Compiler(policy)
    return "".join(f"{line}\n" for line in compiler.lines()), len(compiler.shared)
