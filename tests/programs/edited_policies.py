"""Makes pairs of a policy and an edit of it by chance, from a seed that stays."""
import copy

from made_policies import SmallMaker
from plain_policy import LINKS, Policy


class PlainMaker(SmallMaker):
    """Makes small policies with plain names, and one period for each text of a test."""

    def __init__(self, chance):
        super().__init__(chance)
        self.tests = list(dict(self.tests).items())

    def names(self, stem, count):
        return [f"{stem}{number}" for number in range(count)]

    def command(self, word):
        return f"{word} {self.below(12)}"


class Editor:
    """Edits a policy's tree."""

    def __init__(self, chance, policy):
        self.chance, self.policy = chance, policy

    def below(self, bound):
        return self.chance.randrange(bound)

    def lists(self, actions):
        """The lists of actions in some, with themselves."""
        yield actions
        for action in actions:
            if action[0] == "if":
                yield from self.lists(action[2])

    def some_list(self, bodies):
        return self.chance.choice([it for body in bodies for it in self.lists(body)])

    def test(self):
        """A single test on facts that the policy names. A body that asks for a test more has other active tests: rarely."""
        policy = self.policy
        if policy.tests and self.below(6) == 0 or not policy.interfaces:
            return ("test", self.below(len(policy.tests)))
        return ("link", self.below(len(policy.interfaces)), self.chance.choice(LINKS))

    def wish(self, state):
        """A wish for a state, mostly under a condition."""
        wish = ("set-state", state)
        if not self.policy.tests and not self.policy.interfaces or self.below(4) == 0:
            return wish
        condition = self.test()
        return ("if", ("not", condition) if self.below(3) == 0 else condition, [wish])

    def add_own(self):
        """A wish of a state for itself: often at the start, since a later wish counts."""
        state = self.below(len(self.policy.parts))
        actions = self.some_list([self.policy.parts[state].body])
        actions.insert(0 if self.below(2) else self.below(len(actions) + 1), self.wish(state))

    def add_outside(self):
        state = self.below(len(self.policy.parts))
        actions = self.some_list([self.policy.always.body])
        actions.insert(self.below(len(actions) + 1), self.wish(state))

    def remove(self):
        actions = self.some_list(self.policy.blocks())
        if actions:
            del actions[self.below(len(actions))]

    def swap(self):
        actions = self.some_list(self.policy.blocks())
        if len(actions) > 1:
            place = self.below(len(actions) - 1)
            actions[place], actions[place + 1] = actions[place + 1], actions[place]

    def wrap(self):
        """Puts an action under a condition."""
        actions = self.some_list([it.body for it in (self.policy.always, *self.policy.parts)])
        if actions and (self.policy.tests or self.policy.interfaces):
            place = self.below(len(actions))
            actions[place] = ("if", self.test(), [actions[place]])

    def change(self):
        """Another command or another state."""
        actions = self.some_list(self.policy.blocks())
        if actions:
            place = self.below(len(actions))
            if actions[place][0] == "run":
                actions[place] = ("run", self.below(len(self.policy.commands)))
            if actions[place][0] == "set-state":
                actions[place] = ("set-state", self.below(len(self.policy.states)))

    def edit(self):
        self.chance.choice((self.add_own, self.add_own, self.add_own, self.add_outside, self.remove, self.swap, self.wrap, self.change))()


def condition_text(condition, policy):
    kind, *inner = condition
    if kind == "link":
        return f"{policy.interfaces[inner[0]]}.link.{inner[1]}"
    if kind == "test":
        text, period = policy.tests[inner[0]]
        return f'"{text}" every {period}'
    if kind == "not":
        return f"! {condition_text(inner[0], policy)}"
    sign = " && " if kind == "and" else " || "
    return "( " + sign.join(condition_text(it, policy) for it in inner[0]) + " )"


def action_text(action, policy):
    if action[0] == "run":
        return f'run "{policy.commands[action[1]]}"'
    if action[0] == "set-state":
        return f"set-state {policy.states[action[1]]}"
    return f"if {condition_text(action[1], policy)} {block_text(action[2], policy)}"


def block_text(actions, policy):
    return "{ " + " ".join(action_text(it, policy) for it in actions) + " }"


def part_text(part, policy):
    init = [f"init {block_text(part.init, policy)}"] if part.init else []
    return " ".join(init + [action_text(it, policy) for it in part.body])


def text_of(policy):
    """The text of a policy's tree."""
    states = [f"state {name} {{ {part_text(part, policy)} }}" for name, part in zip(policy.states, policy.parts)]
    return "\n".join([f"init-state {policy.states[policy.initial]}", *states, part_text(policy.always, policy)]) + "\n"


def pair_of(chance):
    """The texts of a policy and of an edit of it. Both have tables in the order of their first use."""
    maker = PlainMaker(chance)
    policy = Policy(maker.text(), maker.given)
    old = text_of(policy)
    editor = Editor(chance, copy.deepcopy(policy))
    for _ in range(chance.choice((1, 1, 1, 2))):
        editor.edit()
    return old, text_of(editor.policy)
