"""Finds what can never happen in a policy by a look at all facts and all states. A set of facts is a number with a bit for
each: the facts of a link are its three states, those of a test are no value, false and true."""
from plain_core import mentioned
from plain_policy import LINKS


class Facts:
    """All facts of a policy, as sets."""

    def __init__(self, policy):
        count = len(policy.interfaces) + len(policy.tests)
        self.all = (1 << 3**count) - 1
        links = len(policy.interfaces)
        self.links = [[self.where(place, value) for value in range(3)] for place in range(links)]
        self.tests = [[self.where(links + place, value) for value in range(3)] for place in range(len(policy.tests))]

    def where(self, place, value):
        """Those in which the fact at a place has this value."""
        run, period = 3**place, 3 ** (place + 1)
        one = ((1 << run) - 1) << (value * run)
        made, width = one, period
        while width < self.all.bit_length():
            made |= made << width
            width *= 2
        return made & self.all

    def true(self, condition):
        """Those in which a condition is true."""
        kind, *inner = condition
        if kind == "link":
            return self.links[inner[0]][LINKS.index(inner[1])]
        if kind == "test":
            return self.tests[inner[0]][2]
        if kind == "not":
            return self.all & ~self.true(inner[0])
        sets = [self.true(operand) for operand in inner[0]]
        return intersection(self.all, sets) if kind == "and" else union(sets)

    def free(self, actions):
        """Those in which a body of these actions is evaluated: each of its tests has a value."""
        return intersection(self.all, [self.all & ~self.tests[test][0] for test in mentioned(actions)])

    def wishes(self, actions, here):
        """For each state, the facts among these in which the last wish of some actions is for it."""
        wishes = {}
        for action in actions:
            if action[0] == "set-state":
                later = {action[1]: here}
            elif action[0] == "if":
                later = self.wishes(action[2], here & self.true(action[1]))
            else:
                continue
            overruled = union(later.values())
            wishes = {state: facts & ~overruled for state, facts in wishes.items()}
            for state, facts in later.items():
                wishes[state] = wishes.get(state, 0) | facts
        return wishes

    def wished(self, actions):
        """Those in which a body wishes."""
        return union(self.wishes(actions, self.free(actions)).values())

    def leads(self, always, body):
        """For each state that evaluations with these bodies wish for, the facts in which they do."""
        wishes = self.wishes(body, self.free(body))
        silent = self.all & ~union(wishes.values())
        for state, facts in self.wishes(always, self.free(always)).items():
            wishes[state] = wishes.get(state, 0) | facts & silent
        return {state: facts for state, facts in wishes.items() if facts}


def union(sets):
    made = 0
    for one in sets:
        made |= one
    return made


def intersection(everything, sets):
    for one in sets:
        everything &= one
    return everything


class Lint:
    """The findings on a policy: the kind of each, in the order of the places and then of the states; and the states of each round."""

    def __init__(self, policy):
        self.policy, self.facts, self.found = policy, Facts(policy), []
        bodies = [self.facts.wished(part.body) for part in policy.parts]
        self.part(policy.always, bodies)
        for part in policy.parts:
            self.part(part, [0])
        self.states()

    def part(self, part, others):
        """`others` are the facts in which each body that may follow wishes."""
        self.actions(part.init, self.facts.all, 0, others)
        self.actions(part.body, self.facts.free(part.body), 0, others)

    def actions(self, actions, here, later, others):
        """`later` are the facts in which what comes behind these actions wishes."""
        for place, action in enumerate(actions):
            behind = later | union(self.facts.wishes(actions[place + 1 :], self.facts.all).values())
            if action[0] == "if":
                self.condition(action[1], here)
                self.operands(action[1], here)
                self.actions(action[2], here & self.facts.true(action[1]), behind, others)
            elif not here:
                self.found.append("unreached")
            elif action[0] == "set-state" and all(not here & ~behind & ~other for other in others):
                self.found.append("overruled")

    def condition(self, condition, here):
        if here:
            true = here & self.facts.true(condition)
            if true in (0, here):
                self.found.append("always" if true else "never")

    def operands(self, condition, here):
        if condition[0] == "not":
            self.operands(condition[1], here)
        elif condition[0] in ("and", "or"):
            self.chain(condition[0], condition[1], here)

    def chain(self, sign, operands, here):
        """Operands of one sign. Those of a first one in parentheses with the same sign are among them."""
        if operands[0][0] == sign:
            self.operands(operands[0], here)
        else:
            self.condition(operands[0], here)
            self.operands(operands[0], here)
        for place, operand in enumerate(operands):
            if place > 0:
                self.condition(operand, here)
                self.operands(operand, here)
            true = self.facts.true(operand)
            here &= true if sign == "and" else ~true

    def states(self):
        leads = [self.facts.leads(self.policy.always.body, part.body) for part in self.policy.parts]
        entered, pending = {self.policy.initial}, [self.policy.initial]
        while pending:
            new = leads[pending.pop()].keys() - entered
            entered |= new
            pending += new
        for state, others in enumerate(leads):
            if state not in entered:
                self.found.append("never-entered")
            if not others.keys() - {state}:
                self.found.append("never-left")
        self.rounds = {}
        for states, world in self.rounds_of(entered, leads):
            self.rounds[states] = self.rounds.get(states, 0) | world

    def rounds_of(self, entered, leads):
        """The states of each round, with each world of it. In a world, in which each test has a value, a state that is entered leads to
        one other or to none."""
        worlds = intersection(self.facts.all, [self.facts.all & ~values[0] for values in self.facts.tests])
        while worlds:
            world = worlds & -worlds
            worlds ^= world
            nexts = {state: other for state in entered for other, led in leads[state].items() if led & world and other != state}
            for state in nexts:
                path = [state]
                while path[-1] in nexts and nexts[path[-1]] not in path:
                    path.append(nexts[path[-1]])
                if nexts.get(path[-1]) == state:
                    yield frozenset(path), world
