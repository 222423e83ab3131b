"""Says of a claim whether steps break it, by the exact set of situations that steps lead to. A situation is a state, the facts, and
whether an evaluation is owed. A set of facts is a number with a bit for each, as in slow_lint.py.

Between two ticks a test ends at most once. So where an evaluation is owed, it matters which tests may end before the next tick:
- a tick led there: it started the tests that are active, so each of them may;
- an event led there: those outside of states may that have not ended since, and those of the state may not."""
from plain_core import mentioned
from slow_lint import Facts, union

# how a situation is: nothing is owed; an evaluation is owed, since a tick; or since an event, with the tests that may end
REST, TICKED = "rest", "ticked"


class WorldFacts(Facts):
    """Facts beside a world: each test has its result there, and a value, which is this result, or none."""

    def __init__(self, policy):
        self.places, stride = [], 1
        for values in [3] * len(policy.interfaces) + [4] * len(policy.tests):
            self.places.append((stride, values))
            stride *= values
        self.all = (1 << stride) - 1
        links = len(policy.interfaces)
        self.links = [[self.where(place, value) for value in range(3)] for place in range(links)]
        self.tests = []
        for place in range(links, len(self.places)):
            fails, passes, false, true = (self.where(place, value) for value in range(4))
            self.tests.append([fails | passes, false, true])

    def where(self, place, value):
        run, values = self.places[place]
        made, width = ((1 << run) - 1) << (value * run), run * values
        while width < self.all.bit_length():
            made |= made << width
            width *= 2
        return made & self.all

    def moved(self, facts, place, before, after):
        """Facts in which a place has one value, with another one there."""
        facts &= self.where(place, before)
        shift = (after - before) * self.places[place][0]
        return facts << shift if shift >= 0 else facts >> -shift


class Situations:
    """The situations that steps lead to: the facts, by the state and how it is there."""

    def __init__(self, policy):
        self.policy, self.facts = policy, Facts(policy)
        self.count = len(policy.interfaces)
        self.always = mentioned(policy.always.body)
        self.own = [mentioned(part.body) - self.always for part in policy.parts]
        self.leads = leads_of(policy, self.facts)
        self.found, self.pending = {}, []
        # the facts of evaluations by their state, and of those that lead to another one by both
        self.seen, self.moves = [0] * len(policy.parts), {}
        self.opening = self.facts.all
        for values in self.facts.tests:
            self.opening &= values[0]
        self.add(policy.initial, frozenset(), self.opening)
        while self.pending:
            self.go_on(*self.pending.pop())

    def add(self, state, how, facts):
        """Adds situations that are new."""
        new = facts & ~self.found.get((state, how), 0)
        if new:
            self.found[state, how] = self.found.get((state, how), 0) | new
            self.pending.append((state, how, new))

    def go_on(self, state, how, facts):
        """Adds what each step leads to."""
        is_event = how not in (REST, TICKED)
        may_end = how if is_event else self.always | self.own[state]
        left = how if is_event else frozenset(self.always)
        for place in range(self.count):
            self.evaluate(state, self.changed(facts, place, (0, 1, 2)), left)
        for test in may_end:
            self.evaluate(state, self.changed(facts, self.count + test, (1, 2)), left - {test})
        if how != REST:
            self.evaluate(state, facts, TICKED)

    def changed(self, facts, place, values):
        """Facts with another value at a place."""
        made, run = 0, 3**place
        for before in range(3):
            part = facts & self.facts.where(place, before)
            for after in values:
                if after != before:
                    shift = (after - before) * run
                    made |= part << shift if shift >= 0 else part >> -shift
        return made

    def evaluate(self, state, facts, how):
        """Adds what an evaluation leads to."""
        self.seen[state] |= facts
        for other, led in self.leads[state].items():
            moved = facts & led
            if moved:
                self.moves[state, other] = self.moves.get((state, other), 0) | moved
                self.add(other, how, self.kept(moved))
                facts &= ~led
        if facts:
            self.add(state, REST, facts)

    def kept(self, facts):
        """Facts after an entry: tests that are not active outside of states lose their values."""
        for test in range(len(self.facts.tests)):
            if test not in self.always:
                run = 3 ** (self.count + test)
                none, false, true = (facts & values for values in self.facts.tests[test])
                facts = none | false >> run | true >> 2 * run
        return facts

    def at_rest(self, state):
        """The facts in which nothing is owed in a state, and no body is held back."""
        free = self.facts.free(self.policy.always.body) & self.facts.free(self.policy.parts[state].body)
        return self.found.get((state, REST), 0) & free

    def ever(self, state):
        """All facts in a state."""
        return union(facts for (other, _), facts in self.found.items() if other == state)

    def running(self, command):
        """The facts of evaluations and openings that queue a command."""
        policy, facts, made = self.policy, self.facts, 0
        for part in (policy.always, policy.parts[policy.initial]):
            made |= runs_in(facts, part.init, command, self.opening)
        for state, part in enumerate(policy.parts):
            for body in (policy.always.body, part.body):
                made |= runs_in(facts, body, command, self.seen[state] & facts.free(body))
        for (_, state), moved in self.moves.items():
            made |= runs_in(facts, policy.parts[state].init, command, moved)
        return made


def leads_of(policy, facts):
    """For each state the facts that lead to another one, by the other one."""
    leads = []
    for state, part in enumerate(policy.parts):
        wishes = facts.leads(policy.always.body, part.body)
        leads.append({other: led for other, led in wishes.items() if other != state})
    return leads


def runs_in(facts, actions, command, here):
    """The facts among these in which actions run a command."""
    made = 0
    for action in actions:
        if action[0] == "run" and action[1] == command:
            made |= here
        elif action[0] == "if":
            made |= runs_in(facts, action[2], command, here & facts.true(action[1]))
    return made


class Worlds:
    """How often the state changes in one world, from wherever steps lead to."""

    def __init__(self, situations):
        self.policy, self.count = situations.policy, situations.count
        self.always, self.own = situations.always, situations.own
        self.facts = WorldFacts(self.policy)
        self.leads = leads_of(self.policy, self.facts)
        self.besides = {}
        self.here = {key: self.lifted(facts) for key, facts in situations.found.items()}

    def lifted(self, facts):
        """Facts beside each world that they agree with."""
        numbers = (number for number in range(facts.bit_length()) if facts >> number & 1)
        return union(map(self.beside, numbers))

    def beside(self, number):
        """The facts with this number, beside each such world."""
        if number not in self.besides:
            made = self.facts.all
            for place, values in enumerate(self.facts.links + self.facts.tests):
                made &= values[number // 3**place % 3]
            self.besides[number] = made
        return self.besides[number]

    def most(self, enough):
        """The most changes, or `enough` if there are so many."""
        changes, here, before = 0, self.here, []
        while changes < enough and here not in before:
            before.append(here)
            here = self.after_a_change(here)
            if not here:
                return changes
            changes += 1
        return enough

    def after_a_change(self, here):
        """The situations after one more change."""
        found, pending, there = dict(here), list(here.items()), {}

        def evaluate(state, facts, how):
            for other, led in self.leads[state].items():
                moved = facts & led
                if moved:
                    there[other, how] = there.get((other, how), 0) | self.kept(moved)
                    facts &= ~led
            new = facts & ~found.get((state, REST), 0)
            if new:
                found[state, REST] = found.get((state, REST), 0) | new
                pending.append(((state, REST), new))

        while pending:
            (state, how), facts = pending.pop()
            is_event = how not in (REST, TICKED)
            left = how if is_event else frozenset(self.always)
            for test in how if is_event else self.always | self.own[state]:
                evaluate(state, self.ended(facts, test), left - {test})
            if how != REST:
                evaluate(state, facts, TICKED)
        return there

    def ended(self, facts, test):
        """Facts in which a test had no value, with that of the world."""
        place = self.count + test
        return self.facts.moved(facts, place, 0, 2) | self.facts.moved(facts, place, 1, 3)

    def kept(self, facts):
        """Facts after an entry."""
        for test in range(len(self.facts.tests)):
            if test not in self.always:
                place = self.count + test
                lost = self.facts.moved(facts, place, 2, 0) | self.facts.moved(facts, place, 3, 1)
                facts = facts & self.facts.tests[test][0] | lost
        return facts
