"""Says whether steps of a plain core, or any situation that steps lead to, break a claim. Claims are as
docs/ANALYSES.md has them, and claim_lines.py reads them."""
import re

from claim_lines import KNOWING, claims_in
from plain_core import Core, asked, mentioned
from plain_policy import Policy
from slow_claims import Worlds


# of more changes than so, requests show two rounds
ROUNDS = 16
# the most ticks without a change where rounds go on
QUIET = 1_000


class Claim:
    """A claim on a policy: its form, the numbers of its states, of those behind `to` and of its commands, its condition, and its number.
    A condition behind `known` or `unknown` is a pair of this word and a condition."""

    def __init__(self, form, states=(), others=(), commands=(), condition=None, number=0):
        self.form, self.states, self.others, self.commands = form, states, others, commands
        self.condition, self.number = condition, number

    def is_broken(self, situations):
        """Whether steps break it, by the exact set of situations."""
        return getattr(self, self.form)(situations, situations.facts)

    def never_rest(self, situations, facts):
        true = claimed(facts, self.condition)
        return any(situations.at_rest(state) & true for state in self.states)

    def rest_in(self, situations, facts):
        true = claimed(facts, self.condition)
        others = set(range(len(situations.policy.parts))) - set(self.states)
        return any(situations.at_rest(state) & true for state in others)

    def never_from(self, situations, _):
        return any(situations.moves.get((state, other), 0) for state in self.states for other in self.others)

    def never_enter(self, situations, _):
        return any(map(situations.ever, self.states))

    def never_enter_while(self, situations, facts):
        true = claimed(facts, self.condition)
        return any(moved & true for (_, entered), moved in situations.moves.items() if entered in self.states)

    def never_run(self, situations, facts):
        true = claimed(facts, self.condition)
        return any(situations.running(command) & true for command in self.commands)

    def rest_within(self, situations, _):
        return Worlds(situations).most(self.number + 1) > self.number

    def never_in(self, situations, facts):
        true = claimed(facts, self.condition)
        return any(situations.ever(state) & true for state in self.states)


class Moment:
    """What a step of a plain core saw and did."""

    def __init__(self, before, state, links, values, commands):
        self.before, self.state, self.links, self.values, self.commands = before, state, links, values, commands


def claimed(facts, condition):
    """The facts in which what a claim has behind `while` is so."""
    word, *inner = condition
    if word not in KNOWING:
        return facts.true(condition)
    valued = facts.all
    for test in asked(inner[0]):
        valued &= ~facts.tests[test][0]
    return facts.true(inner[0]) & valued if word == "known" else facts.all & ~valued


def truth(condition, links, values):
    """Whether it is so with these links and values."""
    kind, *inner = condition
    if kind in KNOWING:
        is_valued = all(values[test] is not None for test in asked(inner[0]))
        return is_valued and truth(inner[0], links, values) if kind == "known" else not is_valued
    if kind == "link":
        return links[inner[0]] == inner[1]
    if kind == "test":
        return values[inner[0]] is True
    if kind == "not":
        return not truth(inner[0], links, values)
    return (all if kind == "and" else any)([truth(operand, links, values) for operand in inner[0]])


def is_settled(core):
    """Whether nothing is owed, and each active test has a value."""
    active = mentioned(core.policy.always.body) | mentioned(core.part().body)
    return not core.owed and all(core.values[test] is not None for test in active)


def breaks_now(claim, core, moment):
    """Whether a core breaks a claim after a step that saw so much. Of `rest within` that is not said."""
    form, states = claim.form, claim.states
    if form in ("never_rest", "rest_in"):
        wrong = (core.state in states) == (form == "never_rest")
        return wrong and is_settled(core) and truth(claim.condition, core.links, core.values)
    if form == "never_in":
        return core.state in states and truth(claim.condition, core.links, core.values)
    if form == "never_enter":
        return core.state in states
    if form == "never_from":
        return moment.before in states and core.state in claim.others
    if form == "never_enter_while":
        is_entered = core.state in states and moment.before not in (None, core.state)
        return is_entered and truth(claim.condition, moment.links, moment.values)
    if form == "never_run":
        is_run = any(command in moment.commands for command in claim.commands)
        return is_run and truth(claim.condition, moment.links, moment.values)
    return False


def stepped(core, request):
    """Makes a request of a core, and returns what its step saw."""
    before, queued = core.state, len(core.queue)
    links, values = list(core.links), list(core.values)
    words = request.split(" ")
    reply = core.answer(request)
    if words[0] == "link":
        links = list(core.links)
    if words[0] == "result" and reply.startswith("done"):
        values[int(words[1])] = words[3] == "ok"
    commands = core.queue[queued:] if words[0] != "take" else []
    return Moment(before, core.state, links, values, commands)


def opened(core):
    """What the opening of a core saw."""
    return Moment(None, core.state, list(core.links), list(core.values), list(core.queue))


def most_changes(core, requests):
    """The most changes of the state by requests one after the other that report of each link and test one thing, which agrees with the
    facts before them."""
    steps = [in_world(core, request) for request in requests]
    return max((changes_from(steps[start:]) for start in range(len(steps))), default=0)


def goes_on(core, requests, number):
    """Whether many changes go on after the requests, until there are more than so, if links stay and tests end as they did last."""
    if number < ROUNDS:
        return False
    ends = {int(words[1]): words[3] for words in map(str.split, requests) if words[0] == "result"}
    changes = quiet = 0
    while changes <= number and quiet < QUIET:
        running = [(test, plan[1]) for test, plan in enumerate(core.plan) if plan and plan[1] is not None and test in ends]
        more = 0
        for line in [*(f"result {test} {run} {ends[test]}" for test, run in running), f"tick {core.now + 1}"]:
            core.queue.clear()
            more += in_world(core, line)[-1]
        changes, quiet = changes + more, 0 if more else quiet + 1
    return changes > number


def in_world(core, request):
    """What a request does: the values before it, whether a link changes, the test that ends with its value, and whether the state
    changes."""
    values, before, words = valued(core), core.state, request.split(" ")
    reply = core.answer(request)
    ended = (int(words[1]), words[3] == "ok") if words[0] == "result" and reply != "stale" else None
    return values, words[0] == "link" and reply.startswith("done"), ended, core.state != before


def changes_from(steps):
    """The changes of the first steps that report one thing."""
    world, changes = dict(steps[0][0]), 0
    for _, is_link, ended, is_change in steps:
        if is_link or ended and world.setdefault(*ended) is not ended[1]:
            break
        changes += is_change
    return changes


def valued(core):
    """The tests that have a value, with it."""
    return {test: value for test, value in enumerate(core.values) if value is not None}


def known_in(policy, message):
    """The link states that a reload knows, by the words of a verdict."""
    found = re.search(r"after a reload that knows (.*?), (?:by these requests|at the opening)", message, re.DOTALL)
    for text in found[1].split(", ") if found else ():
        name, _, link = text.rpartition(" ")
        yield policy.interfaces.index(name), link


def is_replayed(policy, claim, known, requests):
    """Whether requests break a claim on a plain core that knows these links."""
    core = Core(policy, known)
    if claim.form == "rest_within":
        return most_changes(core, requests) > claim.number or goes_on(core, requests, claim.number)
    moment = opened(core)
    if all(line == "take" for line in requests):
        # they only show what the opening queued
        return breaks_now(claim, core, moment)
    for line in requests:
        moment = stepped(core, line)
    return breaks_now(claim, core, moment)


def condition_of(text, given, words):
    """The condition of some words, behind a policy's text, if it names only links and tests of the policy."""
    plain = Policy(text, given)
    beside = Policy(f"{text}\nif {words} {{ }}\n", given)
    if (beside.interfaces, beside.tests) != (plain.interfaces, plain.tests):
        return None
    return beside.always.body[-1][1]


def claim_of(form, *parts):
    """A claim as claim_lines.py reads it. None for `may flap`, which claims nothing."""
    if form in ("never rests", "rests in", "never in"):
        return Claim(form.replace(" rests", " rest").replace("rests in", "rest in").replace(" ", "_"), parts[0], condition=parts[1])
    if form == "never from":
        return Claim("never_from", *parts)
    if form == "never enters":
        return Claim("never_enter", *parts)
    if form == "never enters while":
        return Claim("never_enter_while", parts[0], condition=parts[1])
    if form == "never runs":
        return Claim("never_run", commands=parts[0], condition=parts[1])
    return Claim("rest_within", number=parts[0]) if form == "rests within" else None


def claims_of(claims, text):
    """The claims of a file on a policy, by their lines."""
    made = {line: claim_of(*words) for line, words in claims_in(text, claims.encode())}
    return {line: claim for line, claim in made.items() if claim}
