"""What two policies do at each evaluation and opening, by a slow look at all facts, and what a line of `compare` says of it. The names of
the policies have letters, digits, blanks, slashes and hyphens alone."""
import itertools
import re

from plain_core import Core, mentioned, room_of
from plain_policy import LINKS

LINE = re.compile(r"(?:[^ ]*: )?(?:state `(?P<state>[^`]*)`|the opening):(?: while (?P<facts>.*?),)? (?P<ends>(?:OLD|NEW) .*)")
CHOICES = {
    "has no value": (None,), "is true": (True,), "is false": (False,), "is false or has no value": (False, None),
    "is true or has no value": (True, None),
}


class Seeing(Core):
    """A core that keeps what its last evaluation saw and did: the state, links and values before it, its commands and the next state."""

    last = None

    def evaluate(self):
        policy = self.policy
        seen = (policy.states[self.state], dict(zip(policy.interfaces, self.links)), dict(zip(policy.tests, self.values)))
        commands = super().evaluate()
        texts = [policy.commands[it] for it in commands]
        self.last = (*seen, texts, policy.states[self.state])
        return commands


def put(core, state, links, values):
    """Puts a core into a state, by names, under facts by names."""
    policy = core.policy
    core.state = policy.states.index(state)
    core.links = [links.get(it, "unknown") for it in policy.interfaces]
    core.values = [values.get(it) for it in policy.tests]
    core.queue = []
    return core


def outcome(policy, state, links, values):
    """The commands of an evaluation, and the state after it."""
    core = put(Seeing(policy), state, links, values)
    core.evaluate()
    return core.last[3:]


def opening(policy, links):
    core = Core(policy, [(number, links[name]) for number, name in enumerate(policy.interfaces)])
    return [policy.commands[it] for it in core.queue]


def ways(names, values):
    """All choices of values for names."""
    return (dict(zip(names, some)) for some in itertools.product(values, repeat=len(names)))


class Pair:
    """Two policies."""

    def __init__(self, old, new):
        self.old, self.new = old, new
        self.interfaces = list(dict.fromkeys(old.interfaces + new.interfaces))
        self.tests = list(dict.fromkeys(old.tests + new.tests))

    def of(self, look):
        return look(self.old), look(self.new)

    def differs(self, look):
        one, other = self.of(look)
        return one != other

    def is_same(self):
        """Whether both do the same at each event, in each state and under all facts."""
        if any(map(self.differs, (tables_of, start_of, room_of, lambda it: active(it, it.always)))):
            return False
        if any(self.differs(lambda it: active(it, part_of(it, state))) for state in self.old.states):
            return False
        return not any(self.differing_openings()) and not any(self.differing_evaluations())

    def differing_openings(self):
        for links in ways(self.interfaces, LINKS):
            yield self.differs(lambda it: opening(it, links))

    def differing_evaluations(self):
        for state in self.old.states:
            for links in ways(self.interfaces, LINKS):
                for values in ways(self.tests, (None, True, False)):
                    yield self.differs(lambda it: outcome(it, state, links, values))


def part_of(policy, state):
    return policy.parts[policy.states.index(state)]


def tables_of(policy):
    """The names of a policy, each kind in one order."""
    return tuple(map(sorted, (policy.interfaces, policy.tests, policy.commands, policy.states)))


def start_of(policy):
    """The name of the initial state."""
    return policy.states[policy.initial]


def active(policy, part):
    """The tests that a part asks for."""
    return sorted(policy.tests[it] for it in mentioned(part.body))


class Told:
    """What a line says of an evaluation: the state before it, what links and tests may be, and the state and commands after it."""

    def __init__(self, state, facts=None, ends=None, pair=None):
        self.state, self.ends = state, None
        self.links, self.values, self.is_whole = {}, {}, True
        for fact in filter(None, (facts or "").split(", ")):
            self.add(fact, pair)
        if ends:
            self.read(ends)

    def add(self, fact, pair):
        if test := re.fullmatch(r"`(.*)` ((?:is|has) .*)", fact):
            for it in pair.tests:
                if it[0] == test[1]:
                    self.values[it] = CHOICES[test[2]]
        elif link := re.fullmatch(r"(.*) is (.*)", fact):
            self.links[link[1]] = link[2].split(" or ")
        else:
            # so many tests have values
            self.is_whole = False

    def read(self, ends):
        """What each policy does: where it leads, if that is said, and what it runs, if that is said of all."""
        if instead := re.fullmatch(r"NEW runs (.*) instead of (.*?)(?: on the way to `(.*)`)?", ends):
            then = instead[3] or self.state
            self.ends = ((then, instead[2], True), (then, instead[1], True))
            return
        old, new = re.fullmatch(r"OLD (.*?)(?:; | and )NEW (.*)", ends).groups()
        self.ends = (self.end(old), self.end(new))

    def end(self, words):
        match = re.fullmatch(r"(?:leads to `(.*?)`|stays)(?: and runs (.*))?", words)
        return (match[1] or self.state, match[2], False)

    def allows(self, state, links, values):
        """Whether facts by names are as the line says."""
        return (
            state == self.state
            and all(links.get(name, "unknown") in some for name, some in self.links.items() if name in links)
            and all(values.get(test) in some for test, some in self.values.items())
        )

    def is_end(self, which, commands, state):
        """Whether an evaluation of a policy ends so."""
        if not self.ends:
            return True
        then, said, is_part = self.ends[which]
        if self.state is not None and state != then:
            return False
        if said is None or " more" in said:
            return True
        texts = re.findall(r'"([^"]*)"', said)
        if is_part:
            return any(commands[begin : begin + len(texts)] == texts for begin in range(len(commands) + 1))
        return commands == texts


def told_by(line, pair):
    """What a line says of an evaluation or of a state, if it is about one."""
    if match := re.fullmatch("state `([^`]*)`: the test .*", line):
        return Told(match[1])
    match = LINE.fullmatch(line)
    return Told(match["state"], match["facts"], match["ends"], pair) if match else None


def wrong_line(line, pair):
    """What a line says wrongly, by a look at all facts that it allows."""
    told = told_by(line, pair)
    if told is None:
        if re.match("state|the opening", line):
            return "it is not understood"
        return None
    if not told.is_whole or not told.ends:
        return None
    for links in ways(pair.interfaces, LINKS):
        if told.state is None:
            if all(links[name] in some for name, some in told.links.items()) and not pair.differs(lambda it: opening(it, links)):
                return f"the openings are the same with {links}"
            continue
        for values in ways(pair.tests, (None, True, False)):
            if told.allows(told.state, links, values):
                ends = pair.of(lambda it: outcome(it, told.state, links, values))
                if ends[0] == ends[1] or not all(told.is_end(which, *end) for which, end in enumerate(ends)):
                    return f"{links} {values} lead to {ends}"
    return None


def plain_reply(reply):
    """A reply without what only the numbers of commands say."""
    reply = re.sub(r' queue (\S+)', lambda found: f" queue {0 if found[1] == '-' else found[1].count(',') + 1}", reply, count=1)
    return re.sub(r"^taken \d+ ", "taken ", reply)


def shows(requests, pair, told):
    """Whether requests get different replies, from the last event on; and that is as a line says, if one is told."""
    cores = pair.of(Seeing)
    replies = [[plain_reply(core.answer(it)) for it in requests] for core in cores]
    if replies[0] == replies[1]:
        return False
    if told is None or told.state is None:
        return True
    last = max((place for place, it in enumerate(requests) if it != "take"), default=0)
    if replies[0][:last] != replies[1][:last]:
        return False
    if not told.ends:
        return state_before(requests[:last], pair) == told.state
    return all(core.last and told.allows(*core.last[:3]) and told.is_end(which, *core.last[3:]) for which, core in enumerate(cores))


def state_before(requests, pair):
    """The state of the first policy after some requests."""
    core = Seeing(pair.old)
    for request in requests:
        core.answer(request)
    return core.policy.states[core.state]


def wrong_requests(line, requests, pair):
    """What is wrong with the requests of a line: they do not show it, or one of them can be left out."""
    told = told_by(line, pair)
    if not shows(requests, pair, told):
        return "the requests do not show it"
    for place in range(len(requests)):
        if shows(requests[:place] + requests[place + 1 :], pair, told):
            return f"request {place + 1} can be left out"
    return None
