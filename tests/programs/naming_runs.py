"""Sessions of `sim --names`: lines that name links and tests, and waits. Parts of tests/programs/run_program_tests."""
import json

from running import MOST_BYTES, holds, ran

# test 0 and 1 have one text; names with quotes
POLICY = """\
state backup {
	init { run "first" }
	if carp0.link.up && "ping -c 1 h" every 10 set-state master
}
state master {
	if "ping -c 1 h" every 3 { run "seen" }
	if 'say "x"' every 7 && 'a "b'.link.up set-state broken
}
state broken { if carp0.link.down set-state backup }
"""
LONG = "x" * 300
# lines, and the requests that they stand for
TALK = (
    ('link "carp0" up', ["link carp0 up"]),
    ("wait 1", ["tick 1"]),
    ('test "ping -c 1 h" pass', ["result 0 1 ok"]),
    # the state that was entered is evaluated a second later, and its tests start; then none is due
    ("wait 10", ["tick 2", "tick 11"]),
    ('test "say \\"x\\"" fail', ["result 2 3 fail"]),
    ('test "ping -c 1 h" pass', ["result 1 2 ok"]),
    # both were due before
    ("wait 5", ["tick 12", "tick 16"]),
    ('test "ping -c 1 h" fail', ["result 1 4 fail"]),
    ('link "a \\"b" up', ['link a "b up']),
    ('test "say \\"x\\"" pass', ["result 2 5 ok"]),
    ('test "say \\"x\\"" pass', ["result 2 0 ok"]),
    ("wait 3", ["tick 17", "tick 19"]),
    ("link carp0 down", ["link carp0 down"]),
    ("wait 2", ["tick 20", "tick 21"]),
    ("tick 30", ["tick 30"]),
    ("status", ["status"]),
    ("trace", ["trace"]),
    ("result 0 6 fail", ["result 0 6 fail"]),
    # its next run is due, and the run after it a period later
    ("wait 604800", ["tick 31", "tick 604830"]),
    *((line, [line]) for line in (
        'test "none" fail', 'link "em9" up', 'link "carp0" off', "wait 0", "wait 604801", "wait x", "wait", "wait  5",
        "test", "test x pass", 'test "ping -c 1 h" ok', 'test "ping -c 1 h"', 'test ping -c 1 h fail', "link carp0 up ", "",
        "reload", "take", "take", "take",
    )),
    ("stop", ["stop"]),
)
# after `stop` nothing is read
UNREAD = "status\n"
# 40 commands at its opening, which leave no room for the 64 that an event may queue
RUNS = [f'run "{command}"' for command in range(64)]
FULL = f"state a {{ init {{ {' '.join(RUNS[:40])} }} if carp0.link.up {{ {' '.join(RUNS[40:])} }} }}"
OTHERS = (
    # a tick that is not done ends the wait
    (FULL, (("wait 5", ["tick 1"]), ("take", ["take"]))),
    # a name with quotes comes before one in quotes
    ("""state a { if '"carp0"'.link.up { } if carp0.link.up { } }""",
     (('link "carp0" up', ['link "carp0" up']), ('link "\\"carp0\\"" up', ['link "carp0" up']))),
    # a line may be longer than a request
    (f'state a {{ if "{LONG}" every 5 {{ }} }}',
     (("wait 1", ["tick 1"]), (f'test "{LONG}" pass', ["result 0 1 ok"]), ("link " + LONG, ["link " + LONG]))),
    # words of a tick's reply in the name of a state
    ("""state "starts 0:7" { if "true" every 5 { } }""", (("wait 1", ["tick 1"]), ('test "true" fail', ["result 0 1 fail"]))),
)


def image_of(program, policy):
    with open("named", "w") as file:
        file.write(policy)
    holds(ran(program, "compile", "--quiet", "named", "named.image").status == 0, "a policy is not compiled")
    return "named.image"


def sim(program, image, given, *options):
    return ran(program, "sim", *options, image, input=given)


def answers(program):
    """Each run's name, what it gave, and what it has to give: the replies of a session to the requests that lines stand for."""
    for policy, talk in ((POLICY, TALK), *OTHERS):
        image = image_of(program, policy)
        given = "".join(f"{line}\n" for line, _ in talk) + UNREAD
        requests = [request for _, told in talk for request in told] + ([] if talk[-1][0] == "stop" else UNREAD.split())
        _, replies, _ = sim(program, image, "".join(f"{it}\n" for it in requests).encode())
        echoed = sim(program, image, given.encode(), "--names", "--echo")[1].decode().splitlines()
        yield f"requests of {talk[0][0]}", [it[2:] for it in echoed if it.startswith("> ")], requests
        yield f"replies of {talk[0][0]}", [it for it in echoed if not it.startswith("> ")], replies.decode().splitlines()
        yield f"sim --names {talk[0][0]}", sim(program, image, given.encode(), "--names"), (0, replies, b"")
        yield "a last line without an end", sim(program, image, given.rstrip("\n").encode(), "--names"), (0, replies, b"")
    image = image_of(program, POLICY)
    first = sim(program, image, b'link "carp0" up\nwait 1\n')
    yield "sim without --names", first, (0, b"fault C4\nfault C1\n", b"")
    echoed = sim(program, image, b'wait 1\ntest "\xff" fail\n', "--names", "--echo")
    yield "no UTF-8", echoed, (0, b'> tick 1\ntick "backup" cost 4 queue - starts 0:1\n> test "\xff" fail\nfault C1\n', b"")
    yield "no lines", sim(program, image, b"", "--names"), (0, b"", b"")
    yield "the longest line", sim(program, image, b"x" * MOST_BYTES, "--names"), (0, b"fault C2\n", b"")
    yield "a longer one", sim(program, image, b"x" * (MOST_BYTES + 1), "--names"), (3, b"", b"device S3\n")
    lines = b"take\n" * (MOST_BYTES // 5 + 1)
    status, told, error = sim(program, image, lines, "--names")
    yield "too many lines", (status, told[:15], error), (3, b'taken 0 "first"', b"device S3\n")
    yield "--echo alone", sim(program, image, b"", "--echo")[:2], (2, b"")
    with open("/dev/full", "wb") as full:
        run = ran(program, "sim", "--names", image, input=b"take\n", stdout=full)
        yield "sim --names > /dev/full", (run.status, run.error), (3, b"device S2\n")
    yield from printed(program)


def printed(program):
    """`sim --names` takes what prove, compare and lint print of names that a terminal acts on, and JSON has requests for `sim`."""
    policy = """state a { if "e\x1b[1m".link.up set-state b } state b { if "e\x1b[1m".link.up set-state a }"""
    image = image_of(program, policy)
    for path, text in (("claims", "never enter b\n"), ("other", policy.replace("up set-state b", "down set-state b"))):
        with open(path, "w") as file:
            file.write(text)
    for words in (("lint", "named"), ("prove", "named", "claims"), ("compare", "named", "other")):
        told = ran(program, *words).texts().output.split("\n")
        lines = [line[4:] for line in told if line.startswith("    ") and line[4] != "#"]
        objects = map(json.loads, ran(program, *words, "--json").texts().output.splitlines())
        requests = next(found["requests"] for found in objects if found.get("requests"))
        name = f"ifsvm {' '.join(words)}: its requests with names"
        yield f"{name}, with a hint", "hint: `ifsvm sim --names` takes these lines" in told, True
        yield f"{name}, in quotes", [line for line in lines if line.startswith("link ") and '"e\\x1b[1m"' not in line], []
        given = ["".join(f"{line}\n" for line in some).encode() for some in (lines, requests)]
        yield name, sim(program, image, given[0], "--names"), sim(program, image, given[1])
