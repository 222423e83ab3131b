"""What tools/bench runs the program on: images, request lines and policy texts."""
import itertools
import struct

from instructions import op

RET, TRUE, LINK, TEST, KNOWN, NOT, AND, OR, CMD, STATE, QUEUE, WANT, JUMP, JF, JT, CALL, POP = (
    "ret true link test known not and or cmd state queue want jump jf jt call pop".split())
DOWN, UP = 1, 2
MOST_BYTES = 1_048_576
MOST_BLOCKS = 256
MOST_TESTS = 64
MOST_STATES = 256
MOST_TEXT = 1_024
# the routines of a full image and the instructions of each, of which the last alone is a `ret`
FULL_ROUTINES, FULL_CODE = 8, 1_023
# how bytes that are escaped in quotes are spelled there, and the distances between such bytes
ESCAPES = {'"': '\\"', "\\": "\\\\", "\x1b": "\\x1b"}
DENSE = [8 + 5 * turn % 13 for turn in range(13)]
SPARSE = [100, 200, 150]
BLOCK = 4_096
COMMENT = "# the gateway that holds the address answers, and the other one waits until its peer is gone\n"


def text(words):
    return struct.pack(">H", len(words)) + words.encode()


def state(name, init, body, mask=0):
    return text(name) + struct.pack(">HHQ", init, body, mask)


def image(routines, states, always=0, tests=(), commands=(), period=1, interfaces=("carp0",), queued=64):
    """An always body of that number; its init is routine 0. All tests have one period. At most so many commands may be
    queued."""
    return b"".join([
        b"IFSV\x01",
        struct.pack(">HHIH", 32, 32, 300_000, min(len(commands), queued)),
        struct.pack(">HHHHH", len(interfaces), len(tests), len(commands), len(states), len(routines)),
        struct.pack(">HHHQ", 0, 0, always, 0),
        *[text(interface) for interface in interfaces],
        *[struct.pack(">I", period) + text(test) for test in tests],
        *[text(command) for command in commands],
        *states,
        *[struct.pack(">BH", 0, len(code)) + b"".join(code) for code in routines],
    ])


def gateway():
    """Two tests, due each second. A command is queued where both hold and the link is up, and another one where
    neither holds and it is down."""
    body = [
        op(KNOWN, 0), op(JF, 20), op(KNOWN, 1), op(JF, 20),
        op(TEST, 0), op(TEST, 1), op(AND), op(LINK, 0, UP), op(AND), op(JF, 12), op(CMD, 0), op(QUEUE),
        op(TEST, 0), op(TEST, 1), op(OR), op(JT, 20), op(LINK, 0, DOWN), op(JF, 20), op(CMD, 1), op(QUEUE),
        op(RET),
    ]
    tests, commands = ["ping -q -c 1 192.0.2.1", "ping -q -c 1 192.0.2.2"], ["echo up", "echo down"]
    return image([[op(RET)], body], [state("a", 0, 1, 3)], 0, tests, commands)


def gateway_requests(count):
    """In turn a tick, which starts both tests, a link, the results of both tests, and a take."""
    lines = []
    for second in range(1, count // 5 + 1):
        link, ends = ("up", "ok") if second % 2 else ("down", "fail")
        lines += [
            f"tick {second}", f"link carp0 {link}",
            f"result 0 {2 * second - 1} {ends}", f"result 1 {2 * second} {ends}", "take",
        ]
    return lines


def waiting(tests):
    """So many tests of the longest period, all active, which nothing asks for."""
    texts = [f"ping -q -c 1 192.0.2.{test + 1}" for test in range(tests)]
    return image([[op(RET)]], [state("a", 0, 0, (1 << tests) - 1)], 0, texts, (), 604_800)


def idle(tests):
    """A tick that starts all tests, and their results."""
    return ["tick 0", *[f"result {test} {test + 1} ok" for test in range(tests)]]


def waiting_requests(tests, ticks):
    """A tick that starts all tests, their results, and so many ticks at which none of them is due."""
    return [*idle(tests), *["tick 1"] * ticks]


def staying(states):
    """So many states, of which none is left: each body queues a command where the link is up and it is down."""
    body = [op(LINK, 0, UP), op(LINK, 0, DOWN), op(AND), op(JF, 6), op(CMD, 0), op(QUEUE), op(RET)]
    named = [state(f"gateway_{number:04}", 0, 1) for number in range(states)]
    return image([[op(RET)], body], named, 0, (), ["echo up"])


def moving(states):
    """So many states, of which each body leads to the next state, and the last one's to the first."""
    bodies = [[op(STATE, (number + 1) % states), op(WANT), op(RET)] for number in range(states)]
    named = [state(f"gateway_{number:04}", 0, number + 1) for number in range(states)]
    return image([[op(RET)], *bodies], named)


def straight(instructions):
    """So many instructions, from 3 on: truths that are made of facts and taken by jumps to the next place."""
    turn = [op(LINK, 0, UP), op(LINK, 0, DOWN), op(OR), op(NOT), op(TRUE), op(AND)]
    code = []
    for _ in range((instructions - 3) // 7):
        code += turn + [op(JF, len(code) + 7)]
    return code + [op(LINK, 0, UP)] + [op(NOT)] * (instructions - len(code) - 3) + [op(POP), op(RET)]


def heavy():
    """Each event executes 297,989 instructions, in the always body, the state's and the init of the other one,
    which is entered. Each calls a routine of 1,023 instructions 97 times."""
    calls = [op(CALL, 1)] * 97
    leaving = [calls + [op(STATE, other), op(WANT), op(RET)] for other in (1, 0)]
    routines = [[op(RET)], straight(1_023), calls + [op(RET)], *leaving]
    return image(routines, [state("a", 2, 3), state("b", 2, 4)], 2)


def links(count):
    return [f"link carp0 {('up', 'down')[turn % 2]}" for turn in range(count)]


def wide(routines):
    """So many routines of 1,024 instructions, of which 8 are all that an image may have."""
    return image([straight(1_024)] * routines, [state("a", 0, 0)])


def state_text(number, after, more=""):
    """A state of 46 tokens and 23 instructions that leads to another one, with more at its end."""
    return (
        f"state gateway_{number:04} {{\n"
        f"\tinit {{ run \"logger -t gateway 'state {number:04} is entered, and the address is ours'\" }}\n"
        f"\tif $carp_up && ! $peer_up {{ set-state gateway_{after:04} }}\n"
        f"\tif ( em0.link.up || \"ping -q -c 1 -w 1 192.0.2.7 > /dev/null\" every 10 ) && $carp_up {{\n"
        f"\t\trun \"ifconfig carp0 advskew {number:04}\"\n\t}}\n{more}}}\n"
    )


def filled(code):
    """A block that ends with this text and is filled up with comments."""
    fill = BLOCK - len(code)
    comments = COMMENT * (fill // len(COMMENT) + 1)
    return comments[:fill - 1] + "\n" + code


def block(number, after):
    return filled(state_text(number, after))


def full_block(number, after):
    """A block of 62 tokens and 31 instructions."""
    more = f"\tif ! em1.link.up && ! $peer_up {{\n\t\trun \"logger -t gateway 'em1 is down in state {number:04}'\"\n\t}}\n"
    return filled(state_text(number, after, more))


def head(text):
    """A block that begins with these lines and two macros."""
    macros = "carp_up = 'carp0.link.up'\npeer_up = '\"ping -q -c 1 192.0.2.2 > /dev/null\" every 5'\n"
    return (macros + text).ljust(BLOCK - 1, "#") + "\n"


def policy(blocks):
    """A policy whose size is that of so many blocks: one of macros, and for each other one a state, from which the
    next one is reached, and from the last one the first."""
    return head("") + "".join(block(number, number % (blocks - 1) + 1) for number in range(1, blocks))


def full_policy():
    """A policy near all limits: 1,048,576 bytes, 16,301 tokens and 8,189 instructions."""
    always = "".join(f"if ! em1.link.up && ! $peer_up run \"logger -t gateway {number}\"\n" for number in range(35))
    blocks = MOST_BLOCKS - 1
    return head(always) + "".join(full_block(number, number % blocks + 1) for number in range(1, MOST_BLOCKS))


def conditions(standings):
    """A policy of 1,026 `if`s whose conditions have five instructions; each stands so many times, once or twice, in
    one of 17 states."""
    text = ""
    for number in range(1_026):
        state, link = number // 64, number % 64 // standings
        text += f"state s{state} {{\n" if number % 64 == 0 else ""
        text += f"\tif \"ping {state}\" every 1 && ! ! i{link}.link.up {{ }}\n"
        text += "}\n" if number % 64 == 63 or number == 1_025 else ""
    return text


def quoted(stem, number):
    """A quoted text of 1,024 bytes, of which 44 are spelled by escapes."""
    raw = f"{stem} {number:04} "
    return '"' + raw + "x" * (1_024 - len(raw) - 44) + "\\x1b" * 44 + '"'


def listed(interfaces, tests, commands, states, routines, instructions):
    """A text of an image of so many entries, whose texts have 1,024 bytes, and of so many routines of so many
    instructions."""
    counts = {"em": interfaces, "ping": tests, "logger": commands, "gateway": states}
    tables = [[quoted(stem, number) for number in range(count)] for stem, count in counts.items()]
    return listing(tables, routines, instructions)


def listing(tables, routines, instructions):
    """A text of an image of these interfaces, tests, commands and states, each in quotes, and of so many routines of so
    many instructions."""
    interfaces, tests, commands, states = tables
    lines = ["ifsv 1", "stack 32", "frames 32", "cost 300000", "commands 0", "start 0", "always init 0 body 0 tests -"]
    lines += [f"iface {name}" for name in interfaces]
    lines += [f"test 604800 {words}" for words in tests]
    lines += [f"command {words}" for words in commands]
    lines += [f"state {name} init 0 body 0 tests -" for name in states]
    code = ["link 0 up", "link 0 down", "or", "not", "true", "and", "pop"] * ((instructions - 1) // 7)
    for _ in range(routines):
        lines += ["routine results 0", *code, *["ret"] * (instructions - len(code))]
    return "".join(f"{line}\n" for line in lines)


def full(words_of):
    """The texts of full tables, by what gives the text of an entry with that stem and number."""
    counts = {"em": 64, "ping": MOST_TESTS, "logger": 1_024, "gateway": MOST_STATES}
    return [[words_of(stem, number) for number in range(count)] for stem, count in counts.items()]


def escaped(distances):
    """What gives a text of 1,024 bytes for an entry, in which each byte that is escaped in quotes is by these distances,
    in turn, from the one before it."""
    def words_of(stem, number):
        words, escape = f"{stem} {number:04} ", itertools.cycle(ESCAPES)
        for distance in itertools.cycle(distances):
            if len(words) + distance > MOST_TEXT:
                return words.ljust(MOST_TEXT, "x")
            words += "x" * (distance - 1) + next(escape)

    return words_of


def plain(stem, number):
    """A text of 1,024 bytes, none of which is escaped in quotes."""
    return f"{stem} {number:04} ".ljust(MOST_TEXT, "x")


def brief(stem, number):
    """A text of at most 12 bytes."""
    return f"{stem} {number:04}"


def full_listing(words_of):
    """A text of an accepted image of such full tables and of 8,184 instructions."""
    tables = [[f'"{"".join(ESCAPES.get(letter, letter) for letter in words)}"' for words in table]
              for table in full(words_of)]
    return listing(tables, FULL_ROUTINES, FULL_CODE)


def full_image(words_of):
    """The image of that text."""
    interfaces, tests, commands, states = full(words_of)
    turn = [op(LINK, 0, UP), op(LINK, 0, DOWN), op(OR), op(NOT), op(TRUE), op(AND), op(POP)]
    code = turn * ((FULL_CODE - 1) // 7) + [op(RET)]
    named = [state(name, 0, 0) for name in states]
    return image([code] * FULL_ROUTINES, named, 0, tests, commands, 604_800, interfaces, 0)


def assembly(commands=1_024):
    """A text of an image whose tables are full of texts of 1,024 bytes, if its commands are as many, and which has
    8,192 instructions."""
    return listed(64, 64, commands, 256, 8, 1_024)


def assembly_in_proportion(states):
    """A text of an image that has for each state four commands, a routine of 32 instructions, and a fourth of an
    interface and of a test."""
    return listed(states // 4, states // 4, 4 * states, states, states, 32)


def facts_of(number, states):
    """The interface and the test of a state: no two states have both in common."""
    return number // 4, (number // 4 + number) % (states // 4)


def state_in_proportion(number, states, fill):
    """A macro and a state of 64 tokens and 31 instructions, whose four commands have so many bytes to fill."""
    link, test = facts_of(number, states)
    asked = f'"ping -q -c 1 -w 1 192.0.2.{test} > /dev/null" every 10'
    first, second, third, fourth = [f'run "logger {number:04}{letter} {"x" * fill}"' for letter in "abcd"]
    return (
        f"up_{number:04} = 'em{link:02}.link.up'\n"
        f"state gateway_{number:04} {{\n\tinit {{\n\t\t{first}\n\t\t{second}\n\t}}\n"
        f"\tif $up_{number:04} && ! {asked} {{ set-state gateway_{(number + 1) % states:04} }}\n"
        f"\tif ( em{link:02}.link.down || {asked} ) && $up_{number:04} {{\n\t\t{third}\n\t}}\n"
        f"\tif ! $up_{number:04} && ! {asked} {{\n\t\t{fourth}\n\t}}\n}}\n"
    )


def policy_in_proportion(states):
    """A policy that has for each state a macro, 4,096 bytes, 64 tokens, 31 instructions, four commands, and a fourth of
    an interface and of a test; so with 256 states it is at most limits and near the others."""
    blocks = []
    for number in range(states):
        fill = (BLOCK - 1 - len(state_in_proportion(number, states, 0))) // 4
        blocks.append(state_in_proportion(number, states, fill).ljust(BLOCK - 1) + "\n")
    return "".join(blocks)


def body_in_proportion(number, states):
    """The code of 26 instructions of such a state's body."""
    link, test = facts_of(number, states)
    up, down, asked = op(LINK, link, UP), op(LINK, link, DOWN), op(TEST, test)
    return [
        op(KNOWN, test), op(JF, 25),
        up, asked, op(NOT), op(AND), op(JF, 9), op(STATE, (number + 1) % states), op(WANT),
        down, asked, op(OR), up, op(AND), op(JF, 17), op(CMD, 4 * number + 2), op(QUEUE),
        up, op(NOT), asked, op(NOT), op(AND), op(JF, 25), op(CMD, 4 * number + 3), op(QUEUE),
        op(RET),
    ]


def longest(stem, count):
    """So many texts of 1,024 bytes."""
    return [plain(stem, number) for number in range(count)]


def image_in_proportion(states):
    """An accepted image that has for each state four commands, 31 instructions in two routines, and a fourth of an
    interface and of a test, whose texts have 1,024 bytes."""
    routines, named = [[op(RET)]], []
    for number, name in enumerate(longest("gateway", states)):
        named.append(state(name, len(routines), len(routines) + 1, 1 << facts_of(number, states)[1]))
        init = [op(CMD, 4 * number), op(QUEUE), op(CMD, 4 * number + 1), op(QUEUE), op(RET)]
        routines += [init, body_in_proportion(number, states)]
    tests, interfaces = longest("ping", states // 4), longest("em", states // 4)
    return image(routines, named, 0, tests, longest("logger", 4 * states), 10, interfaces)


def uses(size):
    """A state and lines, up to this size in all, that each define a macro as another one, which has 16,384 tokens."""
    line = "x = '$y'\n"
    head = "state a { }\ny = '" + "a " * 16_384 + "'\n"
    return head + line * ((size - len(head)) // len(line))
