"""The instructions of the byte code, a row each in the order of their codes, for all tools. docs/IMAGE.md says what they do."""
from collections import namedtuple

# its name, the table that its operand is an index of (or `places` of the routine, or none), the kinds that it takes and leaves
Instruction = namedtuple("Instruction", "name table takes gives")

INSTRUCTIONS = (
    Instruction("ret", None, [], None),
    Instruction("true", None, [], "truth"),
    Instruction("false", None, [], "truth"),
    Instruction("link", "interfaces", [], "truth"),
    Instruction("test", "tests", [], "truth"),
    Instruction("known", "tests", [], "truth"),
    Instruction("not", None, ["truth"], "truth"),
    Instruction("and", None, ["truth", "truth"], "truth"),
    Instruction("or", None, ["truth", "truth"], "truth"),
    Instruction("cmd", "commands", [], "command"),
    Instruction("state", "states", [], "state"),
    Instruction("queue", None, ["command"], None),
    Instruction("want", None, ["state"], None),
    Instruction("jump", "places", [], None),
    Instruction("jf", "places", ["truth"], None),
    Instruction("jt", "places", ["truth"], None),
    Instruction("call", "routines", [], None),
    Instruction("pop", None, ["any"], None),
    Instruction("dup", None, ["any"], None),
)

NAMES = tuple(row.name for row in INSTRUCTIONS)
CODES = {name: code for code, name in enumerate(NAMES)}
OPERANDS = {row.name for row in INSTRUCTIONS if row.table}
TABLES = {row.name: row.table for row in INSTRUCTIONS if row.table not in (None, "places")}
TAKES = {row.name: row.takes for row in INSTRUCTIONS if row.takes}
GIVES = {row.name: row.gives for row in INSTRUCTIONS if row.gives}


def op(name, operand=0, link=0):
    """The four bytes of an instruction."""
    return bytes((CODES[name], link)) + operand.to_bytes(2, "big")
