#!/usr/bin/env python3
"""Compares the numbers that pages quote with the files in which the tools that count keep them: tools/quoted_numbers.py

Each row of QUOTED is a page, a pattern of what it says, a file, and a pattern of what the file says; a pattern has one group, the
number. A pattern of a file without a group is counted. The table of minutes in docs/PROVING.md is made of tools/measured_minutes,
which tools/minutes --keep writes: tools/quoted_numbers.py --write puts it in. Prints what differs, and ends with status 1 then."""
import re
import sys
from pathlib import Path

TOP = Path(__file__).resolve().parent.parent
CASES, CALLS = "crates/ifs_vectors/stdout", "crates/ifs_alloc_failure_tests/stdout"
QUOTED = [
    ("docs/TESTED.md", r"([\d,]+) changes of ten images", CASES, r"^changes: (\d+),"),
    ("docs/TESTED.md", r"each allocation of ([\d,]+) calls fails", CALLS, r"^.*: \d+ \w+ refused, then"),
    ("docs/TESTED.md", r"a session \(([\d,]+) in turn\)", CALLS, r"^simulate, \w+ that failed: (\d+)$"),
    ("docs/TESTED.md", r"a service \(([\d,]+)\)", CALLS, r"^serve_one, \w+ that failed: (\d+)$"),
]
MINUTES, PROVING, ORDER = TOP / "tools" / "measured_minutes", TOP / "docs" / "PROVING.md", TOP / "crates.txt"
BEGIN, END = "<!-- minutes, by tools/quoted_numbers.py --write -->\n", "<!-- end of minutes -->\n"
KINDS = ("proof", "tests", "edits", "all")
# crates with fewer minutes have no row of their own
FEW = 6


def counted(path, pattern):
    """What a file says: the sum of the numbers of a pattern's group, or how often a pattern without a group is found."""
    text = (TOP / path).read_text(encoding="utf-8")
    if re.compile(pattern).groups == 0:
        return len(re.findall(pattern, text, re.M))
    found = re.findall(pattern, text, re.M)
    return sum(int(number.replace(",", "")) for number in found) if found else None


def wrong_quotes():
    """The lines about numbers that differ, or are no longer there."""
    for page, says, path, has in QUOTED:
        quoted, number = counted(page, says), counted(path, has) if (TOP / path).exists() else None
        if quoted != number or number is None:
            yield f"{page}: {says}: the page has {quoted}, {path} has {number}"


def measured():
    """The minutes of each crate, from the bottom up, and then of what is no crate of the repository."""
    order = re.findall(r"^(\w+)(?: staticlib)?:", ORDER.read_text(), re.M)
    found = {}
    for line in MINUTES.read_text().split("\n")[:-1]:
        crate, *words = line.split()
        minutes = [float(it) for it in words[1::2]]
        name = crate if crate in order else ""
        found[name] = [a + b for a, b in zip(found.get(name, [0.0] * len(KINDS)), minutes)]
    return sorted(found.items(), key=lambda it: order.index(it[0]) if it[0] else len(order))


def table():
    """The table of minutes of docs/PROVING.md. Crates of few minutes have one row together."""
    rows = ["| Crate | Proof | Tests | Mutants | All |", "| --- | --- | --- | --- | --- |"]
    totals, others = [0.0] * len(KINDS), [0.0] * len(KINDS)
    for crate, minutes in measured():
        if minutes[-1] < FEW:
            others = [a + b for a, b in zip(others, minutes)]
        else:
            rows.append(row(f"`{crate}`", minutes))
        totals = [a + b for a, b in zip(totals, minutes)]
    rows += [row(f"each of the others less than {FEW}", others), "| all | " + " | ".join(f"{it:.1f}" for it in totals) + " |"]
    return "\n".join(rows) + "\n"


def row(name, minutes):
    return f"| {name} | " + " | ".join(f"{it:.1f}" if it >= 0.05 else "" for it in minutes) + " |"


def cut_page():
    """The page of proofs before its table, the table, and the page after it."""
    before, _, rest = PROVING.read_text(encoding="utf-8").partition(BEGIN)
    now, found, after = rest.partition(END)
    if not found:
        sys.exit(f"{PROVING.name}: no place for the table of minutes")
    return before + BEGIN, now, END + after


def main(arguments):
    before, now, after = cut_page()
    if arguments == ["--write"]:
        PROVING.write_text(before + table() + after, encoding="utf-8")
        return 0
    lines = list(wrong_quotes())
    if now != table():
        lines.append("docs/PROVING.md: its table of minutes is out of date: tools/quoted_numbers.py --write")
    print("\n".join(lines), end="\n" if lines else "")
    return 1 if lines else 0


if __name__ == "__main__":
    sys.exit(main(sys.argv[1:]))
