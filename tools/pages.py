#!/usr/bin/env python3
"""Checks the pages of the repository: tools/pages.py, or of some pages tools/pages.py PAGE... Prints FILE:LINE: what is wrong.

It checks the number of lines of each page that has a budget, the length of lines, the words of table cells, that each link and each
path in a code span leads somewhere, and that the functions, clauses, tests and definitions that docs/PROMISES.md and
docs/TESTED.md name exist. With --sizes it prints the lines, the words, the longest line and the largest table cell of each page
with a budget instead."""
import fnmatch
import re
import sys
from pathlib import Path

TOP = Path(__file__).resolve().parent.parent
BUDGETS = {
    "README.md": 100,
    "CONTRIBUTING.md": 90,
    "CHANGELOG.md": None,
    "docs/COMMANDS.md": 130,
    "docs/LANGUAGE.md": 330,
    "docs/REPORTS.md": 120,
    "docs/ANALYSES.md": 170,
    "docs/LIBRARY.md": 90,
    "docs/OPERATING.md": 260,
    "docs/DAEMON.md": 160,
    "docs/UNITS.md": 120,
    "docs/WAITING.md": 70,
    "docs/REQUESTS.md": 150,
    "docs/IMAGE.md": 310,
    "docs/PROMISES.md": 280,
    "docs/TESTED.md": 125,
    "docs/PROVING.md": 190,
    "docs/DECISIONS.md": 200,
    "docs/SPEED.md": 100,
}
# the most characters of a line that is no row of a table and no output of a command, and the most words of a cell
LINE, CELL = 130, 25
# folders whose pages are made or are not ours
LEFT_OUT = ("out", ".git", "target")
LINK = re.compile(r"\[((?:[^\[\]]|\[[^\]]*\])*)\]\(([^)\s]+)\)")
CODE = re.compile(r"`([^`]+)`")


class Page:
    """A page: its path, its lines, and which of them are code."""

    def __init__(self, path):
        self.path = path
        self.name = str(path.relative_to(TOP))
        self.lines = path.read_text(encoding="utf-8").split("\n")
        if not self.lines[-1]:
            self.lines.pop()
        self.is_code = list(code_lines(self.lines))

    def text_lines(self):
        """The lines outside code blocks, with their numbers."""
        return [(number, line) for number, (line, code) in enumerate(zip(self.lines, self.is_code), 1) if not code]

    def rows(self):
        """The rows of tables, with their numbers."""
        return [(number, line) for number, line in self.text_lines() if line.startswith("|")]


def code_lines(lines):
    """For each line whether it belongs to a code block, its fences among them."""
    inside = False
    for line in lines:
        fence = line.lstrip().startswith("```")
        yield inside or fence
        inside ^= fence


def cells(row):
    """The cells of a row."""
    return [cell.strip() for cell in re.split(r"(?<!\\)\|", row.strip())[1:-1]]


def words(cell):
    """The words that a reader sees in a cell: of a link its text."""
    return LINK.sub(r"\1", cell).split()


def pages():
    found = [path for path in TOP.rglob("*.md") if not set(path.relative_to(TOP).parts) & set(LEFT_OUT)]
    return [Page(path) for path in sorted(found) if not path.parent.is_symlink()]


# ---- sizes


def longest_line(page):
    """The length of the longest line that is no row of a table."""
    rows = {number for number, _ in page.rows()}
    return max((len(line) for number, line in enumerate(page.lines, 1) if number not in rows), default=0)


def largest_cell(page):
    return max((len(words(cell)) for _, row in page.rows() for cell in cells(row)), default=0)


def outputs(lines):
    """The numbers of the lines that a command prints."""
    block = None
    for number, line in enumerate(lines, 1):
        if line.startswith("```"):
            block = line[3:] if block is None else None
        elif block == "console" and not line.startswith("$ "):
            yield number


def sizes_wrong(page):
    most = BUDGETS[page.name]
    if most and len(page.lines) > most:
        yield len(page.lines), f"{len(page.lines)} lines, at most {most}"
    free = {number for number, _ in page.rows()} | set(outputs(page.lines))
    for number, line in enumerate(page.lines, 1):
        if number not in free and len(line) > LINE:
            yield number, f"{len(line)} characters, at most {LINE}"
    for number, row in page.rows():
        for cell in cells(row):
            if len(words(cell)) > CELL:
                yield number, f"a cell of {len(words(cell))} words, at most {CELL}: {cell[:40]}.."


# ---- links


def anchor(heading):
    """The anchor of a heading, as GitHub makes it."""
    plain = LINK.sub(r"\1", heading).replace("`", "").replace("*", "").strip().lower()
    return re.sub(r"[^\w\- ]", "", plain).replace(" ", "-")


def anchors(page):
    """The anchors of a page; the second heading of a name has -1 behind it, and so on."""
    seen, found = {}, set()
    for _, line in page.text_lines():
        heading = re.fullmatch(r"#{1,6} +(.*?)(?: +#+)?", line)
        if heading:
            name = anchor(heading[1])
            found.add(f"{name}-{seen[name]}" if name in seen else name)
            seen[name] = seen.get(name, 0) + 1
        found.update(re.findall(r'<a (?:id|name)="([^"]+)"', line))
    return found


def links_wrong(page, of_path):
    for number, line in page.text_lines():
        # a link in a code span is none
        bare = CODE.sub("code", line)
        targets = [match[2] for match in LINK.finditer(bare)]
        targets += re.findall(r'(?:src|srcset|href)="([^"]+)"', bare)
        for target in targets:
            if re.match(r"[a-z]+:", target):
                continue
            path, _, name = target.partition("#")
            led = (page.path.parent / path).resolve() if path else page.path
            if not led.exists():
                yield number, f"no {target}"
            elif name and led.suffix == ".md" and name not in anchors(of_path.get(led) or Page(led)):
                yield number, f"no heading #{name} in {path or page.name}"


# a path in a code span, but for what is made and what stands for several
PATH = re.compile(r"(?:crates|docs|tests|tools|system|man|examples|vectors)/[\w./-]*\w")


def paths_wrong(page):
    """The paths in code spans that lead nowhere, from the top of the repository. Old versions had others."""
    for number, line in page.text_lines() if page.name != "CHANGELOG.md" else ():
        for span in CODE.findall(line):
            path = span.split(" ")[0]
            made = "/out/" in path or re.search(r"/(?:NAME|CRATE)\b", path)
            if PATH.fullmatch(path) and not made and not (TOP / path).exists():
                yield number, f"no {path}"


# ---- names of clauses, tests and definitions


def clauses(text):
    """The clauses of each function of a Rattle file: of functions of one name all."""
    found, function = {}, None
    for line in text.split("\n"):
        begun = re.match(r"\s*(?:pub(?:\(\w+\))? )?(?:const )?(?:extern \"C\" )?fn (\w+)", line)
        if begun:
            function = found.setdefault(begun[1], set())
        named = re.match(r"\s+ensures (\w+) \{", line)
        if named and function is not None:
            function.add(named[1])
    return found


def has_name(text, name):
    """Whether a test of a file has this name: a function, a case of vectors/, or an entry of a list."""
    word = re.escape(name)
    return re.search(rf"\b(?:fn|def) {word}\b|^=== {word}$|^{word}\(\)|\"{word}\"", text, re.M) is not None


def part_wrong(page, part):
    """What is wrong with a part of a cell, `[F](PATH), [G](PATH): a, b`: F and G have the clauses a and b, or their files the tests."""
    named = CODE.findall(part.rpartition("): ")[2]) if "): " in part else []
    for text, target in LINK.findall(part):
        path = (page.path.parent / target.split("#")[0]).resolve()
        if not path.is_file():
            continue
        content = path.read_text(encoding="utf-8")
        function = text.strip("`").split("::")[-1]
        if path.suffix == ".rt" and page.name == "docs/PROMISES.md":
            known = clauses(content)
            if function not in known:
                yield f"{target} has no function {function}"
            for name in named:
                if name not in known.get(function, set()):
                    yield f"{function} has no clause {name}"
        else:
            for name in named:
                if not has_name(content, name):
                    yield f"{target} has no {name}"


def definitions_wrong(cell, crate):
    """What is wrong with the definitions `Module.name` of a cell, and with the fields after them."""
    for module, name in re.findall(r"`([A-Z]\w*)\.(\w+)`", cell):
        path = TOP / "crates" / crate / "specs" / f"{module}.antt"
        text = path.read_text(encoding="utf-8") if path.is_file() else ""
        if not re.search(rf"^(?:[a-z]+ )*{name}\b", text, re.M):
            yield f"{crate} has no definition {module}.{name}"


def names_wrong(page):
    """What is wrong with the names of the tables of docs/PROMISES.md and docs/TESTED.md."""
    crate = "ifs_core"
    for number, row in page.text_lines():
        crate_named = re.match(r"\| \*\*`(ifs_\w+)`\*\*|#.*\(`(ifs_\w+)`\)", row)
        crate = crate_named[1] or crate_named[2] if crate_named else crate
        if not row.startswith("|"):
            continue
        for cell in cells(row):
            of_crate = re.findall(r"of `(ifs_\w+)`", cell)
            if page.name == "docs/PROMISES.md":
                yield from ((number, wrong) for wrong in definitions_wrong(cell, of_crate[0] if of_crate else crate))
            for part in cell.split(";"):
                yield from ((number, wrong) for wrong in part_wrong(page, part))


def main(arguments):
    all_pages = pages()
    if arguments[:1] == ["--sizes"]:
        print(f"{'page':22} lines  words  longest line  largest cell")
        for page in all_pages:
            if page.name in BUDGETS:
                count = len(" ".join(page.lines).split())
                print(f"{page.name:22} {len(page.lines):5} {count:6} {longest_line(page):13} {largest_cell(page):13}")
        return 0
    of_path = {page.path: page for page in all_pages}
    count = 0
    for page in all_pages:
        if arguments and not any(fnmatch.fnmatch(page.name, it) for it in arguments):
            continue
        wrong = [*links_wrong(page, of_path), *paths_wrong(page)]
        if page.name in BUDGETS:
            wrong += sizes_wrong(page)
        if page.name in ("docs/PROMISES.md", "docs/TESTED.md"):
            wrong += names_wrong(page)
        for number, what in sorted(wrong):
            print(f"{page.name}:{number}: {what}")
        count += len(wrong)
    return 1 if count else 0


if __name__ == "__main__":
    sys.exit(main(sys.argv[1:]))
