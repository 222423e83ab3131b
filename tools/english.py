#!/usr/bin/env python3
"""Looks for turns of phrase that these pages avoid: tools/english.py, or of some files tools/english.py FILE...

It reads pages, the sources of manual pages, texts of help, comments of code, sentences above definitions and the first lines of
mutants, without code blocks and code spans. It prints FILE:LINE: PHRASE (what to write), and then how many there are. --counts
prints how many each folder has instead. tools/words_kept lists what formats, output and public names fix."""
import collections
import re
import sys
from pathlib import Path

TOP = Path(__file__).resolve().parent.parent
KEPT = Path(__file__).resolve().parent / "words_kept"
BE = r"(?:is|are|was|were|be|been|being)"
# what to write, and the pattern of what not to
PHRASES = [
    ("report, return, print", rf"\b{BE} (?:\w+ )?answered\b|\btold\b|\btells?\b(?! \w+ from\b)"),
    ("run out of memory; an allocation fails",
     r"\bwants? of memory\b|\bfor want of\b|\b(?:finds?|found) (?:no )?memory\b|\bmemory (?:is|was) found\b"),
    ("mutant", r"\bwrong bod(?:y|ies)\b"),
    ("is, is defined in, appears", r"\b(?:stands?|stood|standing)\b(?! (?:for|back|by)\b)"),
    ("borrowed; in place", r"\b(?:lent|lends?|lending)\b"),
    ("if it has none", r"\bwhere (?:it|there|they|one) (?:has|have|is|are|was|were) (?:none|no)\b"),
    ("any caller", r"\bwhoever\b"),
    ("reload", r"\b(?:takes?|took|taken|taking) over\b|\bhand(?:s|ed|ing)? on\b"),
    ("allocation", r"\bgrowths?\b"),
    ("without trap checks", r"\bmakes? no test for\b|\bnone can come\b"),
    ("terminates if the system calls do", r"\breturns? where the\b"),
    ("standard error says `device NAME: CAUSE`", r"\bbefore the cause\b"),
    ("unless it runs out of memory", r"\bother than (?:for |want of )?memory\b|\bbut for memory\b|\bcause than memory\b"),
    ("say the thing", r"\b(?:of|for) which\b|\bbut for\b"),
    ("again, from scratch", r"\banew\b"),
    ("that nothing else uses", r"\bover which nothing\b"),
    ("if .. report their bytes", r"\bas far as\b|\bin so far\b"),
    ("tested, not proved; neither", r"\bonly tested\b|\bwhat is neither\b"),
    ("exactly if", r"\b(?:exactly|just) where\b"),
]
PATTERNS = [(better, re.compile(pattern, re.I)) for better, pattern in PHRASES]
# comments of code: on a line of their own, or after code
COMMENTS = {".rt": re.compile(r"^\s*//[/!]? ?(.*)|^[^\"]*[^:\"]// (.*)"), ".antt": re.compile(r"^\s*--+ ?(.*)|^.* -- (.*)")}
STRINGS = re.compile(r'"((?:[^"\\]|\\.)*)"')


def files():
    """Each file that is looked at."""
    yield from sorted(TOP.glob("*.md"))
    yield from sorted((TOP / "docs").glob("*.md"))
    yield from sorted((TOP / "man").glob("*.in"))
    for ending in ("rt", "antt", "edit"):
        for path in sorted((TOP / "crates").glob(f"*/**/*.{ending}")):
            if "out" not in path.relative_to(TOP).parts:
                yield path


def page_lines(lines):
    """The text of each line of a page: nothing of code blocks, and of code spans a mark."""
    inside = False
    for line in lines:
        fence = line.lstrip().startswith("```")
        yield "" if inside or fence else line
        inside ^= fence


def comment_lines(lines, comment, is_help):
    """The comments of each line, and its strings where they are help texts."""
    for line in lines:
        found = comment.match(line)
        text = next((it for it in found.groups() if it is not None), "") if found else ""
        yield " ".join([text, *STRINGS.findall(line)]) if is_help and not found else text


def text_lines(path):
    """The text of each line of a file, without code spans and the targets of links."""
    lines = path.read_text(encoding="utf-8").split("\n")
    if path.suffix in COMMENTS:
        texts = comment_lines(lines, COMMENTS[path.suffix], "ifs_command_line/src" in str(path))
    elif path.suffix == ".edit":
        texts = lines[:1]
    else:
        texts = page_lines(lines)
    return [re.sub(r"``.*?``|`[^`]*`|(?<=\])\([^)]*\)", "`", text) for text in texts]


def kept_words():
    """The exceptions: of files a phrase, that format or output fixes. A line is FILES: PHRASE: WHY."""
    found = []
    for line in KEPT.read_text(encoding="utf-8").split("\n"):
        if line and not line.startswith("#"):
            files_named, phrase, _ = line.split(": ", 2)
            found.append((files_named, re.compile(phrase, re.I)))
    return found


def hits(path, kept):
    """The phrases of a file: line, phrase, and what to write. A phrase may go on in the next line."""
    name = path.relative_to(TOP)
    mine = [phrase for files_named, phrase in kept if name.match(files_named)]
    lines = text_lines(path)
    for number, line in enumerate(lines, 1):
        if not line.strip():
            continue
        after = lines[number].lstrip("|> ") if number < len(lines) else ""
        both = f"{line.rstrip()} {after}"
        stays = [found.span() for phrase in mine for found in phrase.finditer(both)]
        for better, pattern in PATTERNS:
            for found in pattern.finditer(both):
                # what begins in the next line is found there
                is_here = found.start() < len(line.rstrip())
                if is_here and not any(start <= found.start() < end for start, end in stays):
                    yield number, found[0], better


def folder_of(path):
    """What a file counts under: its crate and folder, or the page."""
    parts = path.relative_to(TOP).parts
    return "/".join(parts[:3]) if parts[0] == "crates" else "/".join(parts[:2])


def main(arguments):
    kept = kept_words()
    counting = arguments[:1] == ["--counts"]
    named = [Path(it).resolve() for it in arguments[counting:]]
    total, counts = 0, collections.defaultdict(collections.Counter)
    for path in named or files():
        for number, phrase, better in hits(path, kept):
            total += 1
            counts[folder_of(path)][better] += 1
            if not counting:
                print(f"{path.relative_to(TOP)}:{number}: {phrase} ({better})")
    for folder, each in counts.items() if counting else ():
        print(f"{folder}: {sum(each.values())}: " + ", ".join(f"{better} {count}" for better, count in each.most_common()))
    print(f"phrases to replace: {total}")
    return 1 if total else 0


if __name__ == "__main__":
    sys.exit(main(sys.argv[1:]))
