#!/usr/bin/env python3
"""Makes the changelog of the Debian package: tools/debian/changelog.py VERSION 'NAME <ADDRESS>' DATE

It prints the entry of the version in CHANGELOG.md in Debian's form."""
import re
import sys
import textwrap
from pathlib import Path

CHANGES = Path(__file__).resolve().parent.parent.parent / "CHANGELOG.md"
WIDTH = 78


def entry_of(version):
    """The paragraphs of a version's entry: each as one line."""
    found = re.search(rf"^## {re.escape(version)}, [^\n]*\n(.*?)(?=^## |\Z)", CHANGES.read_text(encoding="utf-8"), re.M | re.S)
    if not found:
        sys.exit(f"CHANGELOG.md has no entry {version}")
    parts = re.split(r"\n\n|\n(?=- )", found[1].strip())
    return [re.sub(r"\s+", " ", part).strip() for part in parts]


def plain(text):
    """A text without the marks of a page: bold text, code and links."""
    text = re.sub(r"\[([^\]]*)\]\([^)]*\)", r"\1", text)
    return re.sub(r"\*\*|`", "", text)


def lines(version):
    for part in entry_of(version):
        if part.endswith(":") and " " not in part:
            yield f"\n  [ {part[:-1]} ]"
        else:
            text = plain(part.removeprefix("- "))
            yield from textwrap.wrap(
                text, WIDTH, initial_indent="  * ", subsequent_indent="    ", break_long_words=False, break_on_hyphens=False
            )


def main(version, maintainer, date):
    print(f"ifsvm ({version}) unstable; urgency=medium\n")
    print("\n".join(lines(version)))
    print(f"\n -- {maintainer}  {date}")


if __name__ == "__main__":
    if len(sys.argv) != 4:
        sys.exit(__doc__)
    main(*sys.argv[1:])
