#!/usr/bin/env python3
"""Compares the definitions that docs/THEOREM.md and docs/THEOREM_*.md show with the files that they name: each part of a block,
between empty lines, has to stand in its file as it is. Ends with status 1, and names the part, where one does not."""
import os
import re
import sys

TOP = os.path.dirname(os.path.dirname(os.path.realpath(__file__)))
PAGES = ("docs/THEOREM.md", "docs/THEOREM_STA.md", "docs/THEOREM_SEGMENT.md", "docs/THEOREM_REPAIR.md", "docs/THEOREM_TOTAL.md",
         "docs/THEOREM_WIDTH.md")


def blocks(page):
    """The named blocks of a page: the path of the file, and the text."""
    return re.findall(r"^```\w+ (\S+)\n(.*?)^```$", page, re.M | re.S)


def stale_parts(page):
    """The parts of a page that do not stand in their files."""
    with open(f"{TOP}/{page}", encoding="utf-8") as file:
        found = blocks(file.read())
    if not found:
        return [(page, "no block names a file")]
    stale = []
    for path, text in found:
        name = path if path.startswith("crates/") else f"crates/{path}"
        with open(f"{TOP}/{name}", encoding="utf-8") as file:
            whole = file.read()
        stale += [(name, part) for part in text.strip("\n").split("\n\n") if f"\n{part}\n" not in whole]
    return stale


def main():
    stale = [(page, name, part) for page in PAGES for name, part in stale_parts(page)]
    for page, name, part in stale:
        print(f"{page}: {name} does not have:\n{part}", file=sys.stderr)
    return 1 if stale else 0


if __name__ == "__main__":
    sys.exit(main())
