#!/usr/bin/env python3
"""Writes the table of planted bugs: what each must-fail edit changes, and what refused it.

`rt must-fail 2>&1 | tools/planted.py`, at the top of the repository, prints the rows; docs/PLANTED.md holds them.
"""
import pathlib
import re
import sys

REFUSED = re.compile(r"must-fail (\w+)/(\w+)\.edit: refused, as it must be: (.*)")


def pairs(edit):
    """The file, the old text and the new text of each change of an edit."""
    file, old, found = "", "", []
    for line in edit.read_text().splitlines():
        key, _, text = line.partition(":")
        if key == "file":
            file = text.strip()
        elif key == "old":
            old = text.strip()
        elif key == "new":
            found.append((file, old, text.strip()))
    return found


def cell(text, most=110):
    """A text as it stands in a cell of a table."""
    short = text if len(text) <= most else text[: most - 2] + ".."
    return "`" + short.replace("|", "\\|").replace("`", "'") + "`"


def place(message):
    """The goal or the fact that a refusal names, and the file with its line."""
    where = re.search(r"[\w./+-]+\.(?:rt|antt):\d+", message)
    goal = re.search(r"`(returns|loop|[\w-]*requires|overflow|invariant|push|slice|index)[\w+-]*`", message)
    shown = where.group(0).removeprefix("./") if where else ""
    return shown + (", " + goal.group(0) if goal else "")


def main():
    refusals = {(m[1], m[2]): m[3] for m in map(REFUSED.search, sys.stdin) if m}
    print("| edit | file | was | became | refused at |\n|---|---|---|---|---|")
    for edit in sorted(pathlib.Path("crates").glob("*/must-fail/*.edit")):
        crate, name = edit.parts[1], edit.stem
        refused = place(refusals[crate, name]) if (crate, name) in refusals else "not tried"
        for file, old, new in pairs(edit):
            print(f"| `{crate}/{name}` | `{file}` | {cell(old)} | {cell(new)} | {refused} |")


main()
