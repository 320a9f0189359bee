#!/usr/bin/env python3
"""Prints the manual page scimem(5), which is made of docs/TEXTS.md: the formats of scripts, schedules and logs."""

import os
import re
import sys

TOP = os.path.dirname(os.path.dirname(os.path.dirname(os.path.abspath(__file__))))
sys.path.append(f"{TOP}/scripts/gate")

from version import version  # noqa: E402

HEAD = f'.TH SCIMEM 5 "" "Lichenknit {version()}" "Lichenknit"\n.SH NAME\nscimem \\- scripts, schedules and logs as text\n.SH DESCRIPTION'


def plain(text):
    """A text as roff has it, letter for letter."""
    text = text.replace("\\", "\\e").replace("-", "\\-")
    return "\\&" + text if text.startswith((".", "'")) else text


def spelled(text):
    """A line of the page as roff: its code and bold words are bold, and a link is its text."""
    parts = re.split(r"`([^`]+)`|\*\*([^*]+)\*\*|\[([^]]+)\]\([^)]*\)", text)
    spell = {0: plain, 1: lambda it: f"\\fB{plain(it)}\\fR", 2: lambda it: f"\\fB{spelled(it)}\\fR", 3: plain}
    return "".join(spell[place % 4](it) for place, it in enumerate(parts) if it)


def row_of(line):
    """A row of a table: what stands first is what the rest is said of."""
    first, *rest = [spelled(it.strip()) for it in line.strip("|").split(" | ")]
    return [".TP", first.strip(), ": ".join(it.strip(" |") for it in rest)]


def roff(lines):
    """The lines of the page, one after another, as roff."""
    in_block = False
    for place, line in enumerate(lines):
        is_block = line.startswith("    ")
        if is_block != in_block:
            yield from [".PP", ".RS", ".nf"] if is_block else [".fi", ".RE"]
            in_block = is_block
        is_head = place + 1 < len(lines) and lines[place + 1].startswith("|---")
        if is_block:
            yield plain(line[4:])
        elif line.startswith("## "):
            yield f".SH {spelled(line[3:]).upper()}"
        elif line.startswith("- "):
            yield from [".IP \\(bu 2", spelled(line[2:])]
        elif line.startswith("|") and not is_head and not line.startswith("|---"):
            yield from row_of(line)
        elif line and not line.startswith(("#", "|")):
            yield from [".PP", spelled(line)]


def main():
    with open(f"{TOP}/docs/TEXTS.md") as page:
        lines = page.read().split("\n## Who guarantees this")[0].splitlines()
    print("\n".join([HEAD, *roff(lines), '.SH "SEE ALSO"', ".BR scimem (1),", ".BR sciview (1)"]))


main()
