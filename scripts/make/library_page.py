#!/usr/bin/env python3
"""Prints the manual page sci(3), which is made of include/lichenknit.h: its head, and each function with the text above it."""

import os
import re
import sys

TOP = os.path.dirname(os.path.dirname(os.path.dirname(os.path.abspath(__file__))))
sys.path.append(f"{TOP}/scripts/gate")

from version import version  # noqa: E402

HEAD = f""".TH SCI 3 "" "Lichenknit {version()}" "Lichenknit"
.SH NAME
sci \\- machines with coherent caches, proved: packets, events, logs and their audit
.SH SYNOPSIS
.nf
.B #include <lichenknit.h>
.PP
.I cc \\&.. $(pkg\\-config \\-\\-cflags \\-\\-libs lichenknit)
.fi
.SH DESCRIPTION"""


def plain(text):
    """A text as roff has it, letter for letter."""
    text = text.replace("\\", "\\e").replace("-", "\\-")
    return "\\&" + text if text.startswith((".", "'")) else text


def lines_of(comment):
    """The lines of a comment without its frame."""
    text = re.sub(r"^/\*\*?( @file\n)?", "", comment).removesuffix("*/")
    return [re.sub(r"^\*\* ?", "", it).rstrip() for it in text.strip().splitlines()]


def paragraphs(comment):
    """A comment as roff: a paragraph is filled, and what is indented stands as it is."""
    for part in re.split(r"\n\s*\n", "\n".join(lines_of(comment))):
        yield ".PP"
        is_table = part.startswith(" ")
        if is_table:
            yield ".nf"
        yield from (plain(it.strip() if not is_table else it) for it in part.splitlines())
        if is_table:
            yield ".fi"


def declarations(text):
    """What stands in the header, one after another: a headline of a part, or a comment with what it is about."""
    for part in re.finditer(r"(/\*(?:(?!\*/).)*\*/)\n((?:(?!/\*|\n\n).)*?)(?=\n\n|\n/\*|\Z)", text, re.DOTALL):
        comment, code = part[1], part[2].strip()
        if comment.startswith("/** @name"):
            yield "part", comment, ""
        elif re.search(r"^\w[\w *]*\bsci_\w+\(", code, re.MULTILINE):
            yield "functions", comment, code


def page():
    with open(f"{TOP}/include/lichenknit.h", encoding="utf-8") as file:
        text = file.read()
    yield HEAD
    yield from list(paragraphs(text[: text.index("*/") + 2]))[1:]
    for kind, comment, code in declarations(text[text.index("/** @name The library") :]):
        if kind == "part":
            title, *rest = lines_of(comment)[:-1]
            yield f".SH {plain(title.removeprefix('@name ')).upper()}"
            yield from (paragraphs("\n".join(rest)) if rest else [])
        else:
            yield from [".SS", plain(", ".join(re.findall(r"\b(sci_\w+)\(", code))), ".nf"]
            yield from [*(f".B {plain(it.strip())}" for it in code.splitlines()), ".fi"]
            yield from paragraphs(comment)
    yield '.SH "SEE ALSO"\n.BR scimem (1),\n.BR sciview (1),\n.BR scimem (5)'


if __name__ == "__main__":
    print("\n".join(page()))
