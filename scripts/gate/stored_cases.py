"""Reads the stored cases of the folder cases/: runs of the built programs, and what has to come of them.

A file has cases in blocks:

    == what the case shows
    $ scimem audit
    last 0 @1 7 0 0 0 0 0 0 0
    -- 1
    fault 5 last-differs line 0

Behind `$` stand commands of sh, which run one after another in an empty folder, with both programs on the PATH. Then come
the lines that they read, and behind `--` the exit status of the last command and the lines that they must write. A line
that begins with `0x` has bytes in hexadecimal, and no line feed. The lines behind `!` must come on standard error, and no
others may.
"""

import os
import re
from collections import namedtuple

# The program and the words of a case are known if it is one run of a program whose input is stored, and nothing else; else
# they are None.
StoredCase = namedtuple("StoredCase", "name commands given status output errors program words")

PLAIN = re.compile(r"(scimem|sciview)((?: [\w-]+)*)")


def joined(lines):
    """The bytes of lines of a block."""
    return b"".join(bytes.fromhex(it[3:]) if it.startswith("0x ") else it.encode() + b"\n" for it in lines)


def case_of_block(table, block):
    """The case of a block of a table."""
    name, *lines = block
    commands = [it[2:] for it in lines if it.startswith("$ ")]
    end = next(place for place, it in enumerate(lines) if it.startswith("-- "))
    given, status, written = lines[len(commands) : end], int(lines[end][3:]), lines[end + 1 :]
    output = [it for it in written if not it.startswith("! ")]
    errors = [it[2:] for it in written if it.startswith("! ")]
    plain = PLAIN.fullmatch(commands[0]) if len(commands) == 1 else None
    program, words = (plain[1], plain[2].split()) if plain else (None, None)
    name = f"{table}: {name[3:]}"
    return StoredCase(name, "\n".join(commands), joined(given), status, joined(output), joined(errors), program, words)


def cases_of_table(path):
    """The cases of a table."""
    with open(path) as file:
        lines = file.read().splitlines()
    starts = [place for place, it in enumerate(lines) if it.startswith("== ")]
    for start, end in zip(starts, [*starts[1:], len(lines)]):
        yield case_of_block(os.path.basename(path), lines[start:end])


def stored_cases(top):
    """All cases of the repository at `top`, in the order of their names."""
    for name in sorted(os.listdir(f"{top}/cases")):
        yield from cases_of_table(f"{top}/cases/{name}")
