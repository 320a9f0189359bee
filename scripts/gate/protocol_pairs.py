"""The pairs of a state and what it meets: those of the tables of docs/PROTOCOL.md, and those of the code.

The page's tables are read here. The code's pairs are those that `sciview stats --transitions` says of a schedule without an
event: none of them came. A stored case has its words, so nothing is built for this check."""

import os
import re

TOP = os.path.dirname(os.path.dirname(os.path.dirname(os.path.abspath(__file__))))
PAGE, CASES = "docs/PROTOCOL.md", "cases/sciview-transitions.txt"
HOMES = ("HOME", "FRESH", "GONE")
# A section's table: the heading or the sentence in front of it, the columns of states and of what is met, and how that is met.
TABLES = [
    ("The next table says how a home serves a request", 1, 0, "serve"),
    ("The next table says what each state asks", 0, 1, "ask"),
    ("The next table says how a cache serves a request", 1, 0, "serve"),
    ("The next table says how an awaited answer is accepted", 0, 1, "accept"),
]


def rows_behind(text, sentence):
    """The rows of the first table behind a sentence, as lists of cells; an empty first cell is that of the row before it."""
    table = re.search(r"\n\|.*?\n\|---.*?\n((?:\|.*\n)+)", text[text.index(sentence) :])[1]
    first = ""
    for line in table.splitlines():
        cells = [it.strip() for it in line.strip("|").split("|")]
        first = cells[0] = cells[0] or first
        yield cells


def words_in(cell, words):
    """Those of these words that a cell has."""
    return [it for it in words if re.search(rf"\b{it}\b", cell)]


def pairs_of_page():
    with open(f"{TOP}/{PAGE}", encoding="utf-8") as file:
        text = file.read()
    states = [re.match(r"\w+", it[0])[0] for it in rows_behind(text, "## A line in a cache")]
    commands = re.findall(r"^\| 0x\w+ \| (\w+) \|", text, re.MULTILINE)
    for sentence, at, of, met in TABLES:
        is_home = "home serves" in sentence
        of_kind = HOMES if is_home else states
        for cells in rows_behind(text, sentence):
            named = of_kind if cells[at] == "any other" else words_in(cells[at], of_kind)
            for what in words_in(cells[of], commands):
                for state in named:
                    yield f"{'home' if is_home else 'cache'}.{state}.{met}.{what}"
    for operation, places in re.findall(r"^- A (load|maker) is performed at (.*?)(?:\.| without)", text, re.MULTILINE):
        for state in words_in(places, states):
            yield f"cache.{state}.perform.{operation}"


def pairs_of_code():
    with open(f"{TOP}/{CASES}", encoding="utf-8") as file:
        return re.findall(r"^never (\S+)$", file.read().split("\n== ")[0], re.MULTILINE)


def pairs_that_never_come():
    """The pairs that docs/COMMANDS.md says no run comes to, from the table of what is met, the states, and why."""
    with open(f"{TOP}/docs/COMMANDS.md", encoding="utf-8") as file:
        rows = list(rows_behind(file.read(), "Some pairs no run comes to."))
    code = [it.split(".") for it in pairs_of_code()]
    for met, states, _why in rows:
        how, *whats = re.findall(r"\w+", met)
        for place, state, how_met, what in code:
            named = state in re.findall(r"\w+", states)
            if how_met == how and what in whats and named != states.startswith("all but"):
                yield f"{place}.{state}.{how}.{what}"


def wrong_pairs():
    """The pairs that the page has and the code doesn't, and the other way round."""
    page, code = set(pairs_of_page()), set(pairs_of_code())
    yield from (f"{PAGE} has {it}, and the code doesn't" for it in sorted(page - code))
    yield from (f"the code has {it}, and {PAGE} doesn't" for it in sorted(code - page))
