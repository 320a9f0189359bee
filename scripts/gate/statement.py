#!/usr/bin/env python3
"""Lists the definitions on which a contract stands:

    scripts/gate/statement.py                 how many lines each headline contract stands on
    scripts/gate/statement.py audit [lawful]  its definitions, file by file, in reading order; of its clauses of these names alone,
                                              or of these fields of its records, as IsThreadsOf.lawful
    scripts/gate/statement.py --table         the tables of docs/ASSURANCE.md
    scripts/gate/statement.py --write         puts the tables into that page
    scripts/gate/statement.py --check         whether those tables are current; the last line is 'N passed, M failed'

What a contract stands on is what its clauses name, what those definitions name, and so on: definitions of specs/, types and
constants of src/, and what contracts see of a type (the `Value` of its `Model`). What the language's library defines isn't followed, and
neither is the type of a field that no definition reads, since such a field is only copied or compared. Files come lowest crate
first, in the order of crates.txt and of the crate's specs/Lib.antt. A line is counted once, with the comment above a definition,
and without empty lines."""

import os
import re
import sys
from collections import namedtuple
from functools import cache

TOP = os.path.dirname(os.path.dirname(os.path.dirname(os.path.abspath(__file__))))
# The headline contracts: where each stands, and the type that it is a call of.
HEADLINES = {
    "audit": ("sci_history", "auditing", "audit", None),
    "sequential_order": ("sci_history", "ordering", "sequential_order", None),
    "Machine::run": ("sci_core", "machine", "run", "Machine"),
    "Fabric::finish": ("sci_station", "fabric", "finish", "Fabric"),
    "oracle": ("scimem", "oracle", "oracle", None),
    "threads": ("scimem", "threads", "threads", None),
    "order": ("sci_reports", "ordering", "order", None),
}
# Contracts of which docs/ASSURANCE.md counts a main promise alone.
OTHERS = {
    "Machine::last": ("sci_core", "machine", "last", "Machine"),
    "run_nodes": ("sci_threads", "running", "run_nodes", None),
    "each_order_has_a_schedule": ("sci_orders", "laws", "each_order_has_a_schedule", None),
    "Orders::last_standings": ("sci_orders", "orders", "last_standings", "Orders"),
}
# Main promises: the words for one, the headline or other contract that has it, and the names of its clauses, or of the fields of
# the records that say it.
PROMISES = [
    ("Lawful exactly if the logs are lawful", "audit", ["lawful"]),
    ("An order exactly if the logs are sequentially consistent", "sequential_order", ["order"]),
    ("The machine's logs are lawful and sequentially consistent", "Machine::last", ["lawful", "consistent"]),
    ("So are the logs of stations", "Fabric::finish", ["lawful", "consistent"]),
    ("So are the logs of threads, and they are the script's", "run_nodes", ["named", "whole", "lawful", "consistent"]),
    ("The machine does what the rules of the protocol say", "Machine::run", ["ok"]),
    ("Each order that one memory allows is that of a schedule", "each_order_has_a_schedule", ["seen"]),
    ("The search finds the positions to which the steps of a script lead", "Orders::last_standings", ["reached"]),
    ("What is written is the oracle's text of the script, and lawful", "oracle", [f"IsOracleOf.{it}" for it in ("good", "read", "written", "lawful")]),
    ("What is written is such a log of the script", "threads", [f"IsThreadsOf.{it}" for it in ("good", "read", "written", "lawful", "consistent", "named", "whole")]),
    ("Each node is driven through the script in as many turns as were asked for, and it is done exactly if all come to their end", "threads", [f"IsThreadsOf.{it}" for it in ("led", "driven", "ends")]),
    ("The logs are those that the input says", "order", ["IsOfLogs.read"]),
    ("Done exactly if they are lawful and sequentially consistent", "order", ["IsFound.ends"]),
]
PAGE = "docs/ASSURANCE.md"
MARKS = ("<!-- made by scripts/gate/statement.py --table -->", "<!-- end -->")

START = re.compile(r"(?:(?:abbrev|unfoldable|opaque) )?(?:pub )?(?:record|data) ([\w-]+)|(?:(?:abbrev|unfoldable|opaque) )?(?:pub )?([\w-]+) :")
NAME = re.compile(r"[A-Za-z_][\w-]*(?:\.[A-Za-z_][\w-]*)*")

# A definition: its file, its name, the numbers of its lines, and their text.
Definition = namedtuple("Definition", "path name lines text")


@cache
def lines_of(path):
    with open(f"{TOP}/{path}", encoding="utf-8") as file:
        return file.read().split("\n")


@cache
def crates():
    """The crates, lowest first."""
    found = (it.split(":")[0] for it in lines_of("crates.txt") if ":" in it and not it.startswith("#"))
    return [it for it in found if os.path.isdir(f"{TOP}/crates/{it}")]


@cache
def uses(path):
    """What the names mean that a file takes from others: of each a list of parts."""
    found = {}
    for tree in re.findall(r"^\s*(?:ghost )?use Rattle\.(.*?);?$", "\n".join(lines_of(path)), re.MULTILINE):
        fronts = [[]]
        for word in re.findall(r"[^\s{},][^{},]*|}", tree):
            if word == "}":
                fronts.pop()
            elif word.endswith("."):
                fronts.append([*fronts[-1], *word[:-1].split(".")])
            else:
                inner, _, outer = word.partition(" as ")
                parts = [*fronts[-1], *inner.split(".")]
                found[outer or parts[-1]] = parts
    return found


@cache
def spec(path):
    """The definitions of a file of specs/, by name, and by the names of their constructors."""
    lines, found, front, name, start = lines_of(path), {}, None, None, 0

    def end(stop):
        if name:
            own = [number for number in range(start, stop) if lines[number].strip()]
            while own and lines[own[-1]].startswith("--"):
                own.pop()
            found[name] = Definition(path, name, own, "\n".join(lines[number] for number in own))

    for number, line in enumerate(lines):
        match = START.match(line) if not line.startswith(("--", "use ", " ")) else None
        if match:
            end(front if front is not None else number)
            name, start = match[1] or match[2], front if front is not None else number
        front = (number if front is None else front) if line.startswith("--") and not line.startswith("-- ----") else None
    end(len(lines))
    for it in list(found.values()):
        if re.search(r"^(?:pub )?data ", it.text, re.MULTILINE):
            for constructor in re.findall(r"^  (\w+) :", it.text, re.MULTILINE):
                found.setdefault(constructor, it)
    return found


def code(path, name):
    """The declaration of a type or a constant in the code."""
    lines = lines_of(path)
    for number, line in enumerate(lines):
        match = re.match(rf"pub(?:\(crate\))? (struct|enum|const|trait) {name}\b", line)
        if match:
            start = number
            while start and re.match(r"(///|#\[|//)", lines[start - 1]):
                start -= 1
            stop = number
            while not re.match(r"\}", lines[stop]) and not (lines[stop].rstrip().endswith(";") and (match[1] == "const" or stop == number)):
                stop += 1
            own = [it for it in range(start, stop + 1) if lines[it].strip()]
            return Definition(path, name, own, "\n".join(lines[it] for it in own))
    return None


def model(path, name):
    """What contracts see of a type: the `Value` of its `impl Model`, or None if there is none."""
    found = re.search(rf"^impl(?:<[^>]*>)? Model for {name}\b.*?^\}}", "\n".join(lines_of(path)), re.MULTILINE | re.DOTALL)
    value = found and re.search(r"^ *ghost Value = .*?;$", found[0], re.MULTILINE | re.DOTALL)
    if not value:
        return None
    first = "\n".join(lines_of(path))[: found.start() + value.start()].count("\n")
    return Definition(path, f"{name} (model)", list(range(first, first + value[0].count("\n") + 1)), value[0])


def of_type(path, name):
    return [it for it in (code(path, name), model(path, name)) if it]


@cache
def used_by(crate):
    """A crate and the crates that it uses, as crates.txt says."""
    line = next(it for it in lines_of("crates.txt") if it.startswith(f"{crate}:"))
    return [crate, *(it for it in crates() if it in line.split()[1:])]


@cache
def type_home(crate, name):
    """The file that declares a public type which a crate's code names, or None."""
    for crate in used_by(crate):
        folder = f"crates/{crate}/src"
        for file in sorted(os.listdir(f"{TOP}/{folder}")):
            if file.endswith(".rt") and re.search(rf"^pub (?:struct|enum) {name}\b", "\n".join(lines_of(f"{folder}/{file}")), re.MULTILINE):
                return f"{folder}/{file}"
    return None


def meant(path, name):
    """The definitions that a name stands for in a file."""
    parts = name.split(".")
    if path.endswith(".antt") and parts[0] in spec(path):
        return [spec(path)[parts[0]]]
    taken = uses(path).get(parts[0])
    if not taken:
        return []
    taken = [*taken, *parts[1:]]
    if len(taken) < 4 or taken[1] != "specs" or taken[0] not in crates():
        return []
    if taken[2] != "declared":
        found = spec(f"crates/{taken[0]}/specs/{taken[2]}.antt").get(taken[3])
        return [found] if found else []
    file = f"crates/{taken[0]}/src/{taken[3]}.rt"
    if not os.path.exists(f"{TOP}/{file}"):
        return []
    if "TheConstants" in taken:
        name = taken[taken.index("TheConstants") + 1]
        return of_type(file, name)
    return of_type(file, taken[4]) if len(taken) > 4 else []


def without_comments(text):
    return re.sub(r"(?:--|//).*", "", text)


def fields_of(definition):
    """The fields of a type whose values have fields, each with the text of its type: of a record without parameters, or the public
    fields of a struct. None for any other definition. (A record with parameters is a statement, and its fields are what it says.)"""
    text = without_comments(definition.text)
    if re.search(rf"^(?:\w+ )*record {definition.name} : ", text, re.MULTILINE):
        return re.findall(r"^  pub ([\w-]+) : (.*(?:\n   .*)*)", text, re.MULTILINE)
    if re.search(r"^pub struct ", text, re.MULTILINE):
        return re.findall(r"^\s*pub (\w+): (.*)", text, re.MULTILINE)
    return None


def named_by(definition, text):
    """The definitions that a text, which is a definition or a part of it, names."""
    if not definition.path.endswith(".rt") or "ghost Value" in text or "ensures" in text:
        return [it for name in set(NAME.findall(text)) for it in meant(definition.path, name)]
    types = sorted(set(re.findall(r"\b[A-Z]\w+", text)))
    homes = {name: type_home(definition.path.split("/")[1], name) for name in types}
    return [it for name in types if homes[name] for it in of_type(homes[name], name)]


def fields_read(text):
    """The names of the fields that a text reads or sets."""
    return set(re.findall(r"\.([a-z][\w-]*)", text)) | set(re.findall(r"([a-z][\w-]*) = ", text))


def contract(crate, module, name, owner, clauses):
    """A contract: the head of a function with its clauses, or those of these names, and the types of its signature."""
    path = f"crates/{crate}/src/{module}.rt"
    lines = lines_of(path)
    start = next(number for number, line in enumerate(lines) if re.match(rf"\s*pub fn {name}\b", line))
    stop = start
    while lines[stop].strip() not in ("{", "{}"):
        stop += 1
    own, is_wanted = [], True
    for number in range(start, stop):
        clause = re.match(r"\s*ensures (\w*)", lines[number])
        is_wanted = clause[1] in clauses or not clauses if clause else is_wanted or lines[number].lstrip().startswith("requires")
        own += [number] if is_wanted and lines[number].strip() else []
    types = set(re.findall(r"\b[A-Z]\w+", " ".join(it for it in (lines[n] for n in own) if not re.match(r"\s*(requires|ensures)", it))))
    return Definition(path, name, own, "\n".join(lines[it] for it in own)), types | {owner} - {None}


def with_fields(record, kept):
    """A record with these of its fields alone, and the fields that they speak of."""
    texts = {number: lines_of(record.path)[number] for number in record.lines}
    fields = {it[1]: number for number, text in texts.items() if (it := re.match(r"  pub (\w+) : ", text))}
    wanted = set(kept)
    for it in reversed(fields):
        wanted |= {name for name in NAME.findall(texts[fields[it]]) if name in fields} if it in wanted else set()
    left_out = {fields[it] for it in fields if it not in wanted}
    lines = [number for number in record.lines if number not in left_out]
    return Definition(record.path, record.name, lines, "\n".join(texts[it] for it in lines))


def start(name, parts):
    """Where to begin: at a contract, or its clauses of these names; or at the first record of which these are fields. And those records."""
    home = {**HEADLINES, **OTHERS}[name]
    head, types = contract(*home, [it for it in parts if "." not in it])
    named = [it.split(".") for it in parts if "." in it]
    if not named:
        return head, [one for it in types if type_home(home[0], it) for one in of_type(type_home(home[0], it), it)], {}
    folder = f"crates/{home[0]}/specs"
    files = (f"{folder}/{it}.antt" for it in re.findall(r"pub mod (\w+)", "\n".join(lines_of(f"{folder}/Lib.antt"))))
    records = {it.name: it for file in files for it in spec(file).values()}
    cut = {record: with_fields(records[record], [it for one, it in named if one == record]) for record, _ in named}
    return head, [cut[named[0][0]]], cut


def statement(name, parts):
    """All definitions that a contract stands on, or those parts of it."""
    head, left, cut = start(name, parts)
    found, read, waiting = {}, set(), []
    left = left if cut else [head, *left]
    while left:
        it = left.pop()
        if (it.path, it.name) in found:
            continue
        it = found[it.path, it.name] = cut.get(it.name, it)
        fields = fields_of(it)
        if fields is None:
            text = without_comments(it.text)
            read |= fields_read(text)
            left += named_by(it, text)
        else:
            waiting += [(it, field, text) for field, text in fields]
        left += [one for owner, field, text in waiting if field in read for one in named_by(owner, text)]
        waiting = [one for one in waiting if one[1] not in read]
    found.pop((head.path, head.name), None)
    return found.values()


@cache
def place(path):
    """Where a file stands in reading order."""
    _, crate, folder, file = path.split("/", 3)
    if folder == "src":
        return crates().index(crate), 0, file
    listed = re.findall(r"pub mod (\w+)", "\n".join(lines_of(f"crates/{crate}/specs/Lib.antt")))
    return crates().index(crate), 1, f"{listed.index(file[:-5]):03}"


def by_file(name, parts=()):
    """The lines and the names of the definitions of each file, in reading order."""
    files = {}
    for it in statement(name, parts):
        lines, names = files.setdefault(it.path, (set(), []))
        lines.update(it.lines)
        names.append((it.lines[0], it.name))
    return {path: (len(lines), [it for _, it in sorted(names)]) for path, (lines, names) in sorted(files.items(), key=lambda it: place(it[0]))}


def total(name, parts=()):
    return sum(count for count, _ in by_file(name, parts).values())


def drawn(rows):
    return ["| " + " | ".join(row) + " |" for row in rows]


def table():
    """The table of headline contracts."""
    each = {name: by_file(name) for name in HEADLINES}
    files = sorted({path for it in each.values() for path in it}, key=place)
    rows = [["File", *(f"`{it}`" for it in each)], ["---"] * (len(each) + 1)]
    rows += [[f"`{path[7:]}`", *(str(it[path][0]) if path in it else "" for it in each.values())] for path in files]
    rows.append(["**all**", *(f"**{total(it)}**" for it in each)])
    return drawn(rows)


def promises():
    """The table of main promises."""
    rows = [["Promise", "Contract", "Clauses, or fields of records", "Lines"], ["---"] * 4]
    rows += [[said, f"`{name}`", ", ".join(f"`{it}`" for it in parts), str(total(name, parts))] for said, name, parts in PROMISES]
    return drawn(rows)


def main(words):
    if words == ["--table"]:
        print("\n".join([*promises(), "", *table()]))
    elif words in (["--check"], ["--write"]):
        page = "\n".join(lines_of(PAGE))
        front, old, back = re.fullmatch(rf"(.*{MARKS[0]}\n)(.*)({MARKS[1]}.*)", page, re.DOTALL).groups()
        new = "\n".join(["", *promises(), "", *table(), "", ""])
        if words == ["--write"]:
            with open(f"{TOP}/{PAGE}", "w", encoding="utf-8") as file:
                file.write(front + new + back)
            return 0
        if new != old:
            print(f"{PAGE}: the table of definitions isn't current: run scripts/gate/statement.py --write")
        print(f"{int(new == old)} passed, {int(new != old)} failed")
        return int(new != old)
    elif words:
        for path, (count, names) in by_file(words[0], words[1:]).items():
            print(f"{count:5} {path}: {', '.join(names)}")
        print(f"{total(words[0], words[1:]):5} in all")
    else:
        for name in HEADLINES:
            print(f"{total(name):5} {name}")
    return 0


sys.exit(main(sys.argv[1:]))
