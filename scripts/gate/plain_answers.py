"""What scimem has to answer, worked out anew from docs/TEXTS.md and docs/PROTOCOL.md, for scripts/measure/fuzz.py."""

import re
from collections import Counter, namedtuple

NUMBER = re.compile(rb"0|[1-9][0-9]*")
WORD = 2**64
OPERANDS = {b"load": 0, b"store": 1, b"fetch-add": 1}
OPERANDS |= {name: 2 for name in (b"mask-swap", b"compare-swap", b"bounded-add", b"wrap-add")}
KINDS = b"mread fread cread claim clear purge roll wback setback".split()
# The nodes (n) and lines (l) that an event names.
EVENTS = {b"ask": "nl", b"perform": "nl", b"serve": "nn", b"refuse": "nn", b"reply": "n", b"accept": "nn"}
FAULTS = (None, "version-twice", "version-missing", "wrong-reply", "out-of-order", "last-differs")

Operation = namedtuple("Operation", "name line word operands")
Entry = namedtuple("Entry", "node serial operation reply version")


class Refused(Exception):
    """The first fault of a text: what is wrong with the line that is read."""


def number(text):
    if not NUMBER.fullmatch(text):
        raise Refused("syntax")
    return int(text)


def stamp(text):
    """The number of a version, after its @."""
    if text[:1] != b"@":
        raise Refused("syntax")
    return number(text[1:])


def expect(well, kind):
    if not well:
        raise Refused(kind)


def operation(words):
    expect(words and words[0] in OPERANDS and len(words) == 3 + OPERANDS[words[0]], "syntax")
    return Operation(words[0], *map(number, words[1:3]), tuple(map(number, words[3:])))


def is_in_range(op, lines):
    return op.line < lines and op.word < 8 and all(it < WORD for it in op.operands)


def machine(words):
    expect(words[0] == b"machine" and len(words) == 4, "syntax")
    nodes, lines, slots = map(number, words[1:])
    expect(1 <= nodes <= 16 and 1 <= lines <= 64 and 1 <= slots <= 8, "range")
    return nodes, lines


def read_script(lines):
    nodes, count = machine(next(lines))
    script, issued = [], Counter()
    for words in lines:
        expect(words[0] == b"p" and len(words) > 1, "syntax")
        node, op = number(words[1]), operation(words[2:])
        expect(node < nodes and is_in_range(op, count), "range")
        issued[node] += 1
        expect(issued[node] <= 65_536, "too-many")
        script.append((node, op))
    return nodes, count, script


def read_event(words, nodes, lines):
    """Looks at the line of an event, of a machine with this many nodes and lines."""
    if words[0] == b"issue":
        expect(len(words) > 1, "syntax")
        node, op = number(words[1]), operation(words[2:])
        return expect(node < nodes and is_in_range(op, lines), "range")
    if words[0] == b"ask":
        expect(len(words) == 4 and words.pop() in KINDS, "syntax")
    parts = EVENTS.get(words[0])
    expect(parts and len(words) == 1 + len(parts), "syntax")
    found = [number(it) for it in words[1:]]
    expect(all(it < {"n": nodes, "l": lines}[part] for it, part in zip(found, parts)), "range")


def read_schedule(lines):
    nodes, count = machine(next(lines))
    for place, words in enumerate(lines):
        read_event(words, nodes, count)
        expect(place < 500_000, "too-many")


def read_last(words, line):
    """The version and the words of the last contents of this line."""
    expect(len(words) == 11 and words[1] == b"%d" % line, "syntax")
    found = [stamp(words[2]), *map(number, words[3:])]
    expect(line < 64 and all(it < WORD for it in found), "range")
    return found


def read_entry(words, before, form):
    """An entry, of this node or one above it."""
    nodes, lines, serials = form
    expect(len(words) > 5 and words[-3] == b"=", "syntax")
    node, serial, op, version = number(words[0]), number(words[1]), operation(words[2:-3]), stamp(words[-1])
    expect((words[-2] == b"-") == (op.name == b"store"), "syntax")
    reply = None if words[-2] == b"-" else number(words[-2])
    expect(node >= before, "syntax")
    well = node < nodes and serial < serials and is_in_range(op, lines) and (reply or 0) < WORD and version < WORD
    expect(well, "range")
    return Entry(node, serial, op, reply, version)


def read_log(lines, is_second):
    nodes, count, serials = 8, None, 4_096
    if is_second:
        words = next(lines)
        expect(words[:2] == [b"log", b"2"] and len(words) == 4, "syntax")
        nodes, count, serials = number(words[2]), number(words[3]), 65_536
        expect(1 <= nodes <= 16 and 1 <= count <= 64, "range")
    last, entries, logged = [], [], Counter()
    for words in lines:
        if words[0] == b"last" and not entries and len(last) != count:
            last.append(read_last(words, len(last)))
            continue
        expect(len(last) == (count or len(last)) and last, "syntax")
        before = entries[-1].node if entries else 0
        entries.append(read_entry(words, before, (nodes, len(last), serials)))
        logged[entries[-1].node] += 1
        expect(logged[entries[-1].node] <= serials, "too-many")
    expect(last and len(last) == (count or len(last)), "syntax")
    return nodes, last, entries


def effect(op, old):
    """The new word."""
    a, d = (op.operands + (0, 0))[:2] if len(op.operands) == 2 else (None, (op.operands + (0,))[0])
    return {
        b"load": old,
        b"store": d,
        b"mask-swap": (d & (a or 0)) | (old & ~(a or 0)),
        b"compare-swap": d if old == a else old,
        b"fetch-add": (old + d) % WORD,
        b"bounded-add": (old + d) % WORD if old != a else old,
        b"wrap-add": (old + d) % WORD if old != a else d,
    }[op.name]


def log_text(nodes, last, entries):
    text = [b"log 2 %d %d\n" % (nodes, len(last))]
    for line, (version, *words) in enumerate(last):
        text.append(b"last %d @%d %s\n" % (line, version, b" ".join(b"%d" % it for it in words)))
    for it in entries:
        parts = [it.operation.name, *(b"%d" % n for n in (it.operation.line, it.operation.word, *it.operation.operands))]
        reply = b"-" if it.reply is None else b"%d" % it.reply
        text.append(b"%d %d %s = %s @%d\n" % (it.node, it.serial, b" ".join(parts), reply, it.version))
    return b"".join(text)


def oracle(nodes, lines, script):
    last, logs = [[0] * 9 for _ in range(lines)], [[] for _ in range(nodes)]
    for node, op in script:
        line = last[op.line]
        old = line[1 + op.word]
        line[0] += op.name != b"load"
        line[1 + op.word] = effect(op, old)
        logs[node].append(Entry(node, len(logs[node]), op, None if op.name == b"store" else old, line[0]))
    return log_text(nodes, last, [it for log in logs for it in log])


def is_maker(entry):
    return entry.operation.name != b"load"


def wrong_reply(placed, words):
    """The first placed entry with a wrong reply. The words become those at the end."""
    for entry in placed:
        old = words[entry.operation.word]
        if entry.reply is not None and entry.reply != old:
            return entry
        words[entry.operation.word] = effect(entry.operation, old)
    return None


def line_fault(entries, last):
    """The first fault on a line, of entries in reading order: its number in FAULTS, and its entry; or None."""
    makers = [it for it in entries if is_maker(it)]
    for place, entry in enumerate(makers):
        if entry.version in {it.version for it in makers[:place]}:
            return 1, entry
    for entry in entries:
        if entry.version > len(makers) or is_maker(entry) and entry.version == 0:
            return 2, entry
    keys = {place: (it.version, not is_maker(it), it.node, it.serial, place) for place, it in enumerate(entries)}
    words = [0] * 8
    wrong = wrong_reply([entries[key[-1]] for key in sorted(keys.values())], words)
    if wrong:
        return 3, wrong
    before = {}
    for place, entry in enumerate(entries):
        earlier = before.get(entry.node)
        if earlier is not None and (entry.serial <= entries[earlier].serial or keys[place] <= keys[earlier]):
            return 4, entry
        before[entry.node] = place
    return (5, None) if [len(makers), *words] != last else None


def audit(last, entries):
    for line, contents in enumerate(last):
        fault = line_fault([it for it in entries if it.operation.line == line], contents)
        if fault:
            kind, entry = fault
            place = " node %d serial %d" % entry[:2] if entry else ""
            return 1, b"fault %d %s line %d%s\n" % (kind, FAULTS[kind].encode(), line, place.encode())
    return 0, b"lawful\n"


class Lines:
    """The lines of a text as lists of words, one after another; `place` is that of the line that is read."""

    def __init__(self, given):
        self.lines, self.place = given.split(b"\n"), 0

    def __iter__(self):
        return self

    def __next__(self):
        self.place += 1
        if self.place == len(self.lines) and not self.lines[-1]:
            raise StopIteration
        expect(self.place < len(self.lines) and len(self.lines[self.place - 1]) <= 256, "syntax")
        return self.lines[self.place - 1].split(b" ")


def answer(command, given):
    """Status and output for a text; None for a schedule without a fault."""
    lines = Lines(given)
    try:
        if command == "oracle":
            return 0, oracle(*read_script(lines))
        if command == "replay":
            return read_schedule(lines)
        nodes, last, entries = read_log(lines, given.startswith(b"log "))
        return (0, log_text(nodes, last, entries)) if command == "upgrade" else audit(last, entries)
    except (Refused, StopIteration) as fault:
        kind = "syntax" if isinstance(fault, StopIteration) else str(fault)
        return 2, b"refused at line %d: %s\n" % (lines.place, kind.encode())
