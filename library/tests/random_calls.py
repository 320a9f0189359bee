#!/usr/bin/env python3
"""Random calls of the C library from Python, against the text programs. The same events by `scimem replay` give the same logs; the
same logs by `scimem audit` give the same verdict, or the same first fault, by `sciview order` the same order, and by `sciview
explain` the same words. Lines are written as the programs read them. The controllers of the nodes, wired here, do what a machine
does, and their packets are printed as by `scimem decode`.

    random_calls.py SCIMEM CALLS

The last line is 'N passed, M failed', of comparisons."""

import os
import random
import re
import subprocess
import sys
from collections import deque

from lichenknit import (
    Act, BadText, Contents, Event, EventKind, Lane, Logs, Machine, Node, NotEnabled, Op, OrderKind, Packet, Status, VerdictKind, packets, size_text,
)

EXAMPLES = os.path.join(os.path.dirname(os.path.abspath(__file__)), "..", "..", "examples")
ASKS = ("mread", "fread", "cread", "claim", "clear", "purge", "roll", "wback", "setback")


class Tally:
    """Comparisons that passed and failed."""

    def __init__(self, scimem):
        self.scimem, self.passed, self.failed = scimem, 0, 0
        beside = scimem.replace("scimem", "sciview")
        self.sciview = beside if os.path.exists(beside) else None

    def same(self, what, found, wanted):
        if found == wanted:
            self.passed += 1
        else:
            self.failed += 1
            print(f"{what} FAILED: {str(found)[:300]} and not {str(wanted)[:300]}", flush=True)

    def ran(self, command, given, program=None, words=()):
        """What the program writes on standard output."""
        words = [program or self.scimem, command, *words]
        return subprocess.run(words, input=given, stdout=subprocess.PIPE, stderr=subprocess.DEVNULL).stdout


def operation(op):
    """The text of an operation."""
    operands = {Act.LOAD: [], Act.STORE: [op.datum], Act.FETCH_ADD: [op.datum]}.get(op.act, [op.arg, op.datum])
    return " ".join(str(part) for part in [Act(op.act), op.line, op.word, *operands])


def line_of(event):
    """The line of a schedule that says an event."""
    return {
        EventKind.ISSUE: lambda: f"issue {event.node} {operation(event.op)}",
        EventKind.PERFORM: lambda: f"perform {event.node} {event.line}",
        EventKind.ASK: lambda: f"ask {event.node} {event.line} {ASKS[event.asks]}",
        EventKind.SERVE: lambda: f"serve {event.source} {event.node}",
        EventKind.REFUSE: lambda: f"refuse {event.source} {event.node}",
        EventKind.REPLY: lambda: f"reply {event.node}",
        EventKind.ACCEPT: lambda: f"accept {event.source} {event.node}",
    }[event.kind]()


def random_op(draw, lines):
    words = [draw.choice((0, 1, draw.getrandbits(64))) for _ in range(2)]
    return Op(draw.randrange(7), draw.randrange(lines), draw.randrange(8), *words)


def random_event(draw, nodes, lines):
    """An event, of which the fields that it doesn't have are random too."""
    return Event(draw.randrange(7), draw.randrange(nodes), draw.randrange(nodes), draw.randrange(lines), draw.randrange(9), random_op(draw, lines))


def verdict_line(verdict):
    """What `scimem audit` prints of a verdict, without the name of the fault."""
    if verdict:
        return b"lawful\n"
    at = f" node {verdict.node} serial {verdict.serial}" if verdict.node is not None else ""
    return f"fault {int(verdict.kind)} line {verdict.line}{at}\n".encode()


def judged(text):
    """What the library says of a text, in the words of `scimem audit`."""
    try:
        return verdict_line(Logs.read(text).audit())
    except BadText as error:
        return f"refused at line {error.line}: {error.kind}\n".encode()


def printed(tally, text):
    """What `scimem audit` says of a text, without the name of the fault."""
    return re.sub(rb"^(fault \d+) [a-z-]+", rb"\1", tally.ran("audit", text))


def place_of(entry):
    """Where an entry stands in the logs."""
    return entry.node, entry.serial


def entry_line(entry):
    """The line of a log that says an entry."""
    reply = "-" if entry.word is None else entry.word
    return f"{entry.node} {entry.serial} {operation(entry.op)} = {reply} @{entry.version}"


def ordered(text):
    """What a look for one order finds, in the words of `sciview order --show`, but for a cycle's entries and an audit's fault."""
    try:
        kind, entries = Logs.read(text).order()
    except BadText:
        return [b""]
    if kind == OrderKind.ORDER:
        return [b"sequentially consistent", *(entry_line(it).encode() for it in entries)]
    return [b"not sequentially consistent"] if kind == OrderKind.CYCLE else [b"fault"]


def shown(tally, text):
    """The same of the program."""
    lines = tally.ran("order", text, program=tally.sciview, words=("--show",)).splitlines() or [b""]
    if lines[0] == b"sequentially consistent":
        return lines
    return [next((it for it in (b"not sequentially consistent", b"fault") if lines[0].startswith(it)), b"")]


def explain(tally, text):
    """Compares what both say of a log, if the text is one. The lines that they name are those of its own text."""
    try:
        logs = Logs.read(text)
    except BadText:
        return
    tally.same("what is wrong with a log", logs.explain().encode(), tally.ran("explain", logs.text().encode(), program=tally.sciview))


def left(op, old):
    """The word that an operation leaves."""
    added, kept = (old + op.datum) % 2**64, old == op.arg
    return {
        Act.LOAD: old,
        Act.STORE: op.datum,
        Act.MASK_SWAP: (op.datum & op.arg) | (old & ~op.arg),
        Act.COMPARE_SWAP: op.datum if kept else old,
        Act.FETCH_ADD: added,
        Act.BOUNDED_ADD: old if kept else added,
        Act.WRAP_ADD: op.datum if kept else added,
    }[op.act]


def contents_after(entries, lines):
    """The contents of each line after entries in one order, begun with zeros."""
    words, versions = [[0] * 8 for _ in range(lines)], [0] * lines
    for it in entries:
        line = words[it.op.line]
        line[it.op.word], versions[it.op.line] = left(it.op, line[it.op.word]), it.version
    return [Contents(version, tuple(line)) for version, line in zip(versions, words)]


def windows(tally, draw, order, size, last):
    """One order of all entries is cut, and both parts are lawful windows. A mistake in the second is found there as in all entries
    together."""
    cut = draw.randrange(len(order) + 1)
    window, whole = Logs(*size), Logs(*size)
    window.extend(order[:cut])
    for line, contents in enumerate(contents_after(order[:cut], size[1])):
        window.set_last(line, contents)
        whole.set_last(line, last[line])
    tally.same("the first window", (window.audit().kind, window.order_kind()), (VerdictKind.LAWFUL, OrderKind.ORDER))
    window.go_on()
    rest = order[cut:]
    if rest and draw.random() < 0.8:
        at = draw.randrange(len(rest))
        it = rest[at]
        word = it.word if it.word is None or draw.random() < 0.5 else (it.word + 1) % 2**64
        rest[at] = it._replace(word=word, version=it.version + draw.randrange(2))
    window.extend(rest)
    whole.extend(order[:cut] + rest)
    for line in range(size[1]):
        window.set_last(line, last[line])
    tally.same("a window's verdict", window.audit(), whole.audit())
    kind, found = window.order()
    tally.same("a window's kind of order", (kind, window.order_kind()), (whole.order_kind(), kind))
    if kind == OrderKind.ORDER:
        tally.same("a window's order", sorted(found, key=place_of), sorted(rest, key=place_of))


def changed(draw, text):
    """The text with another number, or with bytes that are gone or twice there."""
    number = draw.choice([it.span() for it in re.finditer(rb"\d+", text)])
    start = draw.randrange(len(text))
    return draw.choice((
        text[: number[0]] + str(draw.randrange(4)).encode() + text[number[1]:],
        text[:start] + text[start + draw.randrange(1, 4):],
        text[:start] + text[max(0, start - 3):],
    ))


def machine_run(tally, draw, calls):
    """A machine goes through random events, and so does the text program."""
    size = draw.randrange(1, 5), draw.randrange(1, 4), draw.randrange(1, 3)
    schedule, written, dead = [f"machine {size[0]} {size[1]} {size[2]}\n"], [size_text(*size)], 0
    with Machine(*size, 65536) as machine:
        for _ in range(calls):
            event = random_event(draw, *size[:2])
            dead += not machine.try_step(event)
            schedule.append(line_of(event) + "\n")
            written.append(event.text())
        logs = machine.logs()
        text = logs.text().encode()
        tally.same("the lines of a schedule", written, schedule)
        tally.same(f"logs of a machine of {size}", text, tally.ran("replay", "".join(schedule).encode()))
        again, found = Machine.replay("".join(schedule), 65536)
        tally.same("a schedule that is followed", again.logs().text().encode(), text)
        tally.same("events that weren't enabled", found.count if found else 0, dead)
        tally.same("verdict", verdict_line(logs.audit()), b"lawful\n")
        entries = list(logs)
        copy = Logs(size[0], size[1])
        for entry in entries:
            copy.push(entry)
        for line in range(size[1]):
            tally.same("last contents", machine.last(line), logs.last(line))
            copy.set_last(line, logs.last(line))
        tally.same("logs that are pushed again", copy.text().encode(), text)
        tally.same("the lines of entries", "".join(it.text() for it in entries), "".join(f"{entry_line(it)}\n" for it in entries))
        if tally.sciview:
            tally.same("the order of a log", ordered(text), shown(tally, text))
        kind, order = logs.order()
        tally.same("an order", (kind, sorted(order, key=place_of)), (OrderKind.ORDER, sorted(entries, key=place_of)))
        tally.same("the kind of order", logs.order_kind(), kind)
        for _ in range(8):
            windows(tally, draw, list(order), size[:2], [logs.last(line) for line in range(size[1])])
        for node in range(size[0]):
            tally.same("the order of a node", [it for it in order if it.node == node], list(logs.of(node)))
        for _ in range(8):
            other = changed(draw, text)
            if tally.sciview:
                tally.same("the order of a changed log", ordered(other), shown(tally, other))
            tally.same("a changed log", judged(other), printed(tally, other))
            if tally.sciview:
                explain(tally, other)


class Wires:
    """Controllers, and the packets between them on lanes of requests and of answers."""

    def __init__(self, size):
        self.nodes = [Node(n, *size, 65536) for n in range(size[0])]
        self.lanes = {(kind, a, b): deque() for kind in (0, 1) for a in range(size[0]) for b in range(size[0])}
        self.sent = []

    def send(self, kind, packet):
        if packet is None:
            raise NotEnabled("no answer waits", Status.NOT_ENABLED)
        self.sent.append(packet)
        self.lanes[kind, packet[5], packet[1]].append(packet)

    def take(self, kind, event, how):
        lane = self.lanes[kind, event.source, event.node]
        if not lane:
            raise NotEnabled("nothing has come", Status.NOT_ENABLED)
        how(lane[0])
        lane.popleft()

    def make(self, event):
        """Makes an event by the calls of the nodes, or raises NotEnabled."""
        node = self.nodes[event.node]
        {
            EventKind.ISSUE: lambda: node.issue(event.op),
            EventKind.PERFORM: lambda: node.perform(event.line),
            EventKind.ASK: lambda: self.send(0, node.ask(event.line, event.asks)),
            EventKind.SERVE: lambda: self.take(0, event, node.serve),
            EventKind.REFUSE: lambda: self.take(0, event, node.refuse),
            EventKind.REPLY: lambda: self.send(1, node.take_answer()),
            EventKind.ACCEPT: lambda: self.take(1, event, node.accept),
        }[event.kind]()


def wired_run(tally, draw, calls):
    """Nodes that are wired here go through the events of a machine, and the same ones are enabled."""
    size = draw.randrange(1, 5), draw.randrange(1, 4), draw.randrange(1, 3)
    wires, differ = Wires(size), 0
    with Machine(*size, 65536) as machine:
        for _ in range(calls // 2):
            event = random_event(draw, *size[:2])
            before = len(wires.sent)
            try:
                wires.make(event)
                made = True
            except NotEnabled:
                made = False
            differ += made != (machine.obstacle(event) == 0)
            if made:
                seen = machine.step(event)
                sent = list(packets(b"".join(wires.sent[before:])))
                differ += bool(sent) and [seen.packet] != sent
                differ += (seen.entry is not None) != (event.kind == EventKind.PERFORM)
            else:
                differ += machine.try_step(event)
        for node, line in ((node, line) for node in range(size[0]) for line in range(size[1])):
            here = wires.nodes[node]
            differ += here.held(line) != machine.held(node, line) or here.home_state(line) != machine.home(node, line)
            differ += here.pending(line) != machine.pending(node, line)
        for (kind, source, target), lane in wires.lanes.items():
            differ += list(machine.packets(Lane(kind), source, target)) != list(packets(b"".join(lane)))
        copy = machine.clone()
        tally.same("a copy", copy.logs().text(), machine.logs().text())
    tally.same("events that are enabled, and what they do", differ, 0)
    data = b"".join(wires.sent)
    tally.same("packets", tally.ran("decode", data), "".join(it.text() for it in packets(data)).encode())
    again = b"".join(Packet.decode(packet)[0].encode() for packet in wires.sent)
    tally.same("packets that are encoded again", again, data)


def main():
    tally, calls = Tally(sys.argv[1]), int(sys.argv[2])
    for seed in range(10):
        draw = random.Random(seed)
        machine_run(tally, draw, calls // 20)
        wired_run(tally, draw, calls // 20)
    with open(os.path.join(EXAMPLES, "store-buffer.log"), "rb") as file:
        kind, cycle = Logs.read(file.read()).order()
    tally.same("a cycle", (kind, [(it.node, it.serial) for it in cycle]), (OrderKind.CYCLE, [(0, 0), (1, 1), (1, 0), (0, 1)]))
    if not tally.sciview:
        print("sciview isn't built: the comparison of orders is left out")
    print(f"{tally.passed} passed, {tally.failed} failed")
    return 1 if tally.failed else 0


if __name__ == "__main__":
    sys.exit(main())
