#!/usr/bin/env python3
"""Reads charts of `sciview chart` by a parser of XML, and checks whether they show what the schedule does.

The packets of a schedule are those that `sciview packets` writes and `scimem decode` prints. A chart has to have an arrow
for each, in their order: from the column of its sender to that of its receiver, downwards, dotted only for a busy answer,
and in short dashes only for a request that is answered busy. Its title is the whole packet, and its label names it and the
node that it names. Each event has its row, with its line in the schedule. A label of a state has the title that `sciview
trace` prints. No two texts overlap, and no label says nothing of its line. A thin line goes from the issue of an operation to
its perform, with the events between, which its label has too. Of packets of a node to itself that are under way at once each
has its own way. The schedules are those of examples/, the first events of scripts/make/inputs.py, and loops. A chart of some
lines of a schedule has their rows and the packets under way there, each with its name, and with its sender or its receiver
if it has no row. A chart in docs/ has to be what the program draws of the schedule of that name.
The last line is 'N passed, M failed', of charts.
"""

import os
import re
import subprocess
import sys
import xml.etree.ElementTree as xml
from collections import namedtuple

TOP = os.path.dirname(os.path.dirname(os.path.dirname(os.path.abspath(__file__))))
SCIMEM, SCIVIEW = (f"{TOP}/crates/{name}/out/{name}" for name in ("scimem", "sciview"))
SPACE = "{http://www.w3.org/2000/svg}"
# The kinds of arrows in the order of the legend, which shows each once, with the dashes of each.
DASHES = {"request": None, "request refused": "6 5", "answer": "18 3", "answer busy": "2 4"}
# Packets of node 0 to itself: of the first two one is taken before the third is sent, and then there are four at once.
LOOPS = b"""machine 1 4 4
ask 0 0 mread
ask 0 1 mread
serve 0 0
reply 0
ask 0 2 mread
serve 0 0
ask 0 3 mread
accept 0 0
reply 0
serve 0 0
accept 0 0
"""
# How wide a character is at most, and how high a text is, in pixels.
WIDTH, HEIGHT = 7, 12


def ran(program, *words, given):
    return subprocess.run([program, *words], input=given, stdout=subprocess.PIPE, check=True).stdout


def schedules():
    """What each schedule is called, and its text."""
    for name in sorted(os.listdir(f"{TOP}/examples")):
        if name.endswith(".schedule"):
            with open(f"{TOP}/examples/{name}", "rb") as file:
                yield name, file.read()
    made = subprocess.run([f"{TOP}/scripts/make/inputs.py", "schedule"], stdout=subprocess.PIPE, check=True).stdout
    yield "inputs.py schedule", b"\n".join(made.split(b"\n")[:2001]) + b"\n"
    yield "loops", LOOPS


# A packet as `scimem decode` prints it, and what a chart calls it.
Packet = namedtuple("Packet", "whole command receiver sender name")


def packets(given):
    """The packets that a schedule sends."""
    for line in ran(SCIMEM, "decode", given=ran(SCIVIEW, "packets", given=given)).decode().splitlines():
        words = line.split()
        named = [" ->"] * (words[0] == "purged") + [f" {words[words.index('id') + 1]}"] if "id" in words else []
        yield Packet(line, words[0], int(words[2]), int(words[4]), "".join([words[0], *named]))


# A text and an arrow of a chart. Places are in pixels from where the texts of events begin and from the upper edge.
Text = namedtuple("Text", "kind x y words title")
Arrow = namedtuple("Arrow", "kind start end title way")


def drawn(element, names, down=0):
    """The elements in one, each with how far down it is moved. In the place of a `use` stand the names of the nodes."""
    for it in element:
        if it.tag == f"{SPACE}use":
            yield from drawn(names, names, down + int(it.get("y", "0")))
        elif it.tag != f"{SPACE}defs":
            moved = re.fullmatch(r"translate\(0 (\d+)\)", it.get("transform", "translate(0 0)"))
            yield it, down + int(moved.group(1))
            yield from drawn(it, names, down + int(moved.group(1)))


def kind_of(text):
    """What a text is: one without a class and an x is that of an event, and one without a class a label."""
    return text.get("class") or ("label" if "x" in text.attrib else "event")


def texts_of(chart):
    """The texts of a chart."""
    for it, down in drawn(chart, chart.find(f".//{SPACE}g[@id='names']")):
        if it.tag == f"{SPACE}text":
            yield Text(kind_of(it), int(it.get("x", "0")), int(it.get("y")) + down, it.text, it.findtext(f"{SPACE}title"))


def ends(way):
    """The first point of an arrow's way, and the last."""
    straight = re.fullmatch(r"M(\d+) (\d+) (\d+) (\d+)", way)
    if straight:
        x, y, to_x, to_y = map(int, straight.groups())
        return (x, y), (to_x, to_y)
    around = re.fullmatch(r"M(\d+) (\d+)H\d+V(\d+)H(\d+)", way)
    x, y, to_y, to_x = map(int, around.groups())
    return (x, y), (to_x, to_y)


def kinds_of(chart):
    """What the legend calls each class of arrow."""
    elements = [it for it, _ in drawn(chart, [])]
    keys = [it.text for it in elements if it.get("class") == "key"]
    samples = [it.get("class") for it in elements if re.match(r"M\d+ 48 \d+ 48$", it.get("d", ""))]
    return dict(zip(samples, keys[: len(DASHES)], strict=True))


def arrows_of(chart):
    """The arrows of a chart."""
    kinds = kinds_of(chart)
    found = [it for it in drawn(chart, []) if it[0].get("class") in kinds]
    for it, down in found[len(kinds) :]:
        (x, y), (to_x, to_y) = ends(it.get("d"))
        yield Arrow(kinds[it.get("class")], (x, y + down), (to_x, to_y + down), it.findtext(f"{SPACE}title"), it.get("d"))


def style_faults(chart):
    """What is wrong with the looks of the arrows."""
    style = chart.findtext(f"{SPACE}style")
    for name, kind in kinds_of(chart).items():
        rule = re.search(rf"^\.{name} {{(.*)}}$", style, re.M).group(1)
        dashes = re.search(r"stroke-dasharray: (.*?);", rule)
        if (dashes and dashes.group(1)) != DASHES[kind]:
            yield f"the dashes of {kind}"


def columns_of(chart):
    """Where the columns of a chart are."""
    (column,) = (it for it, _ in drawn(chart, []) if it.get("class") == "column")
    return [int(x) for x in re.findall(r"M(\d+) ", column.get("d"))]


def rows_of(chart):
    """The texts of the events of a chart."""
    return [it for it in texts_of(chart) if it.kind in ("event", "dead") and it.x == 0]


def said_of_packets(texts, rows):
    """What the labels beside the rows in which packets are sent say first, in their order."""
    heights = {it.y: it.words.split()[1] for it in rows if it.kind == "event"}
    for text in texts:
        # A label stands 8 pixels above its row's text, or below it.
        event = heights.get(text.y + 8) or heights.get(text.y - 8)
        if text.kind == "label" and event in ("ask", "reply"):
            yield re.sub(r"^line \d+: | to \d+$", "", text.words.split(",")[0])


def overlap(first, second):
    """Whether two texts overlap."""
    ends_behind = lambda one, other: one.x < other.x + WIDTH * len(other.words)
    return abs(first.y - second.y) < HEIGHT and ends_behind(first, second) and ends_behind(second, first)


def part_faults(given):
    """What is wrong with a chart of the middle lines of a schedule, beside that of all lines."""
    count = given.count(b"\n")
    first, last = count // 3, 2 * count // 3
    whole = xml.fromstring(ran(SCIVIEW, "chart", given=given))
    part = xml.fromstring(ran(SCIVIEW, "chart", "--events", str(first), str(last), given=given))
    # A row's text stands 4 pixels below its arrows.
    lines = {it.y - 4: int(it.words.split(":")[0]) for it in rows_of(whole)}
    if [it.words for it in rows_of(part)] != [it.words for it in rows_of(whole)][first - 2 : last - 1]:
        yield f"the rows of lines {first} to {last}"
    due = [it.title for it in arrows_of(whole) if lines[it.start[1]] <= last and lines.get(it.end[1], count) >= first]
    if [it.title for it in arrows_of(part)] != due:
        yield f"the arrows of lines {first} to {last}"
    yield from cut_faults(part)


def cut_faults(part):
    """What is wrong with the names of packets that a chart of some lines cuts off."""
    texts, heights = list(texts_of(part)), {it.y - 4 for it in rows_of(part)}
    # A label stands 4 pixels above its row, or 12 below it.
    said = {y: it.words for it in texts if it.kind == "label" for y in (it.y + 4, it.y - 12) if y in heights}
    passing = [it.words for it in texts if it.words.startswith("under way in all rows: ")]
    due = []
    for arrow in arrows_of(part):
        command, _, receiver, _, sender = arrow.title.split()[:5]
        from_row, to_row = arrow.start[1] in heights, arrow.end[1] in heights
        if not from_row and not to_row:
            due.append(f"under way in all rows: {command} from {sender} to {receiver}")
        elif not from_row and not re.search(rf"^(line \d+: )?{command}.* from {sender}(,|$)", said.get(arrow.end[1], "")):
            yield f"the name of {arrow.title} from above"
        elif not to_row and not re.search(rf"^(line \d+: )?{command}.* to {receiver}(,|$)", said.get(arrow.start[1], "")):
            yield f"the name of {arrow.title} that goes on"
    if passing != due:
        yield "the packets under way in all rows"


def wait_faults(chart, texts, rows):
    """What is wrong with the lines of operations, and with what their labels say of them."""
    columns, pending, due = columns_of(chart), {}, []
    labels = {it.y + 4: it.words for it in texts if it.kind == "label"}
    for row in (it for it in rows if it.kind == "event"):
        number, kind, node, *more = row.words.replace(":", "").split()
        if kind == "issue":
            pending[node, more[1]] = (int(number), row.y - 4)
        if kind == "perform":
            issued, y = pending.pop((node, more[0]))
            wait = int(number) - issued - 1
            due.append((columns[int(node)], y, row.y - 4, f"wait {wait}"))
            if f", wait {wait}" not in labels[row.y - 4]:
                yield f"the label of {row.words}"
    # The first one is that of the legend.
    lines = [(it.get("d"), it.findtext(f"{SPACE}title")) for it, _ in drawn(chart, []) if it.get("class") == "w"][1:]
    if [(*ends(way)[0], ends(way)[1][1], title) for way, title in lines] != due:
        yield "the lines of operations"


def loop_faults(arrows):
    """Where packets of a node to itself go one on another."""
    loops = [(it, re.search(r"H(\d+)V", it.way)[1]) for it in arrows if it.start[0] == it.end[0]]
    for place, (it, left) in enumerate(loops):
        for other, other_left in loops[:place]:
            if other.start[0] == it.start[0] and other.end[1] > it.start[1] and left == other_left:
                yield f"{it.title} on {other.title}"


def arrow_faults(arrows, sent, columns):
    """What is wrong with the arrows of a chart, beside the packets that a schedule sends."""
    if len(arrows) != len(sent):
        yield f"{len(arrows)} arrows of {len(sent)} packets"
    for arrow, packet in zip(arrows, sent):
        (x, y), (to_x, to_y) = arrow.start, arrow.end
        if (x, to_x) != (columns[packet.sender], columns[packet.receiver]) or y >= to_y:
            yield f"the arrow of {packet.whole}"
        if (arrow.kind == "answer busy") != (packet.command == "busy"):
            yield f"the arrow of {packet.command} is drawn as {arrow.kind}"
        if arrow.title != packet.whole:
            yield f"the title of the arrow of {packet.whole}"
    refused = sum(it.kind == "request refused" for it in arrows)
    if refused > sum(packet.command == "busy" for packet in sent):
        yield "more refusals than busy answers"


def faults(given):
    """What is wrong with the chart of a schedule."""
    chart = xml.fromstring(ran(SCIVIEW, "chart", given=given))
    sent = list(packets(given))
    yield from style_faults(chart)
    yield from arrow_faults(list(arrows_of(chart)), sent, columns_of(chart))
    texts, rows = list(texts_of(chart)), rows_of(chart)
    events = given.decode().splitlines()[1:]
    if [it.words for it in rows] != [f"{line}: {event}" for line, event in enumerate(events, 2)]:
        yield f"{len(rows)} rows, of {len(events)} events"
    if [*said_of_packets(texts, rows)] != [packet.name for packet in sent]:
        yield "a label that names another packet, or none"
    yield from wait_faults(chart, texts, rows)
    yield from loop_faults(list(arrows_of(chart)))
    if any(it.words.endswith(": ") for it in texts if it.kind == "label"):
        yield "a label that says nothing of its line"
    changes = ran(SCIVIEW, "trace", given=given).decode()
    for title in (it.title for it in texts if "->" in it.words and it.kind == "label"):
        if title and f"  {title}\n" not in changes:
            yield f"the title {title!r}"
    texts.sort(key=lambda it: it.y)
    for place, text in enumerate(texts):
        for other in texts[place + 1 : place + 24]:
            if overlap(text, other):
                yield f"{text.words!r} overlaps {other.words!r}"


def stored(name, given):
    """What is wrong with the chart in docs/ of a schedule, if there is one."""
    path = f"{TOP}/docs/{name.removesuffix('.schedule')}.svg"
    if os.path.exists(path):
        with open(path, "rb") as file:
            if file.read() != ran(SCIVIEW, "chart", given=given):
                yield f"{os.path.relpath(path, TOP)} is another chart"


def main():
    counts = {True: 0, False: 0}
    for name, given in schedules():
        found = [*faults(given), *part_faults(given), *stored(name, given)]
        counts[not found] += 1
        print(f"{name}: {'; '.join(found[:3]) or 'right'}", flush=True)
    print(f"{counts[True]} passed, {counts[False]} failed")
    return 1 if counts[False] or not counts[True] else 0


sys.exit(main())
