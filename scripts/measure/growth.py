#!/usr/bin/env python3
"""Prints how the cost of each command grows with its input: two tables, of sizes and of nodes.

    scripts/measure/growth.py [RUNS]    the least processor time of RUNS runs of each, 5 if it isn't said

A size is a number of operations of a script or of a trace, of events of a schedule, of entries of a log, or of packets. The slope
is that of the time from the last size but one to the last: 1 if twice the input takes twice the time. The second table has what
`allowed` takes for scripts in which each of some nodes stores to one line and loads from the next, by the operations of a node. The
third has the packets and the words of packets an operation, by the nodes of a machine, in runs of `sciview run`. It needs the built
programs."""

import math
import random
import re
import resource
import subprocess
import sys

from programs import INPUTS, SCIMEM, SCIVIEW, output

SIZES = [2**it for it in range(10, 21, 2)]
# A schedule has at most 500,000 events, and a page 10,000.
EVENTS = [it for it in SIZES if it < 2**19] + [500_000]
SHOWN = [2**10, 2**12, 10_000]
# How many operations each node of a small script has.
FEW = (1, 2, 3, 4)
NODES = (1, 2, 4, 8, 16)
# The commands with the input that each reads.
COMMANDS = [
    (SCIMEM, "oracle", "script"),
    (SCIMEM, "audit", "log"),
    (SCIMEM, "upgrade", "log"),
    (SCIMEM, "decode", "packets"),
    (SCIVIEW, "order", "log"),
    (SCIVIEW, "explain", "log"),
    (SCIMEM, "replay", "schedule"),
    (SCIVIEW, "packets", "schedule"),
    (SCIVIEW, "trace", "schedule"),
    (SCIVIEW, "lists", "schedule"),
    (SCIVIEW, "stats", "schedule"),
    (SCIVIEW, "stats --transitions", "schedule"),
    (SCIVIEW, "chart", "schedule"),
    (SCIVIEW, "check", "schedule"),
    (SCIVIEW, "random 16 64 8 SIZE 1", None),
    (SCIVIEW, "judge", "trace"),
    (SCIVIEW, "judge --order", "trace"),
    (SCIVIEW, "page", "shown"),
]


def trace(size):
    """Operations of 16 processors on one memory of 512 words, each of which is written once."""
    drawn, memory, rows = random.Random(1), [0] * 512, []
    for number in range(size):
        address, processor = drawn.randrange(512), drawn.randrange(16)
        if drawn.randrange(4) == 0:
            memory[address] = number + 1
            rows.append(f"{processor}: M[{address}] := {number + 1}\n")
        else:
            rows.append(f"{processor}: M[{address}] == {memory[address]}\n")
    return "".join(rows).encode()


def inputs():
    """The largest inputs by their kinds."""
    script = output([INPUTS, "script", "65536"])
    schedule = output([INPUTS, "schedule"]).splitlines(True)
    return {
        "script": script.splitlines(True),
        "log": {it: output([SCIMEM, "oracle"], b"".join(script.splitlines(True)[: it + 1])) for it in SIZES},
        "schedule": schedule,
        "shown": schedule,
        "trace": {it: trace(it) for it in SIZES},
        "packets": {it: output([INPUTS, "packets", str(it // 8)]) for it in SIZES},
    }


def given_of(made, kind, size):
    """The input of a kind that has this size."""
    if kind is None:
        return b""
    of_kind = made[kind]
    return of_kind[size] if isinstance(of_kind, dict) else b"".join(of_kind[: size + 1])


def seconds(words, given):
    """The processor time of a run."""
    before = resource.getrusage(resource.RUSAGE_CHILDREN)
    subprocess.run(words, input=given, stdout=subprocess.DEVNULL, check=True)
    after = resource.getrusage(resource.RUSAGE_CHILDREN)
    return after.ru_utime + after.ru_stime - before.ru_utime - before.ru_stime


def row(made, program, command, kind, runs):
    """The cells of a command."""
    sizes = {"schedule": EVENTS, None: EVENTS, "shown": SHOWN}.get(kind, SIZES)
    took = []
    for size in sizes:
        words = [program, *command.replace("SIZE", str(size)).split()]
        given = given_of(made, kind, size)
        took.append(min(seconds(words, given) for _ in range(runs)))
    slope = math.log(took[-1] / took[-2]) / math.log(sizes[-1] / sizes[-2])
    name = " ".join(it for it in command.split() if not it.isdigit() and it != "SIZE")
    missing = [""] * (len(SIZES) - len(sizes))
    return [f"`{name}`", *(f"{it:.3f}" for it in took), *missing, f"{slope:.2f}"]


def small(nodes, count):
    """A script in which each node stores to its line and loads from the next one, this many times."""
    rows = [f"machine {nodes} {nodes} 1\n"]
    for number in range(count):
        for node in range(nodes):
            rows.append(f"p {node} store {node} 0 {number + 1}\np {node} load {(node + 1) % nodes} 0\n")
    return "".join(rows).encode()


def seconds_of_all(nodes, count):
    """What `allowed` takes for such a script, or why it gives no answer."""
    given = small(nodes, count)
    if subprocess.run([SCIVIEW, "allowed"], input=given, capture_output=True).returncode != 0:
        return "refused"
    return f"{min(seconds([SCIVIEW, 'allowed'], given) for _ in range(3)):.3f}"


def moved(nodes):
    """Packets and words an operation, of 1,000 operations a node."""
    head, *lines = output([INPUTS, "workload", "mixed", str(nodes)]).splitlines(True)
    kept, script = [0] * nodes, [head]
    for line in lines:
        node = int(line.split()[1])
        if kept[node] < 1000:
            kept[node] += 1
            script.append(line)
    figures = output([SCIVIEW, "stats"], output([SCIVIEW, "run"], b"".join(script))).decode()
    figure = lambda name: int(re.search(rf"^{name} (\d+)$", figures, re.M).group(1))
    count = sum(kept)
    return [str(nodes), f"{figure('packets.sent') / count:.2f}", f"{figure('packets.bytes') / 8 / count:.1f}", f"{figure('events.enabled') / count:.2f}"]


def tell(cells):
    print("| " + " | ".join(cells) + " |", flush=True)


def main(words):
    runs, made = int(words[0]) if words else 5, inputs()
    tell(["seconds", *(f"{it:,}" for it in SIZES[:-1]), f"{SIZES[-1]:,}, or {EVENTS[-1]:,} events", "slope"])
    tell(["---"] * (len(SIZES) + 2))
    for program, command, kind in COMMANDS:
        tell(row(made, program, command, kind, runs))
    print()
    tell(["seconds of `allowed`", *(f"{2 * it} operations a node" for it in FEW)])
    tell(["---"] * (len(FEW) + 1))
    for nodes in (2, 3, 4):
        tell([f"{nodes} nodes", *(seconds_of_all(nodes, it) for it in FEW)])
    print()
    tell(["nodes", "packets an operation", "words an operation", "events an operation"])
    tell(["---"] * 4)
    for nodes in NODES:
        tell(moved(nodes))


main(sys.argv[1:])
