#!/usr/bin/env python3
"""Prints how many instructions scimem and the plain program of bench/ take for an operation, an entry, an event or a packet:

    scripts/measure/instructions.py

valgrind counts them, so another machine with the same programs counts the same. For a command it prints how many more
instructions an input of 2 N operations takes than one of N, divided by N; for stations in one thread, how many more two runs
take than one, divided by the operations. It needs the built programs, and valgrind."""

import re
import subprocess

from programs import CIRCLE, INPUTS, PLAIN, SCIMEM, WORKLOADS, output

SIZE = 65_536
COUNTER = ["valgrind", "--tool=callgrind", "--callgrind-out-file=/dev/null"]


def instructions(words, given):
    """How many instructions a run takes."""
    done = subprocess.run([*COUNTER, *words], input=given, stdout=subprocess.DEVNULL, stderr=subprocess.PIPE)
    return int(re.search(rb"Collected : (\d+)", done.stderr).group(1))


def inputs():
    """For each command an input of SIZE operations, and one of twice as many."""
    script = output([INPUTS, "script", str(2 * SIZE // 16)]).splitlines(True)
    events = output([INPUTS, "schedule"]).splitlines(True)
    first = lambda lines: [b"".join(lines[: count + 1]) for count in (SIZE, 2 * SIZE)]
    logs = [output([SCIMEM, "oracle"], it) for it in first(script)]
    packets = [output([INPUTS, "packets", str(it // 8)]) for it in (SIZE, 2 * SIZE)]
    return {"oracle": first(script), "replay": first(events), "audit": logs, "upgrade": logs, "decode": packets}


def tell(name, ours, plain):
    print(f"| {name} | {ours:,.0f} | {plain:,.0f} | {ours / plain:.2f} |", flush=True)


def main():
    print("| instructions | scimem | plain | quotient |\n|" + "---|" * 4, flush=True)
    for command, given in inputs().items():
        one, two = ([instructions([program, command], it) for program in (SCIMEM, PLAIN)] for it in given)
        tell(command, *((more - less) / SIZE for more, less in zip(two, one)))
    for nodes in (4, 16):
        for kind in WORKLOADS:
            script = output([INPUTS, "workload", kind, str(nodes)])
            count = script.count(b"\n") - 1
            runs = lambda times: ([CIRCLE, times, "timed"], [PLAIN, "circle", times])
            one, two = ([instructions(words, script) for words in runs(times)] for times in ("1", "2"))
            tell(f"circle, {kind}, N = {nodes}", *((more - less) / count for more, less in zip(two, one)))


main()
