#!/usr/bin/env python3
"""Prints the least stack, in KB, with which each command still does its work, in steps of 4 (RLIMIT_STACK):

    scripts/measure/stack.py [TRIES]    a size is enough if TRIES runs in a row end well: 20 without the number

The input is of 16 nodes: a script, a schedule and a log of 4,800 operations, events and entries, and 2,400 packets. Threads
get the same limit as the first one, since the C library takes it for their stacks. It needs the built programs."""

import os
import resource
import subprocess
import sys

TOP = os.path.dirname(os.path.dirname(os.path.dirname(os.path.abspath(__file__))))
SCIMEM, SCIVIEW = (f"{TOP}/crates/{it}/out/{it}" for it in ("scimem", "sciview"))
# The commands, with their words, and which of the inputs each reads.
COMMANDS = [
    (SCIMEM, "oracle", "script"),
    (SCIMEM, "replay", "schedule"),
    (SCIMEM, "threads", "script"),
    (SCIMEM, "audit", "log"),
    (SCIMEM, "upgrade", "log"),
    (SCIMEM, "decode", "packets"),
    (SCIVIEW, "order", "log"),
    (SCIVIEW, "order --by-serial --show", "log"),
    (SCIVIEW, "explain", "log"),
    (SCIVIEW, "check", "log"),
    (SCIVIEW, "packets", "schedule"),
    (SCIVIEW, "trace", "schedule"),
    (SCIVIEW, "trace --json", "schedule"),
    (SCIVIEW, "lists", "schedule"),
    (SCIVIEW, "stats", "schedule"),
    (SCIVIEW, "chart", "schedule"),
    (SCIVIEW, "random 16 64 8 4800 1", None),
    (SCIVIEW, "run", "script"),
    (SCIVIEW, "outcomes --runs 2", "script"),
    (SCIVIEW, "outcomes --runs 2 --threads", "script"),
]


def inputs():
    """The inputs by their names."""
    made = lambda *words: subprocess.run([f"{TOP}/scripts/make/inputs.py", *words], stdout=subprocess.PIPE, check=True).stdout
    script, schedule = made("script", "300"), made("schedule")
    log = subprocess.run([SCIMEM, "oracle"], input=script, stdout=subprocess.PIPE, check=True).stdout
    return {"script": script, "schedule": b"".join(schedule.splitlines(True)[:4801]), "log": log, "packets": made("packets", "300"), None: b""}


def ends_well(program, words, given, size):
    """Whether a run with this many KB of stack isn't ended by a signal."""
    limit = lambda: resource.setrlimit(resource.RLIMIT_STACK, (size * 1024, size * 1024))
    try:
        ran = subprocess.run([program, *words.split()], input=given, stdout=subprocess.DEVNULL, stderr=subprocess.DEVNULL, preexec_fn=limit, env={})
    except OSError:
        return False
    return ran.returncode >= 0


def main():
    tries, given = int((sys.argv[1:] or ["20"])[0]), inputs()
    for program, words, name in COMMANDS:
        size = 4
        while not all(ends_well(program, words, given[name], size) for _ in range(tries)):
            size += 4
        print(f"{os.path.basename(program)} {words}: {size}", flush=True)


main()
