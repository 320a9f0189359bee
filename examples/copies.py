#!/usr/bin/env python3
"""Reads what `sciview trace --json` writes, and prints how many caches hold a copy of a line of memory, behind each event
that changes it: the number of the event's line in the schedule, the line of memory, and the number of copies."""

import json
import sys

copies = {}
for text in sys.stdin:
    event = json.loads(text)
    if "cache_after" not in event:
        continue
    line = event["line"] if "line" in event else event["taken"]["line"]
    nodes = copies.setdefault(line, set())
    count = len(nodes)
    # A state with contents has their version.
    if "version" in event["cache_after"]:
        nodes.add(event["node"])
    else:
        nodes.discard(event["node"])
    if len(nodes) != count:
        print(event["number"], "line", line, "copies", len(nodes))
