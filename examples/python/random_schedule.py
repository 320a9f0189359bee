#!/usr/bin/env python3
"""Drives a machine by random events, and audits what it did."""

import random

from lichenknit import Act, AskKind, Event, EventKind, Machine, Op


def random_event(draw, nodes, lines):
    """An event, which may not be enabled."""
    op = Op(draw.choice(list(Act)), draw.randrange(lines), draw.randrange(8), draw.getrandbits(2), draw.getrandbits(2))
    return Event(draw.choice(list(EventKind)), draw.randrange(nodes), draw.randrange(nodes), op.line, draw.choice(list(AskKind)), op)


def main():
    draw = random.Random(1)
    with Machine(nodes=3, lines=2, slots=2, limit=1000) as machine:
        made = sum(machine.try_step(random_event(draw, 3, 2)) for _ in range(20000))
        settled = machine.settle()
        logs = machine.logs()
        print(f"{made} events were enabled, and {settled} more brought the machine to rest")
        print(f"{len(logs)} operations: {logs.audit()}")


if __name__ == "__main__":
    main()
