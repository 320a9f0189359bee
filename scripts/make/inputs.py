#!/usr/bin/env python3
"""Writes inputs for the programs:

    scripts/make/inputs.py script [COUNT [LINES]]     a script of 16 nodes, with 65,536 operations each over 64 lines
    scripts/make/inputs.py schedule [idle]            500,000 events of 16 nodes and 64 lines, all enabled, or none of them
    scripts/make/inputs.py packets [TIMES]            390,167 times five packets without contents and three with them
    scripts/make/inputs.py workload KIND NODES        a script of 20,000 operations a node (hammer 2,000) on 64 lines, 8 slots

The same words give the same input. The kinds of workload are

    private      half loads and half fetch-adds, on the line of the node's own number
    spread       the same, but 5 in 100 on any line
    mixed        90 in 100 loads, any line and word
    reads        99 in 100 loads, any line and word
    migratory    a load and then a fetch-add of one word, on one of 4 lines
    hammer       a fetch-add of one word, the same for all
"""

import random
import struct
import sys

NODES, LINES, SLOTS, EVENTS = 16, 64, 8, 500_000
SHORT = [(0x0001, False), (0x0102, True), (0x0002, False), (0x0104, True), (0x0109, False)]
LONG = [(0x0101, False), (0x0005, False), (0x010A, True)]


def numbers():
    """A generator of numbers of 64 bits, the same each time."""
    state = 1
    while True:
        state = (state * 6364136223846793005 + 1442695040888963407) % 2**64
        yield state


def script(count=65_536, lines=LINES):
    drawn = numbers()
    yield f"machine {NODES} {lines} {SLOTS}\n"
    for _ in range(count):
        for node in range(NODES):
            state = next(drawn)
            place, value = f"{(state >> 58) % lines} {(state >> 55) & 7}", (state >> 20) & 0xFFFFFF
            ends = (f"load {place}", f"store {place} {value}", f"fetch-add {place} {value}", f"compare-swap {place} {value} {value + 1}")
            yield f"p {node} {ends[(state >> 50) & 3]}\n"


def shared(turn):
    """The events of one line's life, from HOME back to HOME: a node writes it, another joins its list, reads, purges it and
    writes the line back."""
    line = turn % LINES
    home, first = line % NODES, turn % NODES
    second = (first + 1 + turn // LINES % (NODES - 1)) % NODES
    asks = lambda node, to, kind: (f"ask {node} {line} {kind}", f"serve {node} {to}", f"reply {to}", f"accept {to} {node}")
    yield f"issue {first} store {line} {turn % 8} {turn}"
    yield from asks(first, home, "mread")
    yield f"perform {first} {line}"
    yield f"issue {second} load {line} {turn % 8}"
    yield from asks(second, home, "mread")
    yield from asks(second, first, "cread")
    yield f"perform {second} {line}"
    yield from asks(second, first, "purge")
    yield from asks(second, home, "wback")


def idle(turn):
    """Events that no new machine enables."""
    node, other, line = turn % NODES, turn // NODES % NODES, turn % LINES
    yield from (f"perform {node} {line}", f"ask {node} {line} cread", f"serve {other} {node}")
    yield from (f"refuse {other} {node}", f"reply {node}", f"accept {other} {node}")


def schedule(events):
    text, turn = [f"machine {NODES} {LINES} {SLOTS}"], 0
    while len(text) <= EVENTS:
        text.extend(events(turn))
        turn += 1
    yield "\n".join(text[: EVENTS + 1]) + "\n"


def packets(times=390_167):
    drawn = numbers()

    def packet(command, names_node, has_contents):
        state = next(drawn)
        target, source, line = state >> 60, (state >> 56) & 15, (state >> 50) & 63
        identifier = (state >> 46) & 15 if names_node else 0xFFFF
        front = struct.pack(">HHHHQ", target, command, source, (state >> 30) & 0xFF, line * 64 << 16 | identifier)
        words = (((state >> 8) * (n + 1)) >> 24 & 0xFFFFFFFF for n in range(8))
        return front + struct.pack(">9Q", state >> 40, *words) if has_contents else front

    for _ in range(times):
        yield b"".join([packet(*it, False) for it in SHORT] + [packet(*it, True) for it in LONG])


def operations(chance, kind, node, count):
    """This many operations of a node, of a kind of workload."""
    while count > 0:
        count -= 1
        word = chance.randrange(8)
        if kind == "hammer":
            yield "fetch-add 0 0 1"
        elif kind in ("private", "spread"):
            strays = kind == "spread" and chance.randrange(100) >= 95
            line = chance.randrange(LINES) if strays else node
            yield f"load {line} {word}" if chance.randrange(2) else f"fetch-add {line} {word} 1"
        elif kind in ("mixed", "reads"):
            line, loads = chance.randrange(LINES), 90 if kind == "mixed" else 99
            yield f"load {line} {word}" if chance.randrange(100) < loads else f"fetch-add {line} {word} 1"
        elif kind == "migratory":
            line = chance.randrange(4)
            count -= 1
            yield f"load {line} {word}"
            yield f"fetch-add {line} {word} 1"
        else:
            sys.exit(__doc__)


def workload(kind, nodes):
    count = 2_000 if kind == "hammer" else 20_000
    each = [operations(random.Random(f"{kind} {node}"), kind, node, count) for node in range(nodes)]
    yield f"machine {nodes} {LINES} {SLOTS}\n"
    for row in zip(*each):
        yield "".join(f"p {node} {operation}\n" for node, operation in enumerate(row))


def made(words):
    """The parts of the input that these words ask for."""
    if words[:1] == ["script"] and len(words) < 4:
        return script(*map(int, words[1:]))
    if words in (["schedule"], ["schedule", "idle"]):
        return schedule(idle if words[1:] else shared)
    if words[:1] == ["packets"] and len(words) < 3:
        return packets(*map(int, words[1:]))
    if words[:1] == ["workload"] and len(words) == 3:
        return workload(words[1], int(words[2]))
    sys.exit(__doc__)


def main():
    for part in made(sys.argv[1:]):
        sys.stdout.buffer.write(part if isinstance(part, bytes) else part.encode())


main()
