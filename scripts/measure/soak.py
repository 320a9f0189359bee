#!/usr/bin/env python3
"""Runs seeded scripts of every shape through `scimem threads` and `sciview run`, for a number of seconds:

    scripts/measure/soak.py [SECONDS [SEED]]        60 seconds and seed 1, if it isn't said

Each log is audited twice: by `scimem audit`, and by a reader written anew (plain_answers.py), which works out each reply.
Each entry has to be of the operation of the script that its serial names, and each operation has to have one. A run in
turns that are drawn from a seed is replayed, and its log is judged in the same way and by `sciview order`; `sciview
outcomes` has to find what that log's loads and locks replied. Beside each script a schedule is drawn from all enabled events
(`sciview random`), and its log judged. It prints a line every five seconds, and at the end which pairs of a state and what it
met these schedules and those of examples/ never came to (`sciview stats --transitions`), and `N runs, M operations, F failed`.
Pairs that docs/COMMANDS.md says no run comes to are left out, and it is a failure if one came. A script that failed stays in a
file, which the line of the failure names."""

import glob
import json
import os
import random
import subprocess
import sys
import tempfile
import time
from collections import Counter

TOP = os.path.dirname(os.path.dirname(os.path.dirname(os.path.abspath(__file__))))
sys.path.append(f"{TOP}/scripts/gate")

from protocol_pairs import pairs_that_never_come  # noqa: E402
from thread_logs import wrong_log  # noqa: E402

SCIMEM, SCIVIEW = (f"{TOP}/crates/{it}/out/{it}" for it in ("scimem", "sciview"))
MAKERS = ("store {} {} {a}", "fetch-add {} {} {a}", "mask-swap {} {} {a} {d}", "compare-swap {} {} {a} {d}")
MAKERS += ("bounded-add {} {} {a} {d}", "wrap-add {} {} {a} {d}")


def operation(chance, line, loads):
    """An operation on any word of a line, of which this many in a hundred are loads."""
    word = chance.randrange(8)
    if chance.randrange(100) < loads:
        return f"load {line} {word}"
    a, d = (chance.choice((0, 1, chance.randrange(2**64))) for _ in range(2))
    return chance.choice(MAKERS).format(line, word, a=a, d=d)


def own_line(chance, node, lines):
    return operation(chance, node % lines, 50)


def any_line(chance, node, lines):
    return operation(chance, chance.randrange(lines), 50)


def mostly_own(chance, node, lines):
    return operation(chance, node % lines if chance.randrange(20) else chance.randrange(lines), 50)


def mostly_loads(chance, node, lines):
    return operation(chance, chance.randrange(lines), 95)


def few_lines(chance, node, lines):
    return operation(chance, chance.randrange(min(lines, 3)), 40)


def one_word(chance, node, lines):
    return "fetch-add 0 0 1"


def loads_and_leaves(chance, node, lines):
    """Loads of few lines and now and then a store: with few slots, entries leave long lists from anywhere."""
    return operation(chance, chance.randrange(min(lines, 5)), 90)


# Nodes and lines of small machines, in which a request that is late and a state that is short meet most often.
SMALL = ((3, 1), (3, 2), (4, 1))
SHAPES = (own_line, any_line, mostly_own, mostly_loads, few_lines, one_word, loads_and_leaves)


def script(chance):
    """A script of one shape, on a machine of any size; now and then one node has all operations."""
    nodes, lines, slots = chance.randint(1, 16), chance.choice((1, 2, 5, 64)), chance.randint(1, 8)
    shape, count = chance.choice(SHAPES), chance.choice((0, 1, 20, 200, 2000)) // nodes + chance.randrange(3)
    busy = [chance.randrange(nodes)] if chance.randrange(10) == 0 else range(nodes)
    rows = [f"p {node} {shape(chance, node, lines)}" for _ in range(count) for node in busy]
    return "\n".join([f"machine {nodes} {lines} {slots}", *rows, ""]).encode()


def ran(program, words, given):
    done = subprocess.run([program, *words], input=given, capture_output=True, timeout=600)
    return done.returncode, done.stdout


def judged(given, log):
    """What is wrong with a log of a run of the script, if something is."""
    if ran(SCIMEM, ["audit"], log) != (0, b"lawful\n"):
        return "a log that `audit` refuses"
    return wrong_log(given, log)


def threads_fault(given):
    """What was wrong with a run of the script by threads, if something was."""
    status, log = ran(SCIMEM, ["threads"], given)
    return f"threads: status {status}" if status else judged(given, log)


def replies(log):
    """What the loads and locks of a log replied, as `sciview outcomes` writes it."""
    rows = (row.split() for row in log.decode().splitlines()[1:] if not row.startswith("last "))
    found = sorted((int(row[0]), int(row[1]), row[-2]) for row in rows if row[-2] != "-")
    return " ".join(f"{node}:{serial}={word}" for node, serial, word in found)


def add_pairs(pairs, schedule):
    """Adds how often each pair of a state and what it met came in a schedule."""
    _status, text = ran(SCIVIEW, ["stats", "--transitions", "--json"], schedule)
    for pair in json.loads(text)["pairs"]:
        pairs[".".join(pair[it] for it in ("place", "state", "met", "what"))] += pair["count"]


def add_examples(pairs):
    """Adds those of the schedules of examples/, some of which go where runs hardly ever come."""
    for path in sorted(glob.glob(f"{TOP}/examples/*.schedule")):
        with open(path, "rb") as file:
            add_pairs(pairs, file.read())


def tell_pairs(pairs):
    """Prints which pairs never came, and answers how many came that can't."""
    said = set(pairs_that_never_come())
    never = [it for it, count in pairs.items() if count == 0 and it not in said]
    wrong = [it for it in pairs if pairs[it] and it in said]
    print(f"pairs that can come, and never came, of {len(pairs) - len(said)}: {', '.join(never) or 'none'}")
    if wrong:
        print(f"pairs that came, though docs/COMMANDS.md says that none of them can: {', '.join(wrong)}")
    return len(wrong)


def drawn_fault(given, seed, in_order, pairs):
    """What was wrong with a run of the script in turns that are drawn from a seed, if something was."""
    words = ["--seed", str(seed), *(["--in-order"] if in_order else [])]
    status, schedule = ran(SCIVIEW, ["run", *words], given)
    if status != 0:
        return f"run: status {status}"
    add_pairs(pairs, schedule)
    status, log = ran(SCIMEM, ["replay"], schedule)
    if status != 0:
        return f"replay: status {status}"
    order = ["order", *(["--by-serial"] if in_order else [])]
    status, _answer = ran(SCIVIEW, order, log)
    if status != 0:
        return "a run that isn't sequentially consistent, or not in order"
    status, outcomes = ran(SCIVIEW, ["outcomes", "--runs", "1", *words], given)
    if status != 0 or outcomes.decode().split("|")[0].strip() != replies(log):
        return "another outcome than the log's"
    return judged(given, log)


def walk_fault(chance, pairs):
    """What was wrong with a schedule that is drawn from all enabled events, if something was. It goes where no policy does."""
    nodes, lines = chance.choice((*SMALL, (chance.randint(2, 8), chance.randint(1, 3))))
    words = [nodes, lines, chance.randint(1, 2), 50000, chance.randrange(2**64)]
    status, schedule = ran(SCIVIEW, ["random", *map(str, words)], b"")
    if status != 0:
        return f"random: status {status}"
    add_pairs(pairs, schedule)
    _status, log = ran(SCIMEM, ["replay"], schedule)
    if ran(SCIMEM, ["audit"], log) != (0, b"lawful\n") or ran(SCIVIEW, ["order"], log)[0] != 0:
        return f"random {words}: a log that isn't lawful, or has no order"
    return None


def fault(given, seed, pairs):
    """What was wrong with the runs of a script, if something was."""
    return threads_fault(given) or drawn_fault(given, seed, False, pairs) or drawn_fault(given, seed, True, pairs)


def main(words):
    seconds, seed = (int(word) for word in (words + ["60", "1"][len(words):]))
    begun = told = time.monotonic()
    runs = operations = failed = 0
    pairs = Counter()
    add_examples(pairs)
    while time.monotonic() - begun < seconds:
        chance = random.Random(f"{seed} {runs}")
        given = script(chance)
        why = fault(given, runs, pairs) or walk_fault(chance, pairs)
        runs, operations = runs + 4, operations + 3 * given.count(b"\np ")
        if why:
            failed += 1
            with tempfile.NamedTemporaryFile(suffix=".script", delete=False) as file:
                file.write(given)
            print(f"run {runs}: {why}: {file.name}", flush=True)
        if time.monotonic() - told >= 5:
            told = time.monotonic()
            print(f"{told - begun:.0f} s: {runs:,} runs, {operations:,} operations, {failed} failed", flush=True)
    failed += tell_pairs(pairs)
    print(f"{runs} runs, {operations} operations, {failed} failed")
    return 1 if failed or not runs else 0


sys.exit(main(sys.argv[1:]))
