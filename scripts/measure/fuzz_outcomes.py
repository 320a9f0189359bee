#!/usr/bin/env python3
"""Gives `sciview allowed` and `sciview outcomes --all` small scripts, made at random from a seed, and compares what they write
with a search that tries all orders. Each script ends in a condition, made at random, too.

    scripts/measure/fuzz_outcomes.py [SECONDS [SEED [SCIVIEW [SCIMEM]]]]        60 seconds and seed 1, if it isn't said

Of each script: the rows of `allowed`, in and out of program order, their tags, their order and the verdict; the outcome of the
schedule that `--show` writes for one of them, as `scimem replay` logs it; and that `outcomes --all` lists the same outcomes, with
counts that make up all runs. The last line is 'N passed, M failed', of scripts.
"""

import os
import random
import re
import subprocess
import sys
import time
from concurrent.futures import ThreadPoolExecutor

TOP = os.path.dirname(os.path.dirname(os.path.dirname(os.path.abspath(__file__))))
SCIVIEW, SCIMEM = (f"{TOP}/crates/{it}/out/{it}" for it in ("sciview", "scimem"))
# How many scripts are made before the clock is read again, and how many runs are drawn of each.
BATCH, RUNS = 40, 60
# How many operations of a node may wait.
AHEAD, IN_ORDER = 4, 1
MASK = 2**64 - 1

ROW = re.compile(r"((?:\d+:\d+=\d+ )*)\|((?: \d+\.\d+=\d+)*): (in program order|reordered)\Z")
COUNTED = re.compile(r"((?:\d+:\d+=\d+ )*)\|((?: \d+\.\d+=\d+)*): count (\d+)(?: seed \d+)? (in program order|reordered)\Z")
WORDS = re.compile(r"\d+")


class Operation:
    """What a node does to a word: an act, and its operands."""

    def __init__(self, act, line, word, operands):
        self.act, self.line, self.word, self.operands = act, line, word, operands

    def text(self):
        return " ".join([self.act, str(self.line), str(self.word), *map(str, self.operands)])

    def effect(self, old):
        """The word afterwards, and the reply, None for a store."""
        if self.act == "load":
            return old, old
        if self.act == "store":
            return self.operands[0], None
        if self.act == "fetch-add":
            return (old + self.operands[0]) & MASK, old
        bound, datum = self.operands
        if self.act == "compare-swap":
            return (datum if old == bound else old), old
        if self.act == "mask-swap":
            return old & ~bound & MASK | datum & bound, old
        if self.act == "bounded-add":
            return (old if old == bound else (old + datum) & MASK), old
        return (datum if old == bound else (old + datum) & MASK), old


def operation(draw, lines):
    act = draw.choice(["load", "load", "load", "store", "store", "store", "fetch-add", "compare-swap", "mask-swap", "bounded-add", "wrap-add"])
    count = {"load": 0, "store": 1, "fetch-add": 1}.get(act, 2)
    return Operation(act, draw.randrange(lines), draw.choice([0, 0, 0, 7]), [draw.randrange(4) for _ in range(count)])


class Script:
    """A machine, and each node's operations."""

    def __init__(self, draw):
        self.lines, self.slots = draw.randint(1, 3), draw.randint(1, 2)
        nodes = draw.randint(2, 3)
        self.nodes = [[operation(draw, self.lines) for _ in range(draw.randint(0, 4 if nodes == 2 else 3))] for _ in range(nodes)]
        self.places = sorted({(op.line, op.word) for own in self.nodes for op in own if op.act != "load"})

    def text(self):
        head = [f"machine {len(self.nodes)} {self.lines} {self.slots}"]
        left, rest = [0] * len(self.nodes), []
        while any(at < len(own) for at, own in zip(left, self.nodes)):
            for node, own in enumerate(self.nodes):
                if left[node] < len(own):
                    rest.append(f"p {node} {own[left[node]].text()}")
                    left[node] += 1
        return "".join(f"{it}\n" for it in head + rest)

    def outcomes(self, window):
        """All outcomes of its runs: what was replied, as (node, serial, word), and what the words hold, as (line, word, value)."""
        found, seen = set(), set()
        new = [(tuple(() for _ in self.nodes), tuple(0 for _ in self.places))]
        index = {place: i for i, place in enumerate(self.places)}
        while new:
            answers, words = new.pop()
            ended = True
            for node, own in enumerate(self.nodes):
                mine = answers[node]
                waiting = [i for i, it in enumerate(mine) if it == "waits"]
                ended = ended and len(mine) == len(own) and not waiting
                steps = [(i, own[i]) for i in waiting]
                if len(mine) < len(own) and len(waiting) < window and all(own[i].line != own[len(mine)].line for i in waiting):
                    steps.append((len(mine), None))
                for i, op in steps:
                    after, held = list(mine), words
                    if op is None:
                        after.append("waits")
                    else:
                        place = index.get((op.line, op.word))
                        word, after[i] = op.effect(0 if place is None else words[place])
                        if place is not None:
                            held = words[:place] + (word,) + words[place + 1 :]
                    state = answers[:node] + (tuple(after),) + answers[node + 1 :], held
                    if state not in seen:
                        seen.add(state)
                        new.append(state)
            if ended:
                replies = tuple((n, i, it) for n, mine in enumerate(answers) for i, it in enumerate(mine) if it is not None)
                found.add((replies, tuple((*place, value) for place, value in zip(self.places, words))))
        return found

    def terms(self):
        """What a condition may name: the reply of an operation, or a word at the end."""
        replies = [(n, i) for n, own in enumerate(self.nodes) for i, op in enumerate(own) if op.act != "store"]
        return [("reply", *it) for it in replies] + [("word", *it) for it in self.places]


def condition(draw, terms, least=0, depth=3):
    """A condition that binds so strongly at least, as text and as a test of an outcome."""
    kind = draw.choice(["or", "and", "not", "group", "term", "term"] if depth else ["term"])
    if kind == "or" and least == 0:
        (left, one), (right, two) = condition(draw, terms, 1, depth - 1), condition(draw, terms, 0, depth - 1)
        return f"{left} or {right}", lambda it: one(it) or two(it)
    if kind == "and" and least <= 1:
        (left, one), (right, two) = condition(draw, terms, 2, depth - 1), condition(draw, terms, 1, depth - 1)
        return f"{left} and {right}", lambda it: one(it) and two(it)
    if kind == "not":
        text, test = condition(draw, terms, 2, depth - 1)
        return f"not {text}", lambda it: not test(it)
    if kind == "group":
        text, test = condition(draw, terms, 0, depth - 1)
        return f"({text})", test
    (what, a, b), value = draw.choice(terms), draw.randrange(4)
    part = 0 if what == "reply" else 1
    return f"{a}{':' if part == 0 else '.'}{b}={value}", lambda it: (a, b, value) in it[part]


def numbers(text, size):
    found = [int(it) for it in WORDS.findall(text)]
    return tuple(tuple(found[i : i + size]) for i in range(0, len(found), size))


def outcome(row):
    return numbers(row[1], 3), numbers(row[2], 3)


def logged(script, log):
    """The outcome that a log has."""
    replies, last = [], {}
    for line in log.splitlines()[1:]:
        words = line.split()
        if words[0] == "last":
            last[int(words[1])] = [int(it) for it in words[3:]]
        elif words[words.index("=") + 1] != "-":
            replies.append((int(words[0]), int(words[1]), int(words[words.index("=") + 1])))
    return tuple(sorted(replies)), tuple((line, word, last[line][word] if line in last else 0) for line, word in script.places)


def output(words, given):
    ran = subprocess.run(words, input=given.encode(), stdout=subprocess.PIPE, stderr=subprocess.PIPE, timeout=60)
    return ran.stdout.decode(), ran.returncode


def verdict(quantifier, test, outcomes):
    some = any(test(it) for it in outcomes)
    return {"exists": some, "forall": all(test(it) for it in outcomes), "never": not some}[quantifier]


def faults(programs, seed):
    """What is wrong with the answers to the script of a seed."""
    sciview, scimem = programs
    draw = random.Random(seed)
    script = Script(draw)
    plain, terms = script.text(), script.terms()
    given, said = plain, None
    if terms:
        quantifier = draw.choice(["exists", "forall", "never"])
        text, test = condition(draw, terms)
        given, said = f"{plain}{quantifier} {text}\n", (quantifier, test)
    ahead, in_order = script.outcomes(AHEAD), script.outcomes(IN_ORDER)
    for words, wanted in (["--in-order"], in_order), ([], ahead):
        lines = output([sciview, "allowed", *words], given)
        rows = [ROW.match(it) for it in lines[0].splitlines()[: len(wanted)]]
        right = [None not in rows and [outcome(it) for it in rows] == sorted(wanted)]
        if right[0]:
            right.append(all((it[3] == "in program order") == (outcome(it) in in_order) for it in rows))
        true = said is None or verdict(*said, wanted)
        end = [f"outcomes {len(wanted)}"] + ([] if said is None else ["Yes" if true else "No"])
        if not all(right) or lines[0].splitlines()[len(wanted) :] != end or lines[1] != (0 if true else 1):
            return f"allowed {' '.join(words)}", given
    number = draw.randint(1, len(ahead))
    schedule = output([sciview, "allowed", "--show", str(number)], given)[0]
    if logged(script, output([scimem, "replay"], schedule)[0]) != sorted(ahead)[number - 1]:
        return f"allowed --show {number}", given
    text, status = output([sciview, "outcomes", "--all", "--runs", str(RUNS), "--seed", str(draw.randrange(1000))], given)
    rows = [COUNTED.match(it) for it in text.splitlines()[: len(ahead)]]
    if None in rows or sorted(map(outcome, rows)) != sorted(ahead) or sum(int(it[3]) for it in rows) != RUNS:
        return "outcomes --all", given
    true = said is None or verdict(*said, ahead)
    end = [f"outcomes {len(ahead)} seen {sum(it[3] != '0' for it in rows)} runs {RUNS}"] + ([] if said is None else ["Yes" if true else "No"])
    if text.splitlines()[len(ahead) :] != end or status != (0 if true else 1):
        return "outcomes --all, its end", given
    return None


def main(seconds=60.0, seed=1, *programs):
    programs = (*programs, *(SCIVIEW, SCIMEM)[len(programs) :])
    start, passed, failed = time.monotonic(), 0, 0
    with ThreadPoolExecutor(len(os.sched_getaffinity(0))) as pool:
        while time.monotonic() - start < seconds:
            first = seed * 10**9 + passed + failed
            for fault in pool.map(lambda it: faults(programs, it), range(first, first + BATCH)):
                passed, failed = passed + (fault is None), failed + (fault is not None)
                if fault is not None and failed <= 3:
                    print(f"{fault[0]}:\n{fault[1]}", flush=True)
    print(f"{passed} passed, {failed} failed")
    return 1 if failed else 0


if __name__ == "__main__":
    sys.exit(main(*(kind(it) for kind, it in zip((float, int, str, str), sys.argv[1:]))))
