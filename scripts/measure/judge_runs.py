#!/usr/bin/env python3
"""Takes the versions out of the logs of this machine's own runs, and gives them to `sciview judge` as traces.

    scripts/measure/judge_runs.py [RUNS [SEED]]        1,000 runs and seed 1, if it isn't said

The scripts are drawn from the seed, and write each word once. They are run by `oracle`, by threads, and by the policy in turns
that are drawn, in program order or ahead. Each trace has to be coherent, and sequentially consistent: its text stands in the order
of the logs, by which each run is. Then what one load or atomic found is replaced, and the answer has to be that of a judge that tries
all orders (fuzz_traces.py), at the addresses with at most nine operations. The last line is 'N passed, M failed', of traces."""

import os
import random
import subprocess
import sys
from collections import Counter

from fuzz_traces import FOREVER, Access, is_coherent

TOP = os.path.dirname(os.path.dirname(os.path.dirname(os.path.abspath(__file__))))
SCIMEM, SCIVIEW = (f"{TOP}/crates/{name}/out/{name}" for name in ("scimem", "sciview"))
ONES = 2**64 - 1
# How many operations at an address a judge can try in all orders.
FEW = 9


def ran(program, words, given):
    """The status of a program and its output, for some input."""
    done = subprocess.run([program, *words], input=given, stdout=subprocess.PIPE, timeout=60, check=False)
    return done.returncode, done.stdout


def script(chance):
    """A script that writes each word once."""
    nodes, lines, slots = chance.randint(1, 4), chance.randint(1, 3), chance.randint(1, 2)
    rows = [f"machine {nodes} {lines} {slots}"]
    for number in range(chance.randint(1, 24)):
        where = f"{chance.randrange(lines)} {chance.randrange(2)}"
        what = (f"load {where}", f"store {where} {number + 1}", f"mask-swap {where} {ONES} {number + 1}")
        rows.append(f"p {chance.randrange(nodes)} {chance.choice(what)}")
    return "".join(f"{row}\n" for row in rows).encode()


def log_of(given, kind, seed):
    """The log of a run of a script."""
    if kind in ("oracle", "threads"):
        return ran(SCIMEM, [kind], given)
    words = ["run", "--seed", str(seed), *(["--in-order"] if kind == "in order" else [])]
    status, schedule = ran(SCIVIEW, words, given)
    return ran(SCIMEM, ["replay"], schedule) if status == 0 else (status, b"")


def accesses_of(log):
    """The operations of a log without their versions, in the order of its text."""
    accesses = []
    for row in log.decode().splitlines():
        if " = " not in row:
            continue
        (node, _, name, line, word, *operands), (reply, _) = (part.split(" ") for part in row.split(" = "))
        read = None if reply == "-" else int(reply)
        wrote = None if name == "load" else int(operands[-1])
        accesses.append(Access(int(node), int(line) * 8 + int(word), read, wrote, 0, FOREVER))
    return accesses


def judged(accesses):
    """The lines that the judge writes of operations."""
    given = "".join(f"{it.text()}\n" for it in accesses).encode()
    return ran(SCIVIEW, ["judge", "--order"], given)[1].decode().split("\n")


def with_fault(chance, accesses):
    """The operations with another word found by one of them, or None if none finds a word."""
    places = [place for place, it in enumerate(accesses) if it.read is not None]
    if not places:
        return None
    place = chance.choice(places)
    it = accesses[place]
    words = [0] + [other.wrote for other in accesses if other.address == it.address and other.wrote is not None]
    changed = Access(it.processor, it.address, chance.choice(words), it.wrote, 0, FOREVER)
    return accesses[:place] + [changed] + accesses[place + 1 :]


def is_found(accesses):
    """Whether the judge's answer is that of one that tries all orders, at addresses with few operations."""
    sites = {}
    for it in accesses:
        sites.setdefault(it.address, []).append(it)
    first = judged(accesses)[0]
    for address, there in sorted(sites.items()):
        if len(there) > FEW:
            return True
        if not is_coherent(there, None, False):
            return first == f"not coherent at {address}"
    return first == "coherent"


def main(words):
    runs, seed = (int(word) for word in (words + ["1000", "1"][len(words) :]))
    answers, failures, passed = Counter(), [], 0
    for number in range(runs):
        chance = random.Random(seed * 10**9 + number)
        given, kind = script(chance), ("oracle", "threads", "in order", "ahead")[number % 4]
        status, log = log_of(given, kind, number)
        accesses = accesses_of(log)
        lines = judged(accesses)
        answers[", ".join(lines[:-1])] += 1
        faulty = with_fault(chance, accesses)
        right = status == 0 and lines[0] == "coherent" and lines[2] == "sequentially consistent"
        for good in (right, faulty is None or is_found(faulty)):
            passed += good
            if not good:
                failures.append(f"run {number} by {kind}: {lines}\n{given.decode()}")
    for answer, count in sorted(answers.items()):
        print(f"judge: {answer}: {count} runs")
    print("\n".join([*failures[:5], f"{passed} passed, {len(failures)} failed"]))
    return 1 if failures else 0


if __name__ == "__main__":
    sys.exit(main(sys.argv[1:]))
