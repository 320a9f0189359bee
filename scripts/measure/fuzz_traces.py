#!/usr/bin/env python3
"""Gives `sciview judge` small traces, made at random from a seed, and compares its verdicts with those of a judge that tries
all orders.

    scripts/measure/fuzz_traces.py [SECONDS [SEED [PROGRAM]]]        60 seconds and seed 1, if it isn't said

Half of the traces write each word once, and never 0, so that the verdict has to be the right one. The others may write words
again, and may be undecided then if they aren't coherent. Some have times, which may contradict the order of a processor, and some
say last words. Of a coherent trace it is counted how many versions explain it, which has to be one exactly if
they are said to be forced; where they are said to be undecided, nothing is wanted. The log is asked for, too: it has to have the
trace's operations in each processor's order, and one memory of one thread has to explain each line, by the log's versions, which
have to respect the times if these count. With `--order` the answer has to be that of a search of all orders; it may be unknown if
the trace isn't sequentially consistent, and with times only versions that respect them count. A cycle has to end where it begins,
by operations of one processor in their order, by a word that the one wrote and the other found, or by words at one address. The
last line is 'N passed, M failed', of traces.
"""

import os
import random
import re
import subprocess
import sys
import time
from concurrent.futures import ThreadPoolExecutor
from functools import cache

TOP = os.path.dirname(os.path.dirname(os.path.dirname(os.path.abspath(__file__))))
PROGRAM = f"{TOP}/crates/sciview/out/sciview"
# How many traces are made before the clock is read again.
BATCH = 200
FOREVER = 2**64 - 1

FIRST = re.compile(rb"(coherent|not coherent at ([0-9]+)|undecided at ([0-9]+))\Z")
NO_ORDER = (b"not sequentially consistent", b"order unknown")
LINK = re.compile(rb"line ([0-9]+): .* comes before line ([0-9]+): .* \((program order|reads from|order of words)\)\Z")
STEP = re.compile(rb"(line [0-9]+: |nothing comes between the two of line [0-9]+: |0 at the start comes before line [0-9]+: |nobody wrote the last word)")


class Access:
    """An operation: what it read, and what it wrote, None if it did not."""

    def __init__(self, processor, address, read, wrote, begin, end):
        self.processor, self.address, self.read, self.wrote = processor, address, read, wrote
        self.begin, self.end = begin, end

    def text(self):
        memory = f"M[{self.address}]"
        found, put = f"{memory} == {self.read}", f"{memory} := {self.wrote}"
        what = found if self.wrote is None else put if self.read is None else f"{{ {found}; {put} }}"
        if (self.begin, self.end) == (0, FOREVER):
            return f"{self.processor}: {what}"
        return f"{self.processor}: {what} @ {self.begin or ''}:{'' if self.end == FOREVER else self.end}"

    def writes(self):
        return self.wrote is not None and self.read != self.wrote

    def makes(self):
        return self.wrote is not None


def is_coherent(accesses, last, timed):
    """Whether some order of the operations at one address explains them, by trying all. Loads at one version stand in no order."""
    count = len(accesses)

    def is_before(i, j):
        x, y = accesses[i], accesses[j]
        return x.processor == y.processor and i < j or timed and x.end < y.begin

    before = [[i for i in range(count) if is_before(i, j)] for j in range(count)]

    def with_loads(done, word):
        """All loads of this word that may stand at this version: each operation before one is placed, or one of them."""
        loads = {j for j in range(count) if not done >> j & 1 and not accesses[j].makes() and accesses[j].read == word}
        while True:
            early = {j for j in loads if any(not done >> i & 1 and i not in loads for i in before[j])}
            if not early:
                return done | sum(1 << j for j in loads)
            loads -= early

    @cache
    def goes_on(done, word):
        done = with_loads(done, word)
        if done == (1 << count) - 1:
            return last is None or last == word
        for j, access in enumerate(accesses):
            if done >> j & 1 or not access.makes() or any(not done >> i & 1 for i in before[j]):
                continue
            if access.read in (None, word) and goes_on(done | 1 << j, access.wrote):
                return True
        return False

    return goes_on(0, 0)


def are_forced(accesses, last, timed):
    """Whether one assignment of versions alone explains the operations at one address, by trying all."""
    count = len(accesses)

    def is_before(i, j):
        x, y = accesses[i], accesses[j]
        return x.processor == y.processor and i < j or timed and x.end < y.begin

    before = [[i for i in range(count) if is_before(i, j)] for j in range(count)]
    found, seen = set(), set()

    def place(done, word, version, versions):
        if (done, versions) in seen or len(found) > 1:
            return
        seen.add((done, versions))
        if done == (1 << count) - 1:
            if last is None or last == word:
                found.add(versions)
            return
        for j, access in enumerate(accesses):
            if done >> j & 1 or any(not done >> i & 1 for i in before[j]) or access.read not in (None, word):
                continue
            at = version + access.makes()
            place(done | 1 << j, access.wrote if access.makes() else word, at, versions[:j] + (at,) + versions[j + 1 :])

    place(0, 0, 0, (None,) * count)
    return len(found) == 1


def is_sequential(accesses, lasts):
    """Whether one order of all operations explains them, by trying all."""
    queues = [[it for it in accesses if it.processor == processor] for processor in range(16)]

    @cache
    def goes_on(places, memory):
        words = dict(memory)
        if all(place == len(queue) for place, queue in zip(places, queues)):
            return all(words.get(address, 0) == word for address, word in lasts.items())
        for processor, place in enumerate(places):
            if place == len(queues[processor]):
                continue
            access = queues[processor][place]
            if access.read in (None, words.get(access.address, 0)):
                after = {**words, access.address: access.wrote} if access.makes() else words
                rest = places[:processor] + (place + 1,) + places[processor + 1 :]
                if goes_on(rest, tuple(sorted(after.items()))):
                    return True
        return False

    return goes_on((0,) * 16, ())


def is_once(accesses):
    words = [it.wrote for it in accesses if it.writes()]
    return len(words) == len(set(words)) and 0 not in words


def is_monotone(accesses):
    """Whether no operation of a processor ended before one began that stands before it."""
    pairs = [(x, y) for at, x in enumerate(accesses) for y in accesses[at + 1 :] if x.processor == y.processor]
    return all(y.end >= x.begin for x, y in pairs)


def made(chance):
    """Operations in the order of the text, and last words."""
    addresses = [8, 16][: chance.randint(1, 2)]
    processors = chance.randint(1, 4)
    once = chance.random() < 0.5
    memory = {it: 0 for it in addresses}
    old = {it: [0] for it in addresses}
    accesses, clock = [], 0
    timed = chance.random() < 0.6
    for number in range(chance.randint(1, 9)):
        address = chance.choice(addresses)
        word = number + 1 if once or chance.random() < 0.5 else chance.randrange(3)
        kind = chance.choice(("load", "load", "store", "atomic", "same"))
        seen = memory[address] if chance.random() < 0.8 else chance.choice(old[address])
        if chance.random() < 0.02:
            seen = 77
        read = None if kind == "store" else seen
        wrote = None if kind == "load" else seen if kind == "same" else word
        if wrote is not None and chance.random() < 0.95:
            memory[address] = wrote
        old[address].append(word)
        clock += chance.randint(0, 3)
        begin = max(0, clock - chance.randint(0, 4))
        end = clock + chance.randint(0, 4)
        span = (begin, end) if timed and chance.random() < 0.9 else (0, FOREVER)
        accesses.append(Access(chance.randrange(processors), address, read, wrote, *span))
    if chance.random() < 0.3:
        chance.shuffle(accesses)
    lasts = {}
    for address in addresses:
        if chance.random() < 0.4:
            lasts[address] = memory[address] if chance.random() < 0.7 else chance.choice(old[address])
    return accesses, lasts


def text_of(chance, accesses, lasts):
    """The text of a trace. Each operation is told its line."""
    lines = list(accesses)
    for address, word in lasts.items():
        lines.insert(chance.randint(0, len(lines)), f"final M[{address}] == {word}")
    for number, it in enumerate(lines):
        if isinstance(it, Access):
            it.line = number + 1
    return "".join((it.text() if isinstance(it, Access) else it) + "\n" for it in lines).encode()


def wanted(accesses, lasts, timed):
    """Of each address that is named whether it is coherent, whether it has to be decided if it isn't, and whether if it is."""
    found = {}
    for address in sorted({it.address for it in accesses} | set(lasts)):
        there = [it for it in accesses if it.address == address]
        once = is_once(there)
        found[address] = (is_coherent(there, lasts.get(address), timed), once, once or not timed or is_monotone(there))
    return found


def is_right(found, status, output):
    """Whether a verdict is the one that is wanted."""
    lines = output.split(b"\n")
    first = FIRST.match(lines[0])
    if not first or lines[-1] or status != (0 if first[1] == b"coherent" else 1):
        return False
    if first[1] == b"coherent":
        return len(lines) == 3 and all(coherent for coherent, *_ in found.values())
    at = int(first[2] or first[3])
    if not all(coherent for address, (coherent, *_) in found.items() if address < at):
        return False
    coherent, once, clear = found[at]
    if first[3]:
        return not (clear if coherent else once)
    return not coherent and len(lines) > 2 and all(STEP.match(it) for it in lines[1:-1])


def entries_of(log):
    """Of the text of a log its last contents by line, and its entries: node, serial, operation, reply and version."""
    first, *lines = log.decode().split("\n")[:-1]
    count = int(first.split(" ")[3])
    lasts = {}
    for line in lines[:count]:
        _, number, version, *words = line.split(" ")
        lasts[int(number)] = (int(version[1:]), [int(it) for it in words])
    entries = []
    for line in lines[count:]:
        issue, outcome = line.split(" = ")
        node, serial, *op = issue.split(" ")
        reply, version = outcome.split(" @")
        entries.append((int(node), int(serial), op, reply, int(version)))
    return lasts, entries


def is_run(entries, last):
    """Whether operations and their versions on one line are those of a memory of one thread that ends so."""
    makers = sorted((version, access) for access, version in entries if access.makes())
    if [version for version, _ in makers] != list(range(1, len(makers) + 1)):
        return False
    words = [0]
    for _, access in makers:
        if access.read not in (None, words[-1]):
            return False
        words.append(access.wrote)
    reads = all(version < len(words) and access.read == words[version] for access, version in entries if not access.makes())
    return reads and last == (len(makers), [words[-1]] + [0] * 7)


def are_in_order(entries, timed):
    """Whether versions on one line, in the order of the text, rise with each processor, and with times if these count."""
    for at, (x, v) in enumerate(entries):
        for place, (y, w) in enumerate(entries):
            before = x.processor == y.processor and at < place or timed and x.end < y.begin
            if before and not (v < w if y.makes() else v <= w):
                return False
    return True


def is_log_of(accesses, lasts, timed, log, errors):
    """Whether a log and what is said beside it are of the trace."""
    addresses = sorted({it.address for it in accesses} | set(lasts))
    said = "".join(f"sciview judge: line {line} of memory is address {it}\n" for line, it in enumerate(addresses))
    if errors.decode() != said:
        return False
    contents, entries = entries_of(log)
    if sorted(contents) != list(range(max(1, len(addresses)))):
        return False
    sites = {it: [] for it in addresses}
    by_place = {(node, serial): (op, reply, version) for node, serial, op, reply, version in entries}
    serials = {}
    for access in accesses:
        serial = serials.get(access.processor, 0)
        serials[access.processor] = serial + 1
        op, reply, version = by_place.pop((access.processor, serial), (None, None, None))
        line = str(addresses.index(access.address))
        load, store = ["load", line, "0"], ["store", line, "0", str(access.wrote)]
        swap = ["compare-swap", line, "0", str(access.read), str(access.wrote)]
        wants = load if access.wrote is None else store if access.read is None else swap
        if op != wants or reply != ("-" if access.read is None else str(access.read)):
            return False
        sites[access.address].append((access, version))
    if by_place or [it[:2] for it in entries] != sorted(it[:2] for it in entries):
        return False
    for line, address in enumerate(addresses):
        if not is_run(sites[address], contents[line]) or not are_in_order(sites[address], timed):
            return False
        if lasts.get(address, contents[line][1][0]) != contents[line][1][0]:
            return False
    return True


def is_freedom(accesses, lasts, timed, said):
    """Whether what is said of other versions of a coherent trace is right. Where times contradict the order of a processor it is left open."""
    by_address = {it: [x for x in accesses if x.address == it] for it in {x.address for x in accesses}}
    if said == b"versions undecided" or timed and not all(is_monotone(there) for there in by_address.values()):
        return True
    forced = all(are_forced(there, lasts.get(address), timed) for address, there in by_address.items())
    return said == (b"versions forced" if forced else b"versions free")


def is_cycle(accesses, lines):
    """Whether lines tell a cycle of operations, each of which is before the next one for the reason that is said."""
    by_line = dict(zip((it.line for it in accesses), accesses))
    links = [LINK.match(it) for it in lines if not it.startswith(b"  ")]
    if not all(links) or not all(STEP.match(it[2:]) for it in lines if it.startswith(b"  ")):
        return False
    for link, next_one in zip(links, links[1:] + links[:1]):
        first, second = by_line[int(link[1])], by_line[int(link[2])]
        if link[2] != next_one[1] or first is second:
            return False
        if link[3] == b"program order":
            right = first.processor == second.processor and first.line < second.line
        elif link[3] == b"reads from":
            right = first.address == second.address and first.writes() and second.read == first.wrote
        else:
            right = first.address == second.address
        if not right:
            return False
    return True


def is_order(accesses, lasts, timed, run):
    """Whether what is said of one order of all operations of a coherent trace is right."""
    lines = run.stdout.split(b"\n")
    if run.stderr or len(lines) < 4 or run.returncode != (0 if lines[2] == b"sequentially consistent" else 1):
        return False
    if len(lines) > 4 and (lines[2] != NO_ORDER[0] or not is_cycle(accesses, lines[3:-1])):
        return False
    if is_sequential(accesses, lasts):
        return lines[2] == b"sequentially consistent" or timed and lines[2] in NO_ORDER
    return lines[2] in NO_ORDER


def failure(job):
    """What goes wrong with the trace of this number, or None, and the verdict's first word."""
    program, number = job
    chance = random.Random(number)
    accesses, lasts = made(chance)
    timed = chance.random() < 0.5
    given = text_of(chance, accesses, lasts)
    words = [program, "judge", *(["--times"] if timed else [])]
    run = subprocess.run(words, input=given, stdout=subprocess.PIPE, stderr=subprocess.PIPE, timeout=60)
    told = run.stdout
    right = not run.stderr and is_right(wanted(accesses, lasts, timed), run.returncode, run.stdout)
    if right:
        log = subprocess.run([*words, "--log"], input=given, stdout=subprocess.PIPE, stderr=subprocess.PIPE, timeout=60)
        if run.returncode == 0:
            right = log.returncode == 0 and is_log_of(accesses, lasts, timed, log.stdout, log.stderr)
            right = right and is_freedom(accesses, lasts, timed, run.stdout.split(b"\n")[1])
            if right:
                log = subprocess.run([*words, "--order"], input=given, stdout=subprocess.PIPE, stderr=subprocess.PIPE, timeout=60)
                right, told = is_order(accesses, lasts, timed, log), log.stdout
        else:
            right = (log.returncode, log.stdout, log.stderr) == (run.returncode, run.stdout, run.stderr)
        if not right:
            run = log
    wrong = None if right else f"trace {number}: {' '.join(words[1:])}, status {run.returncode}\n{given.decode()}-- {run.stdout.decode()}"
    kind = b", ".join(told.split(b"\n")[:3]) if told.startswith(b"coherent") else told.split(b" ")[0].strip()
    return wrong, kind.decode()


def main(words):
    seconds, seed, program = (words + ["60", "1", PROGRAM][len(words) :])[:3]
    kinds, failures, count, begun = {}, [], 0, time.monotonic()
    with ThreadPoolExecutor(os.cpu_count()) as pool:
        while time.monotonic() - begun < int(seconds):
            first = int(seed) * 10**9 + count
            for wrong, kind in pool.map(failure, ((program, number) for number in range(first, first + BATCH))):
                kinds[kind] = kinds.get(kind, 0) + 1
                if wrong:
                    failures.append(wrong)
            count += BATCH
    for kind, runs in sorted(kinds.items()):
        print(f"judge: {kind}, {runs} traces")
    print("\n".join([*failures[:5], f"{count - len(failures)} passed, {len(failures)} failed"]))
    return 1 if failures else 0


if __name__ == "__main__":
    sys.exit(main(sys.argv[1:]))
