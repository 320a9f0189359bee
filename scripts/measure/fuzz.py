#!/usr/bin/env python3
"""Gives the built program hostile inputs, made at random from a seed, and checks whether it answers as promised.

    scripts/measure/fuzz.py [SECONDS [SEED]]        60 seconds and seed 1, if it isn't said
    scripts/measure/fuzz.py largest

An input is a good text or run of packets in which something was changed: bytes, lines, numbers, ends of lines, or the size.
A text's answer has to be the one that scripts/gate/plain_answers.py works out. What a schedule or packets give has to have one of
the forms that docs/TEXTS.md and docs/COMMANDS.md have. Whatever of the output is a log is read again: it is its own upgrade, and
lawful unless the input was a log. The program has to end by itself.

With `largest` each command reads inputs of the greatest length, and of one byte more, that repeat one thing.
The last line is 'N passed, M failed', of runs.
"""

import os
import random
import re
import subprocess
import sys
import time
from concurrent.futures import ThreadPoolExecutor

TOP = os.path.dirname(os.path.dirname(os.path.dirname(os.path.abspath(__file__))))
sys.path.append(f"{TOP}/scripts/gate")

import plain_answers  # noqa: E402

PROGRAM = f"{TOP}/crates/scimem/out/scimem"
COMMANDS = ("oracle", "replay", "audit", "upgrade", "decode")

NUMBERS = (0, 1, 7, 8, 15, 16, 17, 63, 64, 65, 255, 256, 4095, 4096, 65535, 65536, 2**32 - 1, 2**32, 2**63, 2**64 - 1, 2**64)
NUMBERS += (10**19, 10**20, 2**128, 10**80)
PIECES = (b"\0", b"\r", b"\r\n", b"\n", b"\n\n", b" ", b"  ", b"\t", b"\xef\xbb\xbf", b"\xff", b"-", b"+1", b"0x10", b"1e3", b"\x1a", b"@", b"= ")
OPERATIONS = ("load", "store", "fetch-add", "mask-swap", "compare-swap", "bounded-add", "wrap-add")
OPERANDS = {"load": 0, "store": 1, "fetch-add": 1}
KINDS = ("mread", "fread", "cread", "claim", "clear", "purge", "roll", "wback", "setback")

MREAD = bytes.fromhex("0000000100010000000000000000ffff")
MREAD_LINE = b"mread to 0 from 1 control 0 line 0\n"

MOST_BYTES = 134_217_728
# How many inputs are made before the clock is read again.
BATCH = 500
# Above this many bytes an answer isn't worked out anew.
MOST_PLAIN = 2_000_000
LAST = b"last 0 @0 0 0 0 0 0 0 0 0\n"
# What each of the largest inputs begins with, and what it then repeats.
LARGEST = {
    "zero bytes": (b"", b"\0"),
    "line feeds": (b"", b"\n"),
    "one number": (b"machine 1 1 1\np 0 store 0 0 ", b"9"),
    "spaces": (b"machine 1 1 1", b" "),
    "operations": (b"machine 1 1 1\n", b"p 0 load 0 0\n"),
    "events": (b"machine 1 1 1\n", b"reply 0\n"),
    "last contents": (b"log 2 1 64\n", LAST),
    "entries": (b"log 2 1 1\n" + LAST, b"0 0 load 0 0 = 0 @0\n"),
    "packets": (b"", MREAD),
}

REFUSED = {
    "text": re.compile(rb"refused at line [0-9]+: (syntax|range|too-many)\n"),
    "packets": re.compile(rb"refused at byte [0-9]+: (short|unknown-command|bad-offset|bad-identifier)\n\Z"),
}
VERDICT = re.compile(rb"fault ([1-4] [a-z-]+ line [0-9]+ node [0-9]+ serial [0-9]+|5 last-differs line [0-9]+)\n")
LOG = re.compile(rb"log 2 [0-9]+ [0-9]+\n(last [0-9]+ @[0-9]+( [0-9]+){8}\n)+([0-9]+ [0-9]+ [a-z-]+( [0-9]+)+ = (-|[0-9]+) @[0-9]+\n)*")
PACKETS = re.compile(rb"([a-z]+ to [0-9]+ from [0-9]+ control [0-9]+ line [0-9]+( id ([0-9]+|none))?( @[0-9]+( [0-9]+){8})?\n)*")


def operation(chance, lines):
    """An operation on one of the lines."""
    name = chance.choice(OPERATIONS)
    operands = [str(chance.choice((0, 1, 7, 2**64 - 1))) for _ in range(OPERANDS.get(name, 2))]
    return " ".join([name, str(chance.randrange(lines)), str(chance.randrange(8)), *operands])


def script(chance, nodes, lines):
    yield f"machine {nodes} {lines} {chance.randint(1, 8)}"
    for _ in range(chance.randrange(40)):
        yield f"p {chance.randrange(nodes)} {operation(chance, lines)}"


def schedule(chance, nodes, lines):
    yield f"machine {nodes} {lines} {chance.randint(1, 8)}"
    for _ in range(chance.randrange(200)):
        j, n, line = chance.randrange(nodes), chance.randrange(nodes), chance.randrange(lines)
        events = (f"issue {n} {operation(chance, lines)}", f"perform {n} {line}", f"ask {n} {line} {chance.choice(KINDS)}")
        yield chance.choice((*events, f"serve {j} {n}", f"refuse {j} {n}", f"reply {n}", f"accept {j} {n}"))


def log(chance, nodes, lines):
    if chance.random() < 0.8:
        yield f"log 2 {nodes} {lines}"
    for line in range(lines):
        yield f"last {line} @{chance.randrange(3)} {' '.join(str(chance.randrange(3)) for _ in range(8))}"
    for node in range(nodes):
        for serial in range(chance.randrange(4)):
            asked = operation(chance, lines)
            reply = "-" if asked.startswith("store") else chance.randrange(3)
            yield f"{node} {serial} {asked} = {reply} @{chance.randrange(4)}"


def packets(chance):
    """Some packets as bytes, most of them good."""
    made = b""
    for _ in range(chance.randrange(6)):
        command = chance.choice((*range(1, 11), *range(0x101, 0x10C)))
        front = [chance.randrange(17), command, chance.randrange(17), chance.getrandbits(16)]
        made += b"".join(it.to_bytes(2, "big") for it in front)
        made += (chance.randrange(64) << 22 | chance.choice((0xFFFF, 0xFFFF, 3))).to_bytes(8, "big")
        made += chance.randbytes(72) if command in (5, 0x101, 0x103, 0x10A) else b""
    return made


def good(chance, command):
    """An input for a command, as it should be."""
    if command == "decode":
        return packets(chance)
    if command in ("audit", "upgrade") and chance.random() < 0.5:
        return ran("oracle", good(chance, "oracle"))[1]
    make = {"oracle": script, "replay": schedule}.get(command, log)
    return "".join(it + "\n" for it in make(chance, chance.randint(1, 16), chance.choice((1, 2, 3, 64)))).encode()


def line_length(given, at):
    """How long the line is that has this place."""
    end = given.find(b"\n", at)
    return (end if end >= 0 else len(given)) - given.rfind(b"\n", 0, at) - 1


def changed(chance, given):
    """The input with one thing changed."""
    at = chance.randrange(len(given) + 1)
    number = str(chance.choice(NUMBERS)).encode()
    how = chance.randrange(13)
    if how == 0:
        return given[:at] + chance.choice(PIECES) + given[at:]
    if how == 1:
        return given[:at] + bytes([chance.randrange(256)]) + given[at + 1 :]
    if how == 2:
        return given[:at] + given[at + chance.randrange(1, 9) :]
    if how in (3, 10, 11, 12):
        found = list(re.finditer(rb"[0-9]+", given))
        start, end = chance.choice(found).span() if found else (at, at)
        if how == 10:
            number = b"9" * max(0, chance.choice((255, 256, 257)) - line_length(given, start) + end - start)
        elif how > 10 and start < end:
            number = b"%d" % max(0, int(given[start:end][:40]) + chance.choice((-1, 1)))
        return given[:start] + number + given[end:]
    if how == 4:
        return given[:at]
    if how == 5:
        return given.replace(b"\n", chance.choice((b"\r\n", b"\r", b" \n", b"\0\n")))
    if how == 6:
        return given[:at] + chance.choice((b"0", b" ", b"\0", b"9")) * chance.choice((200, 256, 257, 5_000, 300_000)) + given[at:]
    if how == 7:
        lines = given.splitlines(keepends=True)
        chance.shuffle(lines)
        return b"".join(lines)
    if how == 8:
        return given + given[at:]
    return chance.randbytes(chance.randrange(300))


def is_said(command, run):
    """Whether standard error has a line of the command exactly if it was refused; of dead events `replay` says so."""
    lines = run.stderr.splitlines(keepends=True)
    named = all(it.startswith(b"scimem %s: " % command.encode()) and it.endswith(b"\n") for it in lines)
    return named and (len(lines) == 1 if run.returncode == 2 else not lines or command == "replay" and len(lines) == 1)


def ran(command, given):
    """Status and output of a run; the status is a text if the run itself went wrong."""
    how = {"stdout": subprocess.PIPE, "stderr": subprocess.PIPE, "timeout": 60}
    try:
        run = subprocess.run([PROGRAM, command], input=given, **how)
    except subprocess.TimeoutExpired:
        return "it did not end", b""
    return (run.returncode if is_said(command, run) else f"it said {run.stderr[:200]!r}"), run.stdout


def log_is_kept(command, output):
    """Whether a log that was written is its own upgrade, and lawful unless it is an upgrade itself."""
    kept = ran("upgrade", output) == (0, output)
    return kept and (command == "upgrade" or ran("audit", output) == (0, b"lawful\n"))


def is_promised(command, given, status, output):
    """Whether an answer is the one that scripts/gate/plain_answers.py works out, or else has one of the promised forms."""
    wanted = None if command == "decode" or len(given) > MOST_PLAIN else plain_answers.answer(command, given)
    if wanted:
        return (status, output) == wanted
    if command == "decode":
        refusal = REFUSED["packets"].search(output) if status == 2 else None
        front = output[: refusal.start()] if refusal else output
        return status in (0, 2) and (status == 2) == bool(refusal) and bool(PACKETS.fullmatch(front))
    if status == 2:
        told = REFUSED["text"].fullmatch(output)
        return bool(told) and int(output.split()[3][:-1]) <= given.count(b"\n") + 1
    if command == "audit":
        return output == b"lawful\n" if status == 0 else status == 1 and bool(VERDICT.fullmatch(output))
    return status == 0 and bool(LOG.fullmatch(output)) and log_is_kept(command, output)


def largest_failures():
    """What goes wrong with the largest inputs: for each run a text, or None."""
    for name, (front, unit) in LARGEST.items():
        whole = front + unit * (MOST_BYTES // len(unit) + 1)
        for size in (MOST_BYTES, MOST_BYTES + 1):
            given = whole[:size]
            for command in COMMANDS:
                status, output = ran(command, given)
                place = b"byte" if command == "decode" else b"line"
                if size > MOST_BYTES:
                    well = (status, output) == (2, b"refused at %s 0: too-many\n" % place)
                elif (name, command) == ("packets", "decode"):
                    well = (status, output) == (0, MREAD_LINE * (size // len(MREAD)))
                else:
                    well = is_promised(command, given, status, output)
                yield None if well else f"{size:,} bytes of {name}: {command}, status {status}, output {output[:200]!r}"


def failure(number):
    """What goes wrong with the input of this number, or None; its command, and the status of the run."""
    chance = random.Random(number)
    command = chance.choice(COMMANDS)
    given = good(chance, command)
    for _ in range(chance.randrange(4)):
        given = changed(chance, given)
    command = command if chance.random() < 0.95 else chance.choice(COMMANDS)
    status, output = ran(command, given)
    wrong = not is_promised(command, given, status, output)
    return f"input {number}: {command}, status {status}, output {output[:200]!r}" if wrong else None, command, status


def tell(count, failures):
    """Prints what went wrong, and how much passed. The answer is the exit status."""
    print("\n".join([*failures[:20], f"{count - len(failures)} passed, {len(failures)} failed"]))
    return 1 if failures else 0


def main(words):
    if words == ["largest"]:
        found = list(largest_failures())
        return tell(len(found), [it for it in found if it])
    seconds, seed = (int(word) for word in (words + ["60", "1"][len(words) :]))
    statuses, failures, count, begun = {}, [], 0, time.monotonic()
    with ThreadPoolExecutor(os.cpu_count()) as pool:
        while time.monotonic() - begun < seconds:
            first = seed * 10**9 + count
            for wrong, command, status in pool.map(failure, range(first, first + BATCH)):
                statuses[command, status] = statuses.get((command, status), 0) + 1
                if wrong:
                    failures.append(wrong)
            count += BATCH
    for (command, status), runs in sorted(statuses.items(), key=str):
        print(f"{command}: status {status}, {runs} inputs")
    return tell(count, failures)


if __name__ == "__main__":
    sys.exit(main(sys.argv[1:]))
