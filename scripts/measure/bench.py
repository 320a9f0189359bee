#!/usr/bin/env python3
"""Compares scimem with the plain program of bench/, on inputs that scripts/make/inputs.py makes:

    scripts/measure/bench.py [RUNS [SUBJECT ..]]    9 runs of each, and all subjects, if it isn't said

The subjects are oracle, replay, audit, upgrade, decode, threads, circle and hop. Both programs have to write the same bytes, also
on the stored cases. What threads write differs from run to run, so both programs have to find both logs lawful. Then both run
in turn. For each subject a table is printed: the median and the best of the time by the clock and of the processor time, the
peak of memory of one more run, and what scimem takes divided by what the plain program takes. Beside them stands what `cat` takes
to read the same input and to write the same output, and how many MB of both scimem moves in a second of processor time. At the
end stands the geometric mean of the quotients of the best times. A hop is what it takes to move a cache line from one processor
to another and back, halved. `make bench` builds the programs before. It needs GNU time."""

import math
import os
import re
import shutil
import statistics
import subprocess
import sys
import tempfile
import time
from collections import namedtuple

from programs import CIRCLE, INPUTS, PLAIN, SCIMEM, TOP, WORKLOADS, output

sys.path.append(f"{TOP}/scripts/gate")

from stored_cases import stored_cases  # noqa: E402

COMMANDS = ("oracle", "replay", "audit", "upgrade", "decode")

# What a row measures: its name, the command's words, and the file of its input.
Row = namedtuple("Row", "name words path")
# What a run took: seconds by the clock and of the processor.
Took = namedtuple("Took", "clock processor")


def made(room, name, *words):
    """The file with what a command writes."""
    path = f"{room}/{name}"
    with open(path, "wb") as file:
        subprocess.run(words, stdout=file, check=True)
    return path


def workloads(room, sizes):
    """The scripts of the workloads, for each number of nodes."""
    for nodes in sizes:
        for kind in WORKLOADS:
            yield f"{kind}, N = {nodes}", made(room, f"{kind}-{nodes}", INPUTS, "workload", kind, str(nodes))


def rows(room, subjects):
    """The rows of all subjects but circle."""
    script = lambda lines: made(room, f"script-{lines}", INPUTS, "script", "65536", lines)
    if "oracle" in subjects:
        yield Row("oracle, 1,048,576 operations", ["oracle"], script("64"))
    if "replay" in subjects:
        yield Row("replay, 500,000 enabled events", ["replay"], made(room, "enabled", INPUTS, "schedule"))
        yield Row("replay, 500,000 others", ["replay"], made(room, "idle", INPUTS, "schedule", "idle"))
    for command in ("audit", "upgrade"):
        for lines in ("64", "1") if command in subjects else ():
            log = made(room, f"log-{lines}", "sh", "-c", f'"{SCIMEM}" oracle < "{script(lines)}"')
            yield Row(f"{command}, 1,048,576 entries, lines: {lines}", [command], log)
    if "decode" in subjects:
        yield Row("decode, 134,217,448 bytes", ["decode"], made(room, "packets", INPUTS, "packets"))
    if "threads" in subjects:
        for name, path in workloads(room, (1, 2, 4, 16)):
            yield Row(f"threads, {name}", ["threads"], path)


def ran(program, row, out):
    """Runs a program on the input of a row, and answers its status and what it took."""
    with open(row.path, "rb") as given, open(out, "wb") as taken:
        start = time.monotonic()
        files = [(os.POSIX_SPAWN_DUP2, given.fileno(), 0), (os.POSIX_SPAWN_DUP2, taken.fileno(), 1)]
        child = os.posix_spawn(program, [program, *row.words], os.environ, file_actions=files)
        _child, status, used = os.wait4(child, 0)
        clock = time.monotonic() - start
    return os.waitstatus_to_exitcode(status), Took(clock, used.ru_utime + used.ru_stime)


def peak(program, row):
    """The peak of memory of a run on the input of a row, in MB. GNU time starts it, since the system
    reports for a process that this one starts at least the peak of this one."""
    with open(row.path, "rb") as given:
        words = ["/usr/bin/time", "-f", "%M", program, *row.words]
        done = subprocess.run(words, stdin=given, stdout=subprocess.DEVNULL, stderr=subprocess.PIPE)
    return int(done.stderr.split()[-1]) / 1024


def copied(row, out, runs):
    """The least processor time of cat to read the input of a row, and to write its output."""
    words = ["sh", "-c", f'cat "{row.path}" > "{out}.copy"; cat "{out}" > "{out}.copy"']
    return min(ran("/bin/sh", Row(row.name, words[1:], os.devnull), f"{out}.none")[1].processor for _ in range(runs))


def is_lawful(path):
    """Whether both programs find a log lawful."""
    found = []
    for program in (SCIMEM, PLAIN):
        with open(path, "rb") as log:
            found.append(subprocess.run([program, "audit"], stdin=log, stdout=subprocess.PIPE).stdout)
    return found == [b"lawful\n"] * 2


def agree(room, row):
    """Whether both programs answer the same; of a run by threads, whether both logs are lawful."""
    outputs = [f"{room}/out-{number}" for number in range(2)]
    statuses = [ran(program, row, out)[0] for program, out in zip((SCIMEM, PLAIN), outputs)]
    if row.words == ["threads"]:
        return statuses == [0, 0] and all(map(is_lawful, outputs))
    return statuses[0] == statuses[1] and subprocess.run(["cmp", "-s", *outputs]).returncode == 0


def differing_cases():
    """The stored cases of the commands that both programs have, and those of them that the plain program answers otherwise."""
    count, found = 0, []
    for case in stored_cases(TOP):
        if case.program == "scimem" and case.words and case.words[0] in COMMANDS:
            count += 1
            done = subprocess.run([PLAIN, *case.words], input=case.given, capture_output=True)
            if (done.returncode, done.stdout) != (case.status, case.output):
                found.append(case.name)
    return count, found


def spread(values, form):
    """The median and the best of values."""
    return f"{form.format(statistics.median(values))} / {form.format(min(values))}"


def tell(row, ours, plain, out):
    """Prints a row: what each program took, and the quotients. Answers that of the best processor times."""
    cells = [row.name]
    for part, form in (("clock", "{:.3f}"), ("processor", "{:.3f}")):
        pair = [[getattr(it, part) for it in found] for found in (ours, plain)]
        cells += [spread(pair[0], form), spread(pair[1], form)]
        cells.append(f"{statistics.median(pair[0]) / statistics.median(pair[1]):.2f} / {min(pair[0]) / min(pair[1]):.2f}")
    peaks = [peak(program, row) for program in (SCIMEM, PLAIN)]
    cells += [*(f"{it:.1f}" for it in peaks), f"{peaks[0] / peaks[1]:.2f}"]
    best = [min(it.processor for it in found) for found in (ours, plain)]
    moved = (os.path.getsize(row.path) + os.path.getsize(out)) / 1e6
    cells += [f"{copied(row, out, len(ours)):.3f}", f"{moved / best[0]:.0f}"]
    print("| " + " | ".join(cells) + " |", flush=True)
    return best[0] / best[1]


def geometric_mean(quotients):
    return math.exp(sum(map(math.log, quotients)) / len(quotients))


def measure(room, runs, subjects):
    """Compares and measures all subjects but circle. Answers how many inputs the programs disagree on."""
    print("| seconds, median / best | scimem, clock | plain | quotient | scimem, processor | plain | quotient | scimem, MB | plain, MB | quotient "
          "| cat | MB/s |")
    print("|" + "---|" * 12, flush=True)
    wrong, quotients = 0, []
    for row in rows(room, subjects):
        if not agree(room, row):
            wrong += 1
            print(f"| {row.name} | the answers differ |", flush=True)
            continue
        ours, plain = [], []
        for _ in range(runs):
            ours.append(ran(SCIMEM, row, f"{room}/out")[1])
            plain.append(ran(PLAIN, row, f"{room}/out")[1])
        quotients.append(tell(row, ours, plain, f"{room}/out"))
    if quotients:
        print(f"\ngeometric mean of {len(quotients)} rows: {geometric_mean(quotients):.2f}\n", flush=True)
    return wrong


def circle_times(words, path):
    """For each run of a script in a circle the number of its operations, of its rounds, and its nanoseconds."""
    with open(path) as given:
        done = subprocess.run(words, stdin=given, capture_output=True, text=True, check=True)
    return [tuple(map(int, it)) for it in re.findall(r"(\d+) operations in (\d+) rounds, (\d+) ns", done.stdout)]


def measure_circle(room, runs):
    """The processor time of an operation with all stations in one thread. Both programs have to take as many rounds."""
    print("| nanoseconds an operation, median / best | sci_station_timer | plain | quotient | rounds |")
    print("|" + "---|" * 5, flush=True)
    wrong, means = 0, []
    for name, path in workloads(room, (1, 4, 16)):
        ours, plain = [], []
        for _ in range(runs):
            ours += circle_times([CIRCLE, "3", "timed"], path)
            plain += circle_times([PLAIN, "circle", "3"], path)
        if len({it[:2] for it in ours + plain}) != 1:
            wrong += 1
            print(f"| circle, {name} | the rounds differ |", flush=True)
            continue
        count, rounds, _ = ours[0]
        each = [[time / count for _, _, time in found] for found in (ours, plain)]
        quotients = [f"{of(each[0]) / of(each[1]):.2f}" for of in (statistics.median, min)]
        means.append(min(each[0]) / min(each[1]))
        cells = [f"circle, {name}", *(spread(it, "{:.0f}") for it in each), " / ".join(quotients), f"{rounds:,}"]
        print("| " + " | ".join(cells) + " |", flush=True)
    if means:
        print(f"\ngeometric mean of {len(means)} rows: {geometric_mean(means):.2f}\n", flush=True)
    return wrong


def measure_hop(runs):
    """What a hop of a cache line takes."""
    hops = [float(output([PLAIN, "hop", "1000000"]).split()[0]) for _ in range(runs)]
    print(f"a hop of a cache line, nanoseconds, median / best: {spread(hops, '{:.0f}')}\n", flush=True)


def main(words):
    runs = int(words[0]) if words else 9
    subjects = words[1:] or [*COMMANDS, "threads", "circle", "hop"]
    missing = [it for it in (SCIMEM, PLAIN, *([CIRCLE] if "circle" in subjects else [])) if not os.access(it, os.X_OK)]
    if missing:
        print(f"these programs aren't built: {', '.join(missing)}; run make bench")
        return 1
    room, failed = tempfile.mkdtemp(prefix="bench-"), 0
    try:
        if set(subjects) - {"circle", "hop"}:
            failed += measure(room, runs, subjects)
        if "circle" in subjects:
            failed += measure_circle(room, runs)
        if "hop" in subjects:
            measure_hop(runs)
    finally:
        shutil.rmtree(room)
    count, wrong = differing_cases()
    print(f"{count - len(wrong)} of {count} stored cases have the same answer", *wrong, sep="\n", flush=True)
    return 1 if failed or wrong else 0


sys.exit(main(sys.argv[1:]))
