#!/usr/bin/env python3
"""The gate. First the pages are checked, and their table of definitions. Then rt ci proves every crate and its tests, and runs
the tests, and wrong bodies are tried. The programs that rt ci built run on the stored cases, on the examples, for charts, and
for pages in a browser. The C library is built over the libraries that it built, and tried, and so is what stands on it: Python, Rust,
and simulators if there are any. Then programs and tests run with memory, reads and writes refused. At the end stands how long each
stage took; the last line is 'N passed, M failed', of all stages."""

import os
import re
import resource
import shutil
import subprocess
import sys
import time
from collections import namedtuple

TOP = os.path.dirname(os.path.dirname(os.path.dirname(os.path.abspath(__file__))))
STAGES = {
    "pages": ["scripts/gate/check_pages.py"],
    "signatures": ["scripts/gate/check_signatures.py"],
    "statements": ["scripts/gate/statement.py", "--check"],
    "proofs and tests": ["rt", "ci"],
    "wrong bodies": ["scripts/gate/try_plants.py"],
    "stored cases": ["scripts/gate/run_cases.py"],
    "examples": ["scripts/gate/run_examples.py"],
    "charts": ["scripts/gate/check_charts.py"],
    "pages in a browser": ["scripts/gate/check_page.py"],
    "the C library, built": ["scripts/gate/build_library.py"],
    "the C library": ["scripts/gate/check_library.py"],
    "Python and Rust": ["scripts/gate/check_bindings.py"],
    "simulators": ["scripts/gate/check_cosim.py"],
    "refusals": ["scripts/gate/try_faults.py"],
}

# What a stage counted, and how long it took: by the clock, and of all processors together.
Stage = namedtuple("Stage", "name passed failed seconds processor")


def processor_seconds():
    """The processor time of all commands that have ended, in seconds."""
    used = resource.getrusage(resource.RUSAGE_CHILDREN)
    return used.ru_utime + used.ru_stime


def run(name, words):
    """Runs a stage, and shows what it prints. A stage that fails counts one failure at least."""
    start, before, counts = time.monotonic(), processor_seconds(), (0, 0)
    with subprocess.Popen(words, cwd=TOP, stdout=subprocess.PIPE, stderr=subprocess.STDOUT) as ran:
        for line in ran.stdout:
            sys.stdout.buffer.write(line)
            sys.stdout.buffer.flush()
            found = re.fullmatch(rb"(\d+) passed, (\d+) failed\n", line)
            counts = (int(found[1]), int(found[2])) if found else counts
    failed = max(counts[1], int(ran.returncode != 0))
    return Stage(name, counts[0], failed, time.monotonic() - start, processor_seconds() - before)


def mark_built():
    """Gives the programs the time of now, so that make knows that they are built of the sources as they are: those that an
    earlier run built have its time. Copies of them are put into out/bin, as make does."""
    os.makedirs(f"{TOP}/out/bin", exist_ok=True)
    for name in ("scimem", "sciview", "sci_station_timer"):
        os.utime(f"{TOP}/crates/{name}/out/{name}")
        shutil.copy2(f"{TOP}/crates/{name}/out/{name}", f"{TOP}/out/bin/{name}")


def main():
    stages = []
    for name, words in STAGES.items():
        stages.append(run(name, words))
        if words == ["rt", "ci"]:
            # Without proofs there are no programs to run.
            if stages[-1].failed:
                break
            mark_built()
    for it in stages:
        print(f"{it.name}: {it.seconds / 60:.1f} min, {it.processor / 60:.1f} min of processor time")
    whole = [sum(getattr(it, part) for it in stages) for part in Stage._fields[1:]]
    print(f"all: {whole[2] / 60:.1f} min, {whole[3] / 60:.1f} min of processor time on {len(os.sched_getaffinity(0))} cores")
    print(f"{whole[0]} passed, {whole[1]} failed", flush=True)
    return 1 if whole[1] else 0


sys.exit(main())
