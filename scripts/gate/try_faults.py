#!/usr/bin/env python3
"""Has memory, reads and writes refused, one after another, and checks whether the answers are those that are promised.

    scripts/gate/try_faults.py [--build] [CRATE]

It tries each test named a_refused_.. or memory_for_.. of each crate, and then the built programs on the stored cases and on
larger inputs. With a crate's name it tries that crate alone; a program goes with its crate. With --build it builds (and
proves) the tests and the programs first, over what earlier checks kept; else they stand in out/, as the gate left them.

A line for each trial tells how much was refused. The last line is 'N passed, M failed', of trials.
"""

import os
import re
import subprocess
import sys
import tempfile
from concurrent.futures import ThreadPoolExecutor

import program_faults
from fault_runs import Faults, Trial

TOP = os.path.dirname(os.path.dirname(os.path.dirname(os.path.abspath(__file__))))
NAMED = re.compile(r"fn ((?:a_refused_|memory_for_)\w+)")


def crates_with_tests(wanted):
    """The crates with tests so named, in the order of their names, and how many each has."""
    found = {}
    for name in sorted(os.listdir(f"{TOP}/crates")):
        source = f"{TOP}/crates/{name}/src"
        texts = [open(f"{source}/{it}").read() for it in os.listdir(source) if it.endswith(".rt")]
        count = sum(len(NAMED.findall(it)) for it in texts)
        if count and wanted in (None, name):
            found[name] = count
    return found


def built(crate, what):
    """Proves and builds a crate's tests (`test`) or its program (`run`), and tells whether that went well."""
    word = program_faults.PROGRAMS[crate][0].decode() if what == "run" else ""
    words = ["rt", what] + ["--jobs", "2"] * (what == "test") + ["--", word] * (what == "run")
    how = {"stdin": subprocess.DEVNULL, "stdout": subprocess.PIPE, "stderr": subprocess.STDOUT}
    ran = subprocess.run(words, cwd=f"{TOP}/crates/{crate}", **how)
    # A program refuses an empty text, with status 2.
    if ran.returncode == (2 if what == "run" else 0):
        return True
    print(ran.stdout.decode(errors="replace")[-2000:])
    return False


def try_test(faults, program, test):
    """Refuses a test each of its allocations in turn, until a run refuses none."""
    trial = Trial(test)
    for number in range(1, 1_000_000):
        ran = faults.run([program, test], fault=f"alloc:{number}")
        trial.count(ran.told)
        if ran.status or b"test result: ok" not in ran.output:
            trial.fail(f"allocation {number}", ran)
        if not ran.told:
            return trial


def try_crate(faults, crate, count):
    """Tries the tests of a crate, and answers a trial for each. A test that isn't built is a trial that failed."""
    program = f"{TOP}/crates/{crate}/out/{crate}_tests"
    missing = Trial(f"{crate}: its tests")
    if not os.path.isfile(program):
        missing.fail("they are not built: run make faults", None)
        return [missing]
    listed = subprocess.run([program, "--list"], stdout=subprocess.PIPE, cwd=faults.room).stdout.decode()
    tests = re.findall(r"^(\S*\b(?:a_refused_|memory_for_)\w+): test$", listed, re.M)
    trials = list(faults.pool.map(lambda it: try_test(faults, program, it), tests))
    if len(tests) != count:
        missing.fail(f"{count} stand in the source, and {len(tests)} are built", None)
        trials.append(missing)
    refused = sum(it.refused for it in trials)
    print(f"{crate}: {len(tests)} tests, {refused} allocations refused", flush=True)
    return trials


def main(words):
    build = "--build" in words
    names = [it for it in words if not it.startswith("--")]
    wanted = names[0] if names else None
    crates = crates_with_tests(wanted)
    trials = []
    with tempfile.TemporaryDirectory(prefix="faults-") as room, ThreadPoolExecutor(os.cpu_count()) as pool:
        faults = Faults(TOP, room, pool)
        for crate, count in crates.items():
            if build and not built(crate, "test"):
                trials.append(Trial(crate).fail("its tests are not proved", None))
                continue
            trials += try_crate(faults, crate, count)
        for name in program_faults.PROGRAMS:
            if wanted not in (None, name):
                continue
            if build and not built(name, "run"):
                trials.append(Trial(name).fail("the program is not proved", None))
            else:
                trials += program_faults.try_program(faults, name)
    failed = [it for it in trials if it.failures]
    for trial in failed:
        trial.tell()
    print(f"{len(trials) - len(failed)} passed, {len(failed)} failed")
    return 1 if failed or not trials else 0


if __name__ == "__main__":
    sys.exit(main(sys.argv[1:]))
