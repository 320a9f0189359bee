#!/usr/bin/env python3
"""Runs the built programs on the stored cases of the folder cases/ (stored_cases.py says what these are), and checks whether
they write what stands there. The last line is 'N passed, M failed', of cases."""

import os
import subprocess
import sys
import tempfile
from concurrent.futures import ThreadPoolExecutor

from stored_cases import stored_cases

TOP = os.path.dirname(os.path.dirname(os.path.dirname(os.path.abspath(__file__))))
PROGRAMS = os.pathsep.join(f"{TOP}/crates/{name}/out" for name in ("scimem", "sciview"))


def wrong(case):
    """What a run of the case writes, and its status; or None if they are those that are stored."""
    settings = {**os.environ, "PATH": PROGRAMS + os.pathsep + os.environ["PATH"]}
    with tempfile.TemporaryDirectory(prefix="case-") as room:
        how = {"stdout": subprocess.PIPE, "stderr": subprocess.PIPE, "cwd": room, "env": settings}
        ran = subprocess.run(["timeout", "120", "sh", "-c", case.commands], input=case.given, **how)
    found = ran.returncode, ran.stdout, ran.stderr
    return None if found == (case.status, case.output, case.errors) else found


def main():
    cases, failed = list(stored_cases(TOP)), 0
    with ThreadPoolExecutor(os.cpu_count()) as pool:
        for case, found in zip(cases, pool.map(wrong, cases)):
            if found:
                failed += 1
                status, output, errors = found
                print(f"{case.name} FAILED: status {status}, output: {output[:300]!r} {errors[:300]!r}", flush=True)
    print(f"{len(cases) - failed} passed, {failed} failed")
    return 1 if failed or not cases else 0


sys.exit(main())
