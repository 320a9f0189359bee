#!/usr/bin/env python3
"""Runs the examples of docs/SYSTEMVERILOG.md with Verilator and of docs/SYSTEMC.md with SystemC, against the C library that
check_library.py has built. Each mistake that is planted in the design has to be found, and the runs without one have to be lawful.

Where a simulator is missing, a line says `skipped`, and nothing is counted. The last line is 'N passed, M failed'."""

import re
import shutil
import subprocess
import sys
import tempfile

from installed import check_page, install, is_built
from tally import Tally

# Verilator's files are compiled together, and without optimization, since a run takes less time than that.
QUICK = "VM_PARALLEL_BUILDS=0 OPT_FAST=-O0 OPT_SLOW=-O0 OPT_GLOBAL=-O0"


def has_verilator():
    """Whether there is Verilator 5, which has --binary."""
    if not shutil.which("verilator") or not shutil.which("c++"):
        return False
    text = subprocess.run(["verilator", "--version"], stdout=subprocess.PIPE, text=True).stdout
    found = re.match(r"Verilator (\d+)", text)
    return bool(found) and int(found[1]) >= 5


def has_systemc():
    """Whether a program with SystemC compiles."""
    if not shutil.which("c++") or not shutil.which("pkg-config"):
        return False
    words = ["c++", "-std=c++17", "-fsyntax-only", "-x", "c++", "-"]
    return subprocess.run(words, input=b"#include <systemc>\n", stderr=subprocess.DEVNULL).returncode == 0


def main():
    tally = Tally()
    if not is_built():
        print("the C library isn't built: skipped")
        return tally.end()
    with tempfile.TemporaryDirectory(prefix="cosim-") as room:
        settings = {**install(room), "MAKEFLAGS": QUICK, "SYSTEMC_DISABLE_COPYRIGHT_MESSAGE": "1"}
        for page, is_there, what in (("SYSTEMVERILOG", has_verilator(), "verilator"), ("SYSTEMC", has_systemc(), "SystemC")):
            if is_there:
                check_page(tally, f"docs/{page}.md", settings)
            else:
                print(f"skipped: no {what}")
    return tally.end()


if __name__ == "__main__":
    sys.exit(main())
