#!/usr/bin/env python3
"""Installs the C library that check_library.py has built into a folder of its own, and tries what is built against it there:

- the tests of the package of Python, and those of the crates of Rust, offline;
- the examples of docs/C.md, docs/PYTHON.md and docs/RUST.md, with pkg-config, CMake, pip and cargo;
- the manual page sci(3), and what doxygen makes of the header.

What has no program here is left out, and a line says so. The last line is 'N passed, M failed'."""

import re
import shutil
import subprocess
import sys
import tempfile

from installed import TOP, check_page, install, is_built
from tally import Tally


def check_python(tally, settings):
    """The tests from the sources, and the page with the package as pip installs it."""
    output = tally.run("tests of Python", [sys.executable, "-B", "-m", "unittest", "discover", "-s", "python/tests"], cwd=TOP,
                       env={**settings, "PYTHONPATH": f"{TOP}/python"})
    found = re.search(r"^Ran (\d+) tests", output, re.MULTILINE)
    tally.count("number of tests", not found or int(found[1]) < 20)
    tally.passed += int(found[1]) if found else 0
    if subprocess.run([sys.executable, "-m", "pip", "--version"], stdout=subprocess.DEVNULL, stderr=subprocess.DEVNULL).returncode:
        print("pip is missing: docs/PYTHON.md is left out")
    else:
        check_page(tally, "docs/PYTHON.md", settings)


def check_rust(tally, settings):
    if not shutil.which("cargo"):
        print("cargo is missing: the crates of Rust are left out")
        return
    output = tally.run("cargo test", ["cargo", "test", "--offline", "--quiet"], cwd=f"{TOP}/bindings/rust", env=settings)
    tally.passed += sum(int(it) for it in re.findall(r"test result: ok. (\d+) passed", output))
    check_page(tally, "docs/RUST.md", settings)


def check_c(tally, settings):
    if all(shutil.which(it) for it in ("cmake", "pkg-config", "cc", "c++")):
        check_page(tally, "docs/C.md", settings)
    else:
        print("cmake, pkg-config, cc or c++ is missing: docs/C.md is left out")


def check_documentation(tally, room):
    """The manual page has no fault of roff, and doxygen warns of nothing."""
    if shutil.which("groff"):
        output = tally.run("sci(3)", ["groff", "-man", "-Tutf8", "-ww", "-z", f"{room}/share/man/man3/sci.3"])
        tally.count("words of groff", output)
    else:
        print("groff is missing: the manual page is left out")
    if shutil.which("doxygen"):
        output = tally.run("doxygen", ["doxygen", "library/Doxyfile"], cwd=TOP)
        tally.count("words of doxygen", output)
    else:
        print("doxygen is missing: the pages of the header are left out")


def main():
    tally = Tally()
    if not is_built():
        print("the C library isn't built: what stands on it is left out")
        return tally.end()
    with tempfile.TemporaryDirectory(prefix="bindings-") as room:
        settings = install(room)
        check_python(tally, settings)
        check_rust(tally, settings)
        check_c(tally, settings)
        check_documentation(tally, room)
    return tally.end()


if __name__ == "__main__":
    sys.exit(main())
