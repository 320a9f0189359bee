#!/usr/bin/env python3
"""Runs the examples of README.md, docs/ and examples/, and checks whether they print what the page says:

    run_examples.py [PAGE..]

Without pages it runs those of all but the pages about the C library, which check_bindings.py and check_cosim.py run.

An example is a block of lines that are indented by four spaces and begin with `$ COMMAND`; what the command prints stands
behind it, up to the next `$`. A page's commands run one after another in a folder of their own, which has
copies of examples/, python/ and bindings/; those of a page of examples/ run in the first. The built programs are on the PATH.
What `scimem threads` prints differs from run to run, so it isn't compared, nor is what follows a `..`. The last line is 'N passed, M failed', of commands.
"""

import os
import shutil
import subprocess
import sys
import tempfile

TOP = os.path.dirname(os.path.dirname(os.path.dirname(os.path.abspath(__file__))))
PROGRAMS = ("scimem", "sciview")
# The pages whose examples need the C library.
OF_LIBRARY = ("C.md", "PYTHON.md", "RUST.md", "SYSTEMC.md", "SYSTEMVERILOG.md")
INDENT = "    "


def pages():
    """The pages with examples."""
    folders = [f"{TOP}/docs", f"{TOP}/examples"]
    found = [f"{folder}/{name}" for folder in folders for name in sorted(os.listdir(folder)) if name.endswith(".md") and name not in OF_LIBRARY]
    return [f"{TOP}/README.md", *found]


def examples(path):
    """The examples of a page: the number of the line, the command, and the lines that it prints."""
    found = []
    with open(path) as file:
        for number, line in enumerate(file, 1):
            line = line.rstrip("\n")
            if line.startswith(f"{INDENT}$ "):
                found.append((number, line[len(INDENT) + 2 :], []))
            elif found and line.startswith(INDENT) and number == found[-1][0] + len(found[-1][2]) + 1:
                found[-1][2].append(line[len(INDENT) :])
    return found


def is_printed(wanted, printed):
    """Whether this was printed: `..` stands for the rest of a line, and, on a line of its own, for the lines up to the end."""
    for place, line in enumerate(wanted):
        if line == "..":
            return True
        if place >= len(printed):
            return False
        front = line[: -len("..")] if line.endswith("..") else None
        if not (printed[place].startswith(front) if front is not None else printed[place] == line):
            return False
    return len(printed) == len(wanted)


def run_page(path):
    """Runs the examples of a page, and answers how many there are and how many failed."""
    name = os.path.relpath(path, TOP)
    path_of_programs = os.pathsep.join(f"{TOP}/crates/{it}/out" for it in PROGRAMS)
    settings = {**os.environ, "PATH": path_of_programs + os.pathsep + os.environ["PATH"]}
    found, failed = examples(path), 0
    with tempfile.TemporaryDirectory(prefix="examples-") as room:
        for below in ("examples", "python", "bindings"):
            shutil.copytree(f"{TOP}/{below}", f"{room}/{below}", ignore=shutil.ignore_patterns("target", "__pycache__"))
        folder = f"{room}/examples" if name.startswith("examples/") else room
        for number, command, wanted in found:
            how = {"stdout": subprocess.PIPE, "stderr": subprocess.STDOUT, "cwd": folder, "env": settings, "timeout": 300}
            printed = subprocess.run(["bash", "-c", command], **how).stdout.decode(errors="replace").splitlines()
            if "scimem threads" not in command and not is_printed(wanted, printed):
                failed += 1
                print(f"{name}:{number}: {command}", *printed[:20], sep="\n    ", flush=True)
    print(f"{name}: {len(found)} examples", flush=True)
    return len(found), failed


def main():
    counts = [run_page(f"{TOP}/{name}") for name in sys.argv[1:]] or [run_page(path) for path in pages()]
    run, failed = sum(it[0] for it in counts), sum(it[1] for it in counts)
    print(f"{run - failed} passed, {failed} failed")
    return 1 if failed or not run else 0


if __name__ == "__main__":
    sys.exit(main())
