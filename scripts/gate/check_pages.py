#!/usr/bin/env python3
"""Checks the pages of the repository, without building anything:

- each link to a file or to a heading leads to one;
- each name that a page about code has between backticks stands in the sources, and each file that it names is there. In the
  README of a crate, and below a heading that names crates, a file is in these crates or in those that the paragraph names, and
  a name is in these or in those that they stand on;
- each run of lines of code in a page stands in the sources, one line after another, whatever the indentation; a line `..`
  stands for lines that are left out;
- each crate has a README of at most 60 lines;
- no line of a definition or a proof is longer than 160 columns;
- each edit and each plant can be applied: what it replaces stands once in its file;
- the version is the same everywhere (version.py);
- the tables of docs/PROTOCOL.md have the pairs of a state and what it meets that the code has (protocol_pairs.py);
- no pair of which docs/COMMANDS.md says that it never comes can come in a machine of three nodes (reachable_pairs.py).

The last line is 'N passed, M failed', of pages."""

import os
import re
import sys
from fnmatch import fnmatch

from crates import TOP, libraries, with_all_below
from plants import plants_of, plants_of_gate, texts_with
from protocol_pairs import wrong_pairs
from reachable_pairs import wrong_reasons
from version import wrong_versions

MOST_LINES = 60
MOST_COLUMNS = 160
BUILT = {".git", "out", "target", "__pycache__"}
# The pages about code, beside those of crates, and names in them that aren't of this code but of the standard library.
ABOUT_CODE = {"docs/PROOFS.md", "docs/DECISIONS.md", "docs/EMBEDDING.md"}
OTHER = {"Mutex", "Read", "Write", "for_each_mut"}
# Where the code of a page stands, by the language of its block.
CODE = {"rust": (".rt", ".rs"), "c": (".c",), "cpp": (".cpp",), "python": (".py",), "systemverilog": (".sv",), "cmake": ("CMakeLists.txt",)}


def files_of_repository():
    """All files but those that were built, as paths from the top."""
    for folder, below, names in os.walk(TOP):
        below[:] = sorted(it for it in below if it not in BUILT)
        yield from sorted(os.path.relpath(f"{folder}/{it}", TOP) for it in names)


def read(path):
    with open(f"{TOP}/{path}", encoding="utf-8") as file:
        return file.read()


def anchors(path):
    """The anchors of a page's headings."""
    titles = re.findall(r"^#+ (.+)$", read(path), re.MULTILINE)
    return {re.sub(r"[^\w -]", "", it.lower()).replace(" ", "-") for it in titles}


def wrong_links(path):
    text = re.sub(r"^```.*?^```", "", read(path), flags=re.MULTILINE | re.DOTALL)
    for link in re.findall(r"\]\(([^)\s]+)\)", text):
        if re.match(r"[a-z]+:", link):
            continue
        name, _, anchor = link.partition("#")
        target = os.path.normpath(os.path.join(os.path.dirname(path), name)) if name else path
        if not os.path.exists(f"{TOP}/{target}"):
            yield f"no such file: {link}"
        elif anchor and anchor not in anchors(target):
            yield f"no such heading: {link}"


def code_of(files):
    """All lines of code of each language, without indentation and without empty ones."""
    for language, ends in CODE.items():
        lines = [it.strip() for path in files if path.endswith(ends) for it in read(path).splitlines()]
        yield language, "\n" + "\n".join(it for it in lines if it) + "\n"


def wrong_code(path, code):
    """Lines of code in a page that stand nowhere in the sources."""
    for language, block in re.findall(r"^```(\w+)\n(.*?)^```", read(path), re.MULTILINE | re.DOTALL):
        for part in re.split(r"^\s*\.\.\n", block, flags=re.MULTILINE) if language in code else []:
            lines = [it.strip() for it in part.splitlines() if it.strip()]
            if "\n" + "\n".join(lines) + "\n" not in code[language]:
                yield f"no such code: {lines[0]}"


class Sources:
    """The names and the files of each crate, of those that it stands on, and of the rest of the repository."""

    def __init__(self, files):
        self.uses = libraries()
        self.files = {crate: [it for it in files if it.startswith(f"crates/{crate}/")] for crate in self.uses}
        self.files[""] = [it for it in files if not it.startswith("crates/")]
        self.words = {crate: self.words_of(of) for crate, of in self.files.items()}

    @staticmethod
    def words_of(files):
        code = [read(it) for it in files if it.endswith((".rt", ".antt")) or it == "crates.txt"]
        return set(re.findall(r"\w+", " ".join([*code, *files])))

    def words_below(self, crates):
        """The names of these crates, of all that they stand on, and of the rest; of all if there are none."""
        below = with_all_below(crates or self.uses, self.uses)
        return set().union(OTHER, *(self.words[it] for it in [*below, ""]))


def paragraphs(path):
    """Each paragraph of a page about code, with the crates to which its section belongs."""
    text = re.sub(r"^```.*?^```", "", read(path), flags=re.MULTILINE | re.DOTALL)
    own = re.findall(r"^crates/(\w+)/", path)
    of_section = own
    for part in re.split(r"\n\s*\n|\n(?=[#|-])", text):
        if part.startswith("## "):
            of_section = own or re.findall(r"`(sci\w+)`", part)
        yield part, [*of_section, *(re.findall(r"\b(sci\w+)\b", part) if of_section else [])]


def wrong_names(path, sources):
    """Names of the code, and of files, that don't stand where their paragraph says."""
    for text, crates in paragraphs(path):
        files = [it for crate in [*(crates or sources.uses), ""] for it in sources.files.get(crate, [])]
        words = sources.words_below(crates)
        for quoted in sorted(set(re.findall(r"`([^`]+)`", text))):
            if re.search(r"\.(antt|rt|py|txt)$", quoted):
                if not any(fnmatch(it, quoted) or fnmatch(it, "*/" + quoted) for it in files):
                    yield f"no such file: {quoted}"
                continue
            if quoted.startswith(("rt ", "make ")):
                continue
            for name in re.findall(r"[A-Za-z]\w*", quoted):
                is_front = quoted.endswith((name + "..", name + "*")) and any(it.startswith(name) for it in words)
                if not is_front and name not in words:
                    yield f"no such name: {quoted}"
                    break


def wide_lines(path):
    """Lines of a file that are too long."""
    for number, line in enumerate(read(path).splitlines(), 1):
        if len(line) > MOST_COLUMNS:
            yield f"line {number} has {len(line)} columns"


def wrong_plants():
    """Why plants can't be put in, and names in plants/GATE that no plant has."""
    known = plants_of([])
    for crate, names in known.items():
        for name in names:
            try:
                texts_with(crate, [name])
            except (OSError, ValueError) as error:
                yield f"{crate}/{name}: {error}"
    yield from (f"GATE names no plant: {crate}/{it}" for crate, names in plants_of_gate().items() for it in names if it not in known[crate])


def main():
    files = list(files_of_repository())
    code, crates = dict(code_of(files)), Sources(files)
    wrong = {"version": list(wrong_versions()), "pairs": [*wrong_pairs(), *wrong_reasons()]}
    wrong["width"] = [f"{path}: {it}" for path in files if path.endswith(".antt") for it in wide_lines(path)]
    wrong["plants"] = list(wrong_plants())
    for path in (it for it in files if it.endswith(".md")):
        wrong[path] = [*wrong_links(path), *wrong_code(path, code)]
        if path.startswith("crates/") or path in ABOUT_CODE:
            wrong[path] += wrong_names(path, crates)
        if path.startswith("crates/") and read(path).count("\n") > MOST_LINES:
            wrong[path].append(f"more than {MOST_LINES} lines")
    for crate in sorted({it.split("/")[1] for it in files if re.match(r"crates/\w+/src/", it)}):
        wrong.setdefault(f"crates/{crate}/README.md", ["no such page"])
    failed = sum(bool(it) for it in wrong.values())
    for path, found in wrong.items():
        for it in found:
            print(f"{path}: {it}", flush=True)
    print(f"{len(wrong) - failed} passed, {failed} failed")
    return 1 if failed else 0


sys.exit(main())
