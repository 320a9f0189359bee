"""The version of the project. `VERSION` of crates/sciview/src/help.rt is the one place that has it; the others have to agree."""

import os
import re

TOP = os.path.dirname(os.path.dirname(os.path.dirname(os.path.abspath(__file__))))
# Where the version stands once more, and how.
OTHERS = {
    "CHANGELOG.md": r"^## \[(\d[^\]]*)\]",
    "docs/scimem.1": r'^\.TH .* "Lichenknit (\S+)"',
    "docs/sciview.1": r'^\.TH .* "Lichenknit (\S+)"',
    "bench/Cargo.toml": r'^version = "(.*)"',
    "python/lichenknit/__init__.py": r'^__version__ = "(.*)"',
    "python/pyproject.toml": r'^version = "(.*)"',
    "bindings/rust/Cargo.toml": r'^version = "(.*)"',
    "cases/sciview-words.txt": r"^sciview (\d\S*)",
}
# The header of the C library has the first two numbers.
HEADER = "include/lichenknit.h"


def found(path, pattern):
    """What the first match of a pattern in a file has in its group, or None."""
    with open(f"{TOP}/{path}", encoding="utf-8") as file:
        match = re.search(pattern, file.read(), re.MULTILINE)
    return match and match[1]


def version():
    return found("crates/sciview/src/help.rt", r'VERSION: &str = "sciview (\S+)\\n"')


def wrong_versions():
    """The files with another version, or without one."""
    for path, pattern in OTHERS.items():
        if found(path, pattern) != version():
            yield f"{path} has {found(path, pattern)}, and not {version()}"
    numbers = ".".join(str(found(HEADER, rf"^#define SCI_VERSION_{part} (\d+)")) for part in ("MAJOR", "MINOR"))
    if not version().startswith(f"{numbers}."):
        yield f"{HEADER} has {numbers}, and not the first two numbers of {version()}"
