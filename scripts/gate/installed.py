"""The C library as make install-library puts it in place, for what is built against it."""

import os
import re
import subprocess
import sys

TOP = os.path.dirname(os.path.dirname(os.path.dirname(os.path.abspath(__file__))))


def is_built():
    """Whether there is a C library. check_library.py says why not."""
    return os.path.exists(f"{TOP}/out/library/liblichenknit.so")


def install(room):
    """Installs the library into a folder, and gives the settings by which compilers, pkg-config, CMake, cargo and Python find it there."""
    words = ["make", "-s", "-o", "library", "install-library", f"PREFIX={room}", "DESTDIR="]
    subprocess.run(words, cwd=TOP, check=True, stdout=subprocess.DEVNULL)
    paths = {"PKG_CONFIG_PATH": "lib/pkgconfig", "LD_LIBRARY_PATH": "lib", "CMAKE_PREFIX_PATH": ""}
    return {**os.environ, **{name: f"{room}/{path}" for name, path in paths.items()}, "LICHENKNIT_LIB_DIR": f"{room}/lib",
            "LICHENKNIT_LIBRARY": f"{room}/lib/liblichenknit.so", "LICHENKNIT_SCIVIEW": f"{TOP}/crates/sciview/out/sciview", "PIP_NO_INDEX": "1", "PIP_DISABLE_PIP_VERSION_CHECK": "1", "PIP_ROOT_USER_ACTION": "ignore",
            "CARGO_TARGET_DIR": f"{TOP}/out/rust", "RUSTFLAGS": "-D warnings"}


def check_page(tally, page, settings):
    """Runs the examples of a page about the library."""
    words = [sys.executable, "scripts/gate/run_examples.py", page]
    ran = subprocess.run(words, cwd=TOP, env=settings, stdout=subprocess.PIPE, stderr=subprocess.STDOUT, text=True)
    found = re.search(r"(\d+) passed, (\d+) failed\n$", ran.stdout)
    tally.count(page, (not found or int(found[2]) or not int(found[1])) and ran.stdout)
    tally.passed += int(found[1]) if found else 0
