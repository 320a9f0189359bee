#!/usr/bin/env python3
"""Builds the C library of crates/sci_c/out/libsci_c.a and library/: liblichenknit.a, liblichenknit.so, and what pkg-config and CMake read, in
out/library. It takes a C compiler, which is $CC, or cc, or the kit's clang, and ar, ld and objcopy."""

import os
import re
import shutil
import subprocess
import sys

TOP = os.path.dirname(os.path.dirname(os.path.dirname(os.path.abspath(__file__))))
OUT = f"{TOP}/out/library"
# The proved part.
PROVED = f"{TOP}/crates/sci_c/out/libsci_c.a"


def works(name):
    """Whether this is a C compiler that has the headers of the C library."""
    program = b"#include <stdint.h>\n#include <stdlib.h>\n"
    how = {"input": program, "stdout": subprocess.DEVNULL, "stderr": subprocess.DEVNULL}
    return subprocess.run([name, "-fsyntax-only", "-x", "c", "-"], **how).returncode == 0


def compiler():
    """The C compiler, or None."""
    kit = shutil.which("rt") and os.path.join(os.path.dirname(os.path.realpath(shutil.which("rt"))), "clang")
    for name in (os.environ.get("CC"), "cc", kit):
        if name and shutil.which(name) and works(name):
            return name
    return None


def lacking():
    """What is missing of binutils."""
    return [it for it in ("ar", "ld", "objcopy") if not shutil.which(it)]


def version():
    """The numbers of the version, as the header has them."""
    with open(f"{TOP}/include/lichenknit.h", encoding="utf-8") as file:
        text = file.read()
    return [re.search(rf"#define SCI_VERSION_{part} (\d+)", text)[1] for part in ("MAJOR", "MINOR")]


def run(*words):
    subprocess.run(words, check=True, cwd=OUT)


def build_archive(cc):
    """One object with the proved part and support.c. No other name than sci_* is seen outside it."""
    run(cc, "-std=c11", "-O2", "-g", "-fno-eliminate-unused-debug-types", f"-ffile-prefix-map={TOP}=.", "-fPIC", "-Wall", "-Wextra", "-Werror",
        f"-I{TOP}/include", "-c", f"{TOP}/library/support.c", "-o", "support.o")
    run("ld", "-r", "-o", "lichenknit.o", "--whole-archive", PROVED, "--no-whole-archive", "support.o")
    run("objcopy", "--wildcard", "--keep-global-symbol=sci_*", "lichenknit.o")
    if os.path.exists(f"{OUT}/liblichenknit.a"):
        os.remove(f"{OUT}/liblichenknit.a")
    run("ar", "rcs", "liblichenknit.a", "lichenknit.o")


def build_shared(cc, major):
    name = f"liblichenknit.so.{major}"
    run(cc, "-shared", "-o", name, f"-Wl,-soname,{name}", f"-Wl,--version-script={TOP}/library/lichenknit.map", "-Wl,-z,defs,-z,relro,-z,now",
        "-Wl,--whole-archive", "liblichenknit.a", "-Wl,--no-whole-archive")
    if os.path.lexists(f"{OUT}/liblichenknit.so"):
        os.remove(f"{OUT}/liblichenknit.so")
    os.symlink(name, f"{OUT}/liblichenknit.so")


def fill_in(name, **values):
    """Writes a file of library/ with what stands between @ in it."""
    with open(f"{TOP}/library/{name}.in", encoding="utf-8") as file:
        text = file.read()
    for key, value in values.items():
        text = text.replace(f"@{key}@", value)
    with open(f"{OUT}/{name}", "w", encoding="utf-8") as file:
        file.write(text)


def build(cc):
    major, minor = version()
    os.makedirs(OUT, exist_ok=True)
    build_archive(cc)
    build_shared(cc, major)
    fill_in("lichenknit.pc", PREFIX=os.environ.get("PREFIX", "/usr/local"), VERSION=f"{major}.{minor}")
    fill_in("lichenknit-config-version.cmake", VERSION=f"{major}.{minor}")


def main():
    cc = compiler()
    if cc is None:
        print("there is no C compiler with the headers of the C library: install one, or set CC")
        return 1
    if lacking():
        print(f"{' and '.join(lacking())} of binutils is missing: install it")
        return 1
    build(cc)
    return 0


if __name__ == "__main__":
    sys.exit(main())
