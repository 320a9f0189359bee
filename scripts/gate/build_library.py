#!/usr/bin/env python3
"""Builds crates/sci_c/out/libsci_c.a over the libraries that rt ci has proved and built. rt lib would prove those again."""

import os
import subprocess
import sys

from crates import TOP, kit_folder, words_for

CRATE = "sci_c"


def build(crate, flags, made):
    """Proves and compiles a crate over the libraries in crates/*/out/rlib, into this file."""
    kit = kit_folder()
    words = [*words_for(crate, kit), *flags, "--toolchain", f"{kit}/toolchain", "--backend", "llvm", "--jobs", "2", "-o", made]
    os.makedirs(os.path.dirname(made), exist_ok=True)
    return subprocess.run([f"{kit}/bin/rattle", "build", *words], cwd=f"{TOP}/crates/{crate}").returncode


def build_program(name, made, *flags):
    """Builds a program, as rt does."""
    refused = build(name, flags, f"{made}.o")
    if refused:
        return refused
    kit = kit_folder()
    words = ["--target", "x86_64-unknown-linux-gnu", "--toolchain", f"{kit}/toolchain", "-o", made, f"{made}.o"]
    return subprocess.run([f"{kit}/bin/rattle-link", *words, f"{kit}/c/libos_c.a", f"{kit}/c/liblibc_c.a"]).returncode


def build_library(made, *flags):
    """Builds the C library's proved part."""
    return build(CRATE, flags, made)


if __name__ == "__main__":
    sys.exit(build_library(f"{TOP}/crates/{CRATE}/out/lib{CRATE}.a"))
