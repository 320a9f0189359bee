#!/usr/bin/env python3
"""Makes out/dist/lichenknit-VERSION-x86_64-linux.tar.gz: both programs and the C library, proved and built for every x86-64
processor over the libraries that make test or make check left in crates/*/out/rlib, with the header, what pkg-config and CMake read, the manual pages, completion for bash, the examples, README, CHANGELOG,
the licence and SHA-256 sums. The same files are packed into the same bytes. Then the archive is unpacked, and the first examples of README
run in it without a kit on the PATH."""

import gzip
import hashlib
import io
import os
import shutil
import subprocess
import sys
import tarfile
import tempfile

TOP = os.path.dirname(os.path.dirname(os.path.dirname(os.path.abspath(__file__))))
sys.path.append(f"{TOP}/scripts/gate")

import library  # noqa: E402
from build_library import build_library, build_program  # noqa: E402
from run_examples import examples, is_printed  # noqa: E402
from version import version  # noqa: E402

DIST = f"{TOP}/out/dist"
NAME = f"lichenknit-{version()}-x86_64-linux"
TREE = f"{DIST}/{NAME}"
PROGRAMS = ("scimem", "sciview")
# 1 January 2026, for every file: its own time would make other bytes of the same sources.
TIME = 1767225600
INSTALL = f"""Lichenknit {version()} for x86-64 Linux.

bin, lib, include and share have what stands below /usr/local once it is installed:

    sudo cp -r bin lib include share /usr/local

Nothing else is needed. `sha256sum -c SHA256SUMS` checks the files, and README.md says what they are for; the pages that it links
to are in the repository.
"""


def built(name):
    """Proves and builds a program or the C library for every processor of the target, and gives the file."""
    made = f"{DIST}/built/{name}"
    flags = ("--cpu", "x86-64")
    refused = build_library(made, *flags) if name == "sci_c" else build_program(name, made, *flags)
    if refused:
        sys.exit(f"{name} isn't built: run make test or make check first, which build the libraries that it stands on")
    return made


def put(path, data, mode=0o644):
    os.makedirs(os.path.dirname(f"{TREE}/{path}"), exist_ok=True)
    with open(f"{TREE}/{path}", "wb") as file:
        file.write(data)
    os.chmod(f"{TREE}/{path}", mode)


def put_file(path, source, mode=0o644):
    with open(source if os.path.isabs(source) else f"{TOP}/{source}", "rb") as file:
        put(path, file.read(), mode)


def put_programs():
    for name in PROGRAMS:
        put_file(f"bin/{name}", built(name), 0o755)
        put_file(f"share/man/man1/{name}.1", f"docs/{name}.1")
        put_file(f"share/bash-completion/completions/{name}", "scripts/make/completion.bash")
    put("share/man/man5/scimem.5", subprocess.run([f"{TOP}/scripts/make/manual_page.py"], stdout=subprocess.PIPE, check=True).stdout)


def put_library():
    major = library.version()[0]
    library.PROVED, library.OUT, os.environ["PREFIX"] = built("sci_c"), f"{DIST}/library", "${pcfiledir}/../.."
    library.build(library.compiler())
    put_file("lib/liblichenknit.a", f"{library.OUT}/liblichenknit.a")
    put_file(f"lib/liblichenknit.so.{major}", f"{library.OUT}/liblichenknit.so.{major}", 0o755)
    os.symlink(f"liblichenknit.so.{major}", f"{TREE}/lib/liblichenknit.so")
    put_file("lib/pkgconfig/lichenknit.pc", f"{library.OUT}/lichenknit.pc")
    put_file("lib/cmake/lichenknit/lichenknit-config.cmake", "library/lichenknit-config.cmake")
    put_file("lib/cmake/lichenknit/lichenknit-config-version.cmake", f"{library.OUT}/lichenknit-config-version.cmake")
    put_file("include/lichenknit.h", "include/lichenknit.h")
    put("share/man/man3/sci.3", subprocess.run([f"{TOP}/scripts/make/library_page.py"], stdout=subprocess.PIPE, check=True).stdout)
    put("share/man/man3/lichenknit.3", b".so man3/sci.3\n")


def put_texts():
    for name in ("README.md", "CHANGELOG.md", "LICENSE"):
        put_file(name, name)
    put("INSTALL", INSTALL.encode())
    for name in sorted(os.listdir(f"{TOP}/examples")):
        if name.endswith((".script", ".schedule", ".log", ".trace")):
            put_file(f"examples/{name}", f"examples/{name}")


def files():
    """The files of the tree, by name."""
    return sorted(os.path.relpath(os.path.join(folder, name), TREE) for folder, _, names in os.walk(TREE) for name in names)


def put_sums():
    sums = []
    for name in files():
        if not os.path.islink(f"{TREE}/{name}"):
            with open(f"{TREE}/{name}", "rb") as file:
                sums.append(f"{hashlib.sha256(file.read()).hexdigest()}  {name}\n")
    put("SHA256SUMS", "".join(sums).encode())


def packed():
    """The bytes of the archive, the same for the same files."""
    bytes_of = io.BytesIO()
    with tarfile.open(fileobj=bytes_of, mode="w", format=tarfile.USTAR_FORMAT) as archive:
        for name in files():
            entry = archive.gettarinfo(f"{TREE}/{name}", f"{NAME}/{name}")
            entry.uid = entry.gid = 0
            entry.uname = entry.gname = "root"
            entry.mtime = TIME
            with open(f"{TREE}/{name}", "rb") as file:
                archive.addfile(entry, None if entry.issym() else file)
    return gzip.compress(bytes_of.getvalue(), mtime=0)


def tried(path):
    """Unpacks the archive, and runs the examples of README in it. Answers what goes wrong, if anything does."""
    with tempfile.TemporaryDirectory(prefix="dist-") as room:
        with tarfile.open(path) as archive:
            archive.extractall(room)
        here = f"{room}/{NAME}"
        settings = {"PATH": f"{here}/bin:/usr/bin:/bin", "HOME": room}
        sums = subprocess.run(["sha256sum", "--quiet", "-c", "SHA256SUMS"], cwd=here, capture_output=True, text=True)
        if sums.returncode != 0:
            return sums.stdout
        for number, command, wanted in examples(f"{TOP}/README.md"):
            how = {"stdout": subprocess.PIPE, "stderr": subprocess.STDOUT, "cwd": here, "env": settings, "timeout": 60}
            printed = subprocess.run(["bash", "-c", command], **how).stdout.decode(errors="replace").splitlines()
            if not is_printed(wanted, printed):
                return f"README.md:{number}: {command}\n" + "\n".join(printed)
    return None


def main():
    shutil.rmtree(DIST, ignore_errors=True)
    put_programs()
    put_library()
    put_texts()
    put_sums()
    path = f"{DIST}/{NAME}.tar.gz"
    with open(path, "wb") as file:
        file.write(packed())
    wrong = tried(path)
    if wrong:
        print(wrong)
        return 1
    with open(path, "rb") as file:
        print(f"{hashlib.sha256(file.read()).hexdigest()}  {os.path.relpath(path, TOP)}")
    return 0


if __name__ == "__main__":
    sys.exit(main())
