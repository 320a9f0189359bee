#!/usr/bin/env python3
"""Makes the archive of make dist here, and once more in a copy of this checkout in another folder, and compares the two, byte by byte.
The copy has the files that git knows and the libraries in crates/*/out/rlib; all else is built in it anew. If the archives differ, the
files that do are named."""

import glob
import os
import shutil
import subprocess
import sys
import tempfile

import dist


def copied(room):
    """A copy of this checkout in a folder."""
    known = subprocess.run(["git", "ls-files", "-z"], cwd=dist.TOP, stdout=subprocess.PIPE, check=True).stdout.decode()
    built = [os.path.relpath(it, dist.TOP) for it in glob.glob(f"{dist.TOP}/crates/*/out/rlib")]
    for name in filter(None, known.split("\0")):
        os.makedirs(os.path.dirname(f"{room}/{name}"), exist_ok=True)
        shutil.copy2(f"{dist.TOP}/{name}", f"{room}/{name}", follow_symlinks=False)
    for name in built:
        shutil.copytree(f"{dist.TOP}/{name}", f"{room}/{name}", symlinks=True)


def made(top):
    """The bytes of the archive that is made in a checkout, and the sums of its files."""
    if subprocess.run([f"{top}/scripts/make/dist.py"]).returncode != 0:
        sys.exit(f"make dist failed in {top}")
    with open(f"{top}/out/dist/{dist.NAME}.tar.gz", "rb") as archive, open(f"{top}/out/dist/{dist.NAME}/SHA256SUMS", encoding="utf-8") as sums:
        return archive.read(), sums.read().splitlines()


def main():
    here, sums = made(dist.TOP)
    with tempfile.TemporaryDirectory(prefix="dist-twice-") as room:
        copied(room)
        there, others = made(room)
    for line in sorted(set(sums) ^ set(others)):
        print(f"differs: {line.split()[1]}")
    print("the same bytes twice" if here == there else "the two archives differ")
    return 0 if here == there else 1


if __name__ == "__main__":
    sys.exit(main())
