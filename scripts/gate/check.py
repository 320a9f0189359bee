#!/usr/bin/env python3
"""Proves each crate that changed since it was last proved here, or that stands on one that did: check.py [CRATE ..] of these
crates and those below them, and without a name of all.

Crates that don't stand on one another are proved side by side, as many as there are processors and memory. rt locks the folders
of all crates that a check reads, so each is checked on a copy of these folders, and what it made is put into the crate's own
folder. A line says which crate is proved, how many are, and how long it took; what rt prints is kept in out/check, and shown if
a crate isn't proved. out/proved.json keeps a digest for each crate that was proved: of its files, of the crates that it stands
on, and of the kit."""

import hashlib
import json
import os
import re
import shutil
import subprocess
import sys
import time

from crates import TOP, libraries, with_all_below

KEPT = f"{TOP}/out/proved.json"
LOGS = f"{TOP}/out/check"
# What a check may take of memory.
BYTES = 3 << 30


def digest_of(name, below):
    """A digest of what a proof of the crate reads: its files, and the digests of what is below it."""
    digest = hashlib.sha256(" ".join(below).encode())
    for folder, folders, files in os.walk(f"{TOP}/crates/{name}"):
        folders[:] = sorted(set(folders) - {"out"})
        for file in sorted(set(files) - {"README.md"}):
            path = os.path.join(folder, file)
            with open(path, "rb") as read:
                digest.update(os.path.relpath(path, TOP).encode() + b"\0" + read.read() + b"\0")
    return digest.hexdigest()


def kept():
    """The digests of the last check; empty if there was none."""
    try:
        with open(KEPT, encoding="utf-8") as file:
            return json.load(file)
    except (OSError, ValueError):
        return {}


def keep(digests):
    os.makedirs(os.path.dirname(KEPT), exist_ok=True)
    with open(KEPT, "w", encoding="utf-8") as file:
        json.dump(digests, file)


def most_at_a_time():
    """How many checks may run side by side."""
    with open("/proc/meminfo", encoding="utf-8") as file:
        memory = int(re.search(r"MemAvailable: +(\d+) kB", file.read())[1]) << 10
    return max(1, min(len(os.sched_getaffinity(0)), memory // BYTES))


def copy_for(name, uses):
    """Copies the crate and those below it into a folder of their own, with the libraries that are built of them, and gives the folder."""
    room, copied = f"{LOGS}/{name}", with_all_below([name], uses)
    shutil.rmtree(room, ignore_errors=True)
    os.makedirs(room)
    shutil.copy2(f"{TOP}/HANDLES", room)
    with open(f"{TOP}/crates.txt", encoding="utf-8") as read, open(f"{room}/crates.txt", "w", encoding="utf-8") as written:
        written.writelines(line for line in read if re.split("[ :]", line)[0] in copied)
    for it in copied:
        shutil.copytree(f"{TOP}/crates/{it}", f"{room}/crates/{it}", ignore=shutil.ignore_patterns("out"))
        made = "out" if it == name else "out/rlib"
        if os.path.isdir(f"{TOP}/crates/{it}/{made}"):
            shutil.copytree(f"{TOP}/crates/{it}/{made}", f"{room}/crates/{it}/{made}", copy_function=os.link)
    return room


def take_from(room, name):
    """Puts what the check of the crate made into the crate's own folder."""
    shutil.rmtree(f"{TOP}/crates/{name}/out", ignore_errors=True)
    os.rename(f"{room}/crates/{name}/out", f"{TOP}/crates/{name}/out")


class Checks:
    """Checks of crates, each begun once all that it stands on is proved; first those on which most others stand."""

    def __init__(self, names, uses):
        above = lambda name: sum(name in with_all_below([it], uses) for it in names)
        self.uses, self.left = uses, sorted(names, key=above, reverse=True)
        self.count, self.done, self.running = len(names), set(), {}
        self.used = {it for libraries_of in uses.values() for it in libraries_of}

    def is_ready(self, name):
        return not any(it in self.left or it in self.running for it in self.uses[name])

    def begin(self, most):
        for name in [it for it in self.left if self.is_ready(it)][: most - len(self.running)]:
            self.left.remove(name)
            words = ["rt", "lib" if name in self.used else "check"]
            with open(f"{LOGS}/{name}.log", "wb") as log:
                run = subprocess.Popen(words, cwd=f"{copy_for(name, self.uses)}/crates/{name}", stdout=log, stderr=log)
            self.running[name] = run, time.monotonic()

    def ended(self):
        """Waits for a check to end, and gives its crate and whether it is proved."""
        while True:
            for name, (run, start) in self.running.items():
                if run.poll() is not None:
                    del self.running[name]
                    if run.returncode == 0:
                        take_from(f"{LOGS}/{name}", name)
                    shutil.rmtree(f"{LOGS}/{name}")
                    return name, run.returncode == 0, (time.monotonic() - start) / 60
            time.sleep(0.2)


def show(name):
    """Shows what rt said of a crate that isn't proved."""
    with open(f"{LOGS}/{name}.log", encoding="utf-8", errors="replace") as log:
        print(log.read())
    print(f"{name} isn't proved", flush=True)


def main(names):
    uses = libraries()
    kit = subprocess.run(["rt", "version"], capture_output=True, check=True, text=True).stdout
    wanted = with_all_below(names or uses, uses)
    proved, now = kept(), {}
    for name, libraries_of in uses.items():
        now[name] = digest_of(name, [kit, *(now.get(it, it) for it in libraries_of)])
    checks, failed = Checks([it for it in uses if it in wanted and proved.get(it) != now[it]], uses), False
    os.makedirs(LOGS, exist_ok=True)
    while checks.running or (checks.left and not failed):
        if not failed:
            checks.begin(most_at_a_time())
        name, passed, minutes = checks.ended()
        if passed:
            checks.done.add(name)
            keep(proved := {**proved, name: now[name]})
            print(f"proved {name} ({len(checks.done)} of {checks.count}), {minutes:.1f} min", flush=True)
        else:
            failed = True
            show(name)
    return 1 if failed else 0


if __name__ == "__main__":
    sys.exit(main(sys.argv[1:]))
