"""Runs of a program in which one call fails, and what a trial found. scripts/gate/try_faults.py says more."""

import os
import resource
import subprocess
from collections import namedtuple

# What a run wrote, its exit status (below 0: a signal), and what the library told: b"" if no call was made to fail.
Ran = namedtuple("Ran", "status output errors told")

SECONDS = 60


class Trial:
    """How many calls were made to fail, or inputs given, and in which of these runs an answer was wrong."""

    def __init__(self, name):
        self.name, self.refused, self.failures = name, 0, []

    def count(self, told):
        """Counts a run in which a call failed."""
        self.refused += bool(told)

    def fail(self, what, ran):
        """Notes a wrong answer."""
        self.failures.append((what, ran))
        return self

    def tell(self):
        """Prints the first wrong answers."""
        print(f"{self.name} FAILED {len(self.failures)} times:")
        for what, ran in self.failures[:5]:
            print(f"    {what}")
            if ran:
                print(f"        status {ran.status}, output {ran.output[-200:]!r}, errors {ran.errors[-200:]!r}")


class Faults:
    """Builds the library scripts/gate/fault.c, and runs programs with it."""

    def __init__(self, top, room, pool):
        self.top, self.room, self.pool = top, room, pool
        self.library = f"{room}/fault.so"
        kit = os.path.dirname(subprocess.run(["rt", "doc"], stdout=subprocess.PIPE, check=True).stdout.decode().strip())
        tools = f"{kit}/toolchain/bin"
        words = [f"{tools}/clang", "-O1", "-Wall", "-Werror", "-fPIC", "-shared", "-nostdlib", "-fuse-ld=lld", f"-B{tools}"]
        subprocess.run([*words, "-o", self.library, f"{top}/scripts/gate/fault.c"], check=True)
        # A test that fails aborts, and is not to leave a file.
        resource.setrlimit(resource.RLIMIT_CORE, (0, 0))

    def run(self, words, given=b"", fault="", error=5, most=None, kilobytes=None):
        """Runs a program with an input, and with a call that fails, or with so much address space."""
        told, tells = os.pipe()
        try:
            settings = {"FAULT": fault, "FAULT_ERROR": str(error), "FAULT_TOLD": str(tells)}
            if most:
                settings["FAULT_BYTES"] = str(most)
            if kilobytes:
                words = ["bash", "-c", 'ulimit -v "$0"; exec "$@"', str(kilobytes), *words]
            elif fault or most:
                settings["LD_PRELOAD"] = self.library
            how = {"env": {**os.environ, **settings}, "cwd": self.room, "pass_fds": [tells], "timeout": SECONDS}
            ran = subprocess.run(words, input=given, stdout=subprocess.PIPE, stderr=subprocess.PIPE, **how)
            os.set_blocking(told, False)
            try:
                heard = os.read(told, 100)
            except BlockingIOError:
                heard = b""
            return Ran(ran.returncode, ran.stdout, ran.stderr, heard)
        except subprocess.TimeoutExpired:
            return Ran(None, b"", b"it did not end", b"")
        finally:
            os.close(told)
            os.close(tells)
