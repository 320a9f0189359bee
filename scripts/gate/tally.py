"""Counts what passed and what failed."""

import subprocess


class Tally:
    def __init__(self):
        self.passed = self.failed = 0

    def count(self, what, wrong):
        """Counts a check, which passed if nothing is wrong."""
        if wrong:
            self.failed += 1
            print(f"{what} FAILED: {wrong}", flush=True)
        else:
            self.passed += 1

    def run(self, what, words, **how):
        """Runs a program, which has to end well. Its output."""
        ran = subprocess.run(words, stdout=subprocess.PIPE, stderr=subprocess.STDOUT, text=True, **how)
        self.count(what, ran.returncode and f"status {ran.returncode}: {ran.stdout[-600:]}")
        return ran.stdout

    def end(self):
        """Prints the last line of a check, and gives its status."""
        print(f"{self.passed} passed, {self.failed} failed")
        return 1 if self.failed else 0
