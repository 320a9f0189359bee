#!/usr/bin/env python3
"""Tries plants: wrong bodies that the prover must refuse.

    try_plants.py            those of the gate, which plants/GATE lists
    try_plants.py CRATE ..   all plants of these crates
    try_plants.py --all      all plants

They are tried on copies of crates that are proved, over the libraries in crates/*/out/rlib that the check of all crates built. Plants
that change different functions are put in together, since each function is proved by itself: rattle proves these functions and
those that they call, and says of each whether it is proved. A plant that isn't refused so is tried alone, and if its own functions
are proved, with the whole crate: a caller can refuse what a function's own contract lets through. The last line is 'N passed, M
failed', of plants."""

import os
import re
import shutil
import subprocess
import sys
import tempfile
from concurrent.futures import ThreadPoolExecutor

from check import most_at_a_time
from crates import TOP, kit_folder, libraries, with_all_below, words_for
from plants import fit_together, functions_changed, plants_of, plants_of_gate, put_in

# What rattle says where a proof names what a plant took away.
NAMES = re.compile(r"has no field|is not in scope|has no `|was not admitted|is no name")
# What rattle says of a limit of its own that stops a proof, wherever it is tried.
LIMIT = re.compile(r"antt ran out of (stack|the (steps|memory))|outgrew the memory limit|stopped at the step limit")


def is_refused(verdict, said):
    """Whether rattle refuses a function by its own body, and not since it calls one that is refused."""
    return verdict.startswith(("not proved", "no proof: expected")) or verdict.startswith("could not tell") and bool(LIMIT.search(said))


def names_alone(function, verdict, said):
    """Whether a function isn't proved only since its proof names what isn't there."""
    errors = re.findall(rf"^\./proofs/{function.replace('::', '/')}/\S+: error: (.*)$", said, re.M)
    return verdict == "not proved" and bool(errors) and all(map(NAMES.search, errors))


class Plants:
    """A copy of a crate, in which its plants are tried."""

    def __init__(self, crate, names, room):
        kit = kit_folder()
        self.crate, self.sources = crate, f"{room}/{crate}"
        # Those that are refused, and of them those whose function's proof only names what they took away.
        self.refused, self.misnamed = set(), set()
        self.functions = {it: functions_changed(crate, it) for it in names}
        flags = ["--jobs", "1", "--incremental", f"{room}/kept"]
        self.words = [f"{kit}/bin/rattle", "check", *words_for(crate, kit), *flags]
        shutil.copytree(f"{TOP}/crates/{crate}", self.sources, ignore=shutil.ignore_patterns("out"))

    def check(self, functions):
        """Proves these functions, or the whole crate if there are none, and gives the status and what rattle said."""
        words = [*self.words, *(word for it in functions for word in ("--only", it))]
        ran = subprocess.run(words, cwd=self.sources, stdin=subprocess.DEVNULL, stdout=subprocess.PIPE, stderr=subprocess.STDOUT, check=False)
        return ran.returncode, ran.stdout.decode(errors="replace")

    def try_together(self, names):
        """Notes those of these plants that are refused with all of them put in. Gives what rattle said."""
        functions = sorted({it for name in names for it in self.functions[name]})
        with put_in(self.crate, names, self.sources):
            said = self.check(functions)[1]
        for name in names:
            ends = "|".join(map(re.escape, self.functions[name]))
            found = re.findall(rf"^fn {self.crate}::((?:\S+::)?(?:{ends})): (.*)$", said, re.M)
            refused = [it for it in found if is_refused(it[1], said)]
            if refused:
                self.refused.add(name)
            if refused and all(names_alone(*it, said) for it in refused):
                self.misnamed.add(name)
        return said

    def try_alone(self, name):
        """Tries a plant with its own functions, and then with the whole crate. Gives what rattle said."""
        said = self.try_together([name]) if self.functions[name] else ""
        if name not in self.refused:
            with put_in(self.crate, [name], self.sources):
                status, said = self.check([])
            if (status == 1 and said.splitlines()[-1].startswith("logic=not-proved")) or (status == 3 and LIMIT.search(said)):
                self.refused.add(name)
        return said

    def groups(self):
        """The plants in groups that change different functions; those that change something else too are in none."""
        left = [it for it in self.functions if self.functions[it]]
        while left:
            group, taken = [], set()
            for it in left:
                if taken.isdisjoint(self.functions[it]) and fit_together(self.crate, [*group, it]):
                    group.append(it)
                    taken |= self.functions[it]
            yield group
            left = [it for it in left if it not in group]

    def go(self):
        """Tries all, and gives those that aren't refused."""
        for group in self.groups():
            if len(group) > 1:
                self.try_together(group)
        for name in self.functions:
            said = "" if name in self.refused else self.try_alone(name)
            so = "refused, as it must be" if name in self.refused else f"NOT REFUSED: {said[-2000:]}"
            print(f"{self.crate}/{name}: {so}{' (a proof names what it takes away)' if name in self.misnamed else ''}", flush=True)
        return len(self.functions.keys() - self.refused)


def try_plants(crate, names):
    """Tries these plants of a crate, and says how many aren't refused."""
    with tempfile.TemporaryDirectory(prefix="plants-") as room:
        return Plants(crate, names, room).go()


def missing(crates):
    """What is missing to try plants of these crates, or None."""
    uses = libraries()
    for it in crates:
        if not os.path.isdir(f"{TOP}/plants/{it}"):
            return f"there are no plants of {it}"
    for it in sorted(with_all_below([below for crate in crates for below in uses[crate]], uses)):
        if not os.path.isdir(f"{TOP}/crates/{it}/out/rlib/{it}.rlib"):
            return f"the library {it} isn't built: make check builds it"
    return None


def main(words):
    crates = [it for it in words if it != "--all"]
    why = missing(crates or list(plants_of([])))
    if why:
        print(why)
        return 2
    wanted = plants_of(crates) if words else plants_of_gate()
    with ThreadPoolExecutor(most_at_a_time()) as pool:
        failed = sum(pool.map(try_plants, *zip(*sorted(wanted.items(), key=lambda it: -len(it[1])))))
    print(f"{sum(map(len, wanted.values())) - failed} passed, {failed} failed")
    return 1 if failed else 0


if __name__ == "__main__":
    sys.exit(main(sys.argv[1:]))
