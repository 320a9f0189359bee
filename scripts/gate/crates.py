"""The crates of the repository and what each stands on, as crates.txt says; and what rattle is told of one."""

import os
import re
import subprocess

TOP = os.path.dirname(os.path.dirname(os.path.dirname(os.path.abspath(__file__))))


def rows():
    """Each crate's row of crates.txt: its name, its kind, and the libraries that it uses."""
    with open(f"{TOP}/crates.txt", encoding="utf-8") as file:
        return re.findall(r"^(\w+)([^#:\n]*):([^#\n]*)", file.read(), re.M)


def libraries():
    """Each crate with the libraries that it uses, those of the kit too, from the lowest up."""
    return {name: used.split() for name, _, used in rows()}


def with_all_below(names, uses):
    """These crates and all of the repository's that they stand on."""
    found, new = set(), list(names)
    while new:
        name = new.pop()
        if name in uses and name not in found:
            found.add(name)
            new += uses[name]
    return found


def kit_folder():
    return os.path.dirname(subprocess.run(["rt", "doc"], stdout=subprocess.PIPE, text=True, check=True).stdout.strip())


def words_for(crate, kit):
    """What rattle is told of a crate, in the folder of its sources: its root file and kind, the libraries in crates/*/out/rlib that it
    stands on, and the logic."""
    uses = libraries()
    built = {it: f"{TOP}/crates/{it}/out/rlib/{it}.rlib" for it in with_all_below(uses[crate], uses)}
    root = "main" if os.path.exists(f"{TOP}/crates/{crate}/src/main.rt") else "lib"
    words = ["--crate-name", crate, f"src/{root}.rt", "--links", f"{crate}=", "-L", f"dependency={kit}/rlibs"]
    if any(name == crate and "staticlib" in kind for name, kind, _ in rows()):
        words += ["--crate-type", "staticlib"]
    for name in ["std", *uses[crate]]:
        words += ["--extern", f"{name}={built.get(name, f'{kit}/rlibs/{name}.rlib')}"]
    for path in sorted(built.values()):
        words += ["-L", f"dependency={os.path.dirname(path)}"]
    return [*words, "--antt-project", f"{kit}/rattle/logic/antt-project.json", "--logic-built", f"{kit}/logic_built"]
