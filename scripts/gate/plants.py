"""The plants: wrong bodies that the prover must refuse.

A plant is a file plants/CRATE/NAME.edit, with lines 'file: PATH', a file of the crate, and pairs of lines 'old: TEXT' and 'new: TEXT'.
Each old text stands once in the file, as the pairs before it left it. plants/GATE lists those that the gate tries, as CRATE/NAME."""

import contextlib
import os
import re

from crates import TOP


def read(path):
    with open(path, encoding="utf-8") as file:
        return file.read()


def plants_of(crates):
    """The names of all plants of these crates, by crate; without a crate of all."""
    folders = crates or [it for it in sorted(os.listdir(f"{TOP}/plants")) if os.path.isdir(f"{TOP}/plants/{it}")]
    return {it: sorted(name.removesuffix(".edit") for name in os.listdir(f"{TOP}/plants/{it}")) for it in folders}


def plants_of_gate():
    """The names of the plants that the gate tries, by crate."""
    found = {}
    for it in read(f"{TOP}/plants/GATE").split():
        crate, name = it.split("/")
        found.setdefault(crate, []).append(name)
    return found


def changes(crate, plant):
    """The changes that a plant makes: the file of each, the old text and the new one."""
    path = old = None
    for line in read(f"{TOP}/plants/{crate}/{plant}.edit").splitlines():
        word, _, rest = line.partition(":")
        rest = rest.removeprefix(" ")
        if word == "file":
            path = rest.strip()
        elif word == "old":
            old = rest
        elif word == "new":
            yield path, old, rest


def texts_with(crate, plants):
    """The texts of the files that these plants change, by their paths. ValueError if they can't be put in."""
    texts = {}
    for plant in plants:
        for path, old, new in changes(crate, plant):
            text = texts.get(path) or read(f"{TOP}/crates/{crate}/{path}")
            if text.count(old) != 1:
                raise ValueError(f"{crate}/{plant}: stands {text.count(old)} times: {old.strip()}")
            texts[path] = text.replace(old, new)
    return texts


def fit_together(crate, plants):
    """Whether these plants can be put in together: none takes away or repeats the old text of another."""
    try:
        return bool(texts_with(crate, plants))
    except ValueError:
        return False


@contextlib.contextmanager
def put_in(crate, plants, sources):
    """Puts plants into a copy of the crate's sources, for as long as the block runs."""
    texts = texts_with(crate, plants)
    for path, text in texts.items():
        with open(f"{sources}/{path}", "w", encoding="utf-8") as file:
            file.write(text)
    yield
    for path in texts:
        with open(f"{sources}/{path}", "w", encoding="utf-8") as file:
            file.write(read(f"{TOP}/crates/{crate}/{path}"))


def function_around(path, text, place):
    """The end of the name, as rattle spells it, of the function around a place of a source file; None if there is none. Of a method it has
    no module: rattle takes the one of the type, and not of the block."""
    module = "" if path in ("src/lib.rt", "src/main.rt") else path[len("src/") : -len(".rt")].replace("/", "::") + "::"
    name, inner = None, 0
    for line in reversed(text[: text.find("\n", place)].splitlines()):
        indent = len(line) - len(line.lstrip())
        function = re.match(r"\s*(?:pub(?:\([\w ]+\))? )?(?:extern \"C\" )?fn (\w+)", line)
        if function and not name:
            name, inner = function[1], indent
        if name and not inner:
            return module + name
        owner = re.match(r"impl(?:<.*?>)? (?:(\w+)(?:<.*>)? for )?(\w+)", line)
        if owner and name:
            return f"{owner[2]}{owner[1] or ''}::{name}"
    return None


def functions_changed(crate, plant):
    """The names of the functions whose bodies a plant changes; empty if it changes something else too."""
    found = set()
    for path, old, _ in changes(crate, plant):
        text = read(f"{TOP}/crates/{crate}/{path}")
        is_body = path.startswith("src/") and old in text and not re.search(r"\b(ensures|requires)\b", old)
        found.add(function_around(path, text, text.find(old)) if is_body else None)
    return set() if None in found else found
