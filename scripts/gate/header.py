"""Reads include/lichenknit.h: its functions, structs and enums."""

import os
import re

TOP = os.path.dirname(os.path.dirname(os.path.dirname(os.path.abspath(__file__))))
HEADER = f"{TOP}/include/lichenknit.h"


def read(path):
    with open(path, encoding="utf-8") as file:
        return file.read()


def header():
    """The header without comments."""
    return re.sub(r"/\*.*?\*/", "", read(HEADER), flags=re.DOTALL)


def parameters():
    """The functions of the header: what each answers, and its parameters as they stand there."""
    found = {}
    for result, name, words in re.findall(r"^(\w[\w ]*?[ *]+)(sci_\w+)\(([^)]*)\);", header(), re.MULTILINE):
        found[name] = re.sub(r"\s*\*\s*", " *", result.strip()), [it.strip() for it in words.split(",") if it.strip() not in ("void", "")]
    return found


def declared():
    """The same, with the types of the parameters alone, an array as its length."""
    return {name: (result, [re.sub(r"\s*\b\w+(\[\w+\])?$", r"\1", it) for it in words]) for name, (result, words) in parameters().items()}


def enum(name):
    """The numbers of an enum, by their names without `SCI_`."""
    return enums()[name]


def enums():
    """All enums."""
    bodies = re.findall(r"enum (sci_\w+) \{(.*?)\};", header(), re.DOTALL)
    return {name: {it: int(number, 0) for it, number in re.findall(r"SCI_(\w+) = (\w+)", body)} for name, body in bodies}


def structs():
    """The fields of each struct: their names and types, an array as its type and length."""
    found = {}
    for body, name in re.findall(r"typedef struct sci_\w+ \{(.*?)\} (sci_\w+);", header(), re.DOTALL):
        fields = [it.strip().rsplit(" ", 1) for it in body.split(";") if it.strip()]
        found[name] = [field_of(kind, field) for kind, field in fields]
    return found


def field_of(kind, name):
    """The name of a field, and its type with what C writes beside the name."""
    if name.startswith("*"):
        return name[1:], f"{kind} *"
    name, _, length = name.partition("[")
    return name, f"{kind}[{number_of(length[:-1])}]" if length else kind


def number_of(word):
    """The number that a word of the header stands for."""
    return int(word) if word.isdigit() else next(it[word.removeprefix("SCI_")] for it in enums().values() if word.removeprefix("SCI_") in it)
