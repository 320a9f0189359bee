#!/usr/bin/env python3
"""Compares include/lichenknit.h with those who declare it once more: the structs, functions and enums of python/lichenknit, of
bindings/rust/lichenknit-sys and of examples/systemverilog, and the enums of bindings/rust/lichenknit. What is missing there, too much,
or different is a failure. Nothing is built. The last line is 'N passed, M failed'."""

import ctypes
import importlib
import re
import sys

from header import TOP, enums, number_of, parameters, read, structs
from tally import Tally

sys.path.insert(0, f"{TOP}/python")
sys.dont_write_bytecode = True
OBJECTS = ("sci_machine", "sci_node", "sci_logs", "sci_scoreboard")


def compare(tally, where, of_header, found):
    """Two tables that have to be the same."""
    for name in sorted({*of_header, *found}):
        wanted, there = of_header.get(name), found.get(name)
        tally.count(f"{name} of {where}", wanted != there and f"{wanted} in the header, and {there}")


def split(parameter):
    """The parts of a parameter of C: whether it is const, its type, whether it is a pointer, its name, and the length of an array."""
    const, kind, pointer, name, length = re.fullmatch(r"(const )?(\w+) (\*?)(\w+)(?:\[(\w+)\])?", parameter).groups()
    return bool(const), kind, bool(pointer), name, length and number_of(length)


def is_buffer(words, place):
    """Whether a parameter leads to as many bytes or structs as the next one says."""
    _, _, pointer, _, _ = split(words[place])
    return pointer and place + 1 < len(words) and split(words[place + 1])[1] == "size_t" and not split(words[place + 1])[2]


# ---- Python

C_NAMES = {ctypes.c_uint8: "uint8_t", ctypes.c_uint16: "uint16_t", ctypes.c_uint32: "uint32_t", ctypes.c_uint64: "uint64_t"}


def c_name(kind):
    """The name of a type of ctypes in C."""
    if kind is ctypes.c_char_p:
        return "const uint8_t *"
    if kind is ctypes.c_void_p:
        return "void *"
    if issubclass(kind, ctypes.Array):
        return f"{c_name(kind._type_)}[{kind._length_}]"
    if issubclass(kind, ctypes._Pointer):
        return f"{c_name(kind._type_)} *"
    return C_NAMES.get(kind, kind.__name__)


def python_type(words, place):
    """What a parameter has to be in Python, where const is said of bytes alone, and size_t is the same as uint64_t."""
    const, kind, pointer, _, length = split(words[place])
    kind = {"size_t": "uint64_t", "sci_status": "uint32_t"}.get(kind, kind)
    if length:
        return f"{kind}[{length}]"
    if pointer:
        return "const uint8_t *" if const and kind == "uint8_t" else f"{kind} *"
    return kind


def check_python(tally):
    native, numbers = importlib.import_module("lichenknit._native"), importlib.import_module("lichenknit.numbers")
    results = {None: "void", ctypes.c_char_p: "const char *"}
    found = {it: (results.get(native.ANSWERS.get(it, 0), "number"), [c_name(kind) for kind in takes]) for it, takes in native.FUNCTIONS.items()}
    wanted = {}
    for name, (result, words) in parameters().items():
        wanted[name] = result if result in results.values() else "number", [python_type(words, it) for it in range(len(words))]
    compare(tally, "Python", wanted, found)
    fields = {it: [(field, c_name(kind)) for field, kind in getattr(native, it)._fields_] for it in dir(native) if it.startswith("sci_")}
    compare(tally, "Python", structs(), fields)
    check_python_enums(tally, numbers)


# What the names of an enum begin with in the header alone.
FRONTS = {"sci_command": "CMD_", "sci_want_kind": "WANT_", "sci_text_kind": "TEXT_", "sci_access_kind": "ACCESS_", "sci_freedom": "VERSIONS_",
          "sci_consistency": "CONSISTENCY_", "sci_witness": "WITNESS_"}


def check_python_enums(tally, numbers):
    """An enum of Python has the header's names without what all of them begin with."""
    for name, wanted in enums().items():
        if name == "sci_limit":
            found = {it: getattr(numbers, it, None) for it in wanted}
        else:
            of_python = "".join(it.title() for it in name.removeprefix("sci_").removesuffix("_number").split("_"))
            front = FRONTS.get(name, "")
            found = {f"{front}{it}": int(number) for it, number in getattr(numbers, of_python).__members__.items()}
            if name == "sci_obstacle":
                found.pop("ENABLED")
        tally.count(f"{name} of Python", wanted != found and f"{wanted} in the header, and {found}")


# ---- Rust

RUST = {"uint8_t": "u8", "uint16_t": "u16", "uint32_t": "u32", "uint64_t": "u64", "size_t": "usize", "void": "c_void", "char": "c_char"}


def rust_type(const, kind, pointer, length):
    kind = RUST.get(kind, kind)
    if length:
        return f"*mut [{kind}; {length}]"
    return f"*{'const' if const else 'mut'} {kind}" if pointer else kind


def rust_field(kind):
    """The type of a field of C in Rust."""
    array = re.fullmatch(r"(\w+)\[(\d+)\]", kind)
    if array:
        return f"[{RUST[array[1]]}; {array[2]}]"
    return rust_type(False, kind.removesuffix(" *"), kind.endswith(" *"), None)


def check_rust(tally):
    folder = f"{TOP}/bindings/rust/lichenknit-sys/src"
    text = re.sub(r"^\s*//.*$", "", read(f"{folder}/lib.rs"), flags=re.MULTILINE)
    found = {}
    for name, words, result in re.findall(r"pub fn (sci_\w+)\(([^)]*)\)\s*(?:-> ([^;]+))?;", text):
        found[name] = result, [tuple(it.strip() for it in word.split(":")) for word in words.split(",") if word.strip()]
    wanted = {}
    for name, (result, words) in parameters().items():
        answer = {"void": "", "const char *": "*const c_char"}.get(result, RUST.get(result, result))
        wanted[name] = answer, [(it[3], rust_type(it[0], it[1], it[2], it[4])) for it in map(split, words)]
    compare(tally, "Rust", wanted, found)
    bodies = re.findall(r"#\[repr\(C\)\][^{]*?pub struct (sci_\w+) \{(.*?)\}", text, re.DOTALL)
    fields = {name: re.findall(r"pub (\w+): ([^\n]+),", body) for name, body in bodies}
    compare(tally, "Rust", {name: [(it, rust_field(kind)) for it, kind in of] for name, of in structs().items()}, fields)
    numbers = {name: int(number, 0) for name, number in re.findall(r"pub const (SCI_\w+): u32 = (\w+);", read(f"{folder}/numbers.rs"))}
    compare(tally, "Rust", {**{f"SCI_{name}": it for of in enums().values() for name, it in of.items()}, **version()}, numbers)


def check_rust_enums(tally):
    """An enum of the safe crate has the header's names: SCI_CMD_MREAD is Command::Mread."""
    text = read(f"{TOP}/bindings/rust/lichenknit/src/kinds.rs")
    for block in text.split("numbered! {")[1:]:
        name = re.search(r"^    (\w+)(?: by \w+)? \{", block, re.MULTILINE)[1]
        pairs = re.findall(r"(\w+) = SCI_(\w+)", block)
        of_header = next((it for it in enums().values() if pairs and pairs[0][1] in it), {})
        found = [number for _, number in pairs]
        wrong = [it for it, number in pairs if re.sub(r"^(CMD|TEXT|TO|VERSIONS|CONSISTENCY|WITNESS)_", "", number).replace("_", "").lower() != it.lower()]
        lacking = sorted((set(of_header) - {"NO_OBSTACLE"}) ^ set(found))
        tally.count(f"{name} of Rust", (wrong or lacking or not pairs) and f"names {wrong} or {lacking}")


def version():
    text = read(f"{TOP}/include/lichenknit.h")
    return {name: int(number) for name, number in re.findall(r"#define (SCI_VERSION_M\w+) (\d+)", text)}


# ---- SystemVerilog

WORDS = {"uint8_t": "byte unsigned", "uint32_t": "int unsigned", "sci_status": "int unsigned", "uint64_t": "longint unsigned",
         "size_t": "longint unsigned"}
BYTES = {"uint8_t": 1, "uint16_t": 2, "uint32_t": 4, "uint64_t": 8, "void *": 8}


def size_of(kind):
    """The bytes that a type has, and to how many it is aligned."""
    array = re.fullmatch(r"(\w+)\[(\d+)\]", kind)
    if array:
        size, align = size_of(array[1])
        return size * int(array[2]), align
    if kind in BYTES:
        return BYTES[kind], BYTES[kind]
    place, widest = 0, 1
    for _, of in structs()[kind]:
        size, align = size_of(of)
        place, widest = -(-place // align) * align + size, max(widest, align)
    return -(-place // widest) * widest, widest


def verilog_typedef(name):
    """A struct as an array of the widest words that it is aligned to."""
    size, align = size_of(name)
    return {8: "longint", 4: "int", 1: "byte"}[align] + " unsigned", size // align


def verilog_type(words, place):
    """What a parameter has to be: its direction, its type, and whether it is an array."""
    const, kind, pointer, name, length = split(words[place])
    if kind in structs():
        kind, is_array = (f"{kind}_t", False) if not is_buffer(words, place) else (verilog_typedef(kind)[0], True)
    else:
        kind, is_array = WORDS[kind], bool(length) or is_buffer(words, place)
    is_read = const and kind not in [f"{it}_t" for it in OBJECTS] or not (pointer or length)
    return "input" if is_read else "inout", kind, is_array, name


def check_verilog(tally):
    text = re.sub(r"//.*$", "", read(f"{TOP}/examples/systemverilog/lichenknit_pkg.sv"), flags=re.MULTILINE)
    found = {}
    for result, name, body in re.findall(r'import "DPI-C" function ([\w ]+?) (sci_\w+)\s*\(([^)]*)\);', text):
        words = [re.fullmatch(r"(input|inout) ([\w ]+?) (\w+)(\s*\[\w+\])?", " ".join(it.split())).groups() for it in body.split(",") if it.strip()]
        found[name] = result, [(direction, kind, bool(array), it.removesuffix("_")) for direction, kind, it, array in words]
    wanted = {}
    for name, (result, words) in parameters().items():
        answer = {"const char *": "string"}.get(result, WORDS.get(result, result))
        wanted[name] = answer, [verilog_type(words, it) for it in range(len(words))]
    # A text of any length is a string.
    for name in ("sci_logs_read", "sci_machine_replay"):
        wanted[name][1][1] = ("input", "string", False, "text")
    compare(tally, "SystemVerilog", wanted, found)
    types = {name: (kind, int(length)) for kind, name, length in re.findall(r"typedef (\w+ unsigned) (sci_\w+)_t\s*\[(\d+)\];", text)}
    compare(tally, "SystemVerilog", {it: verilog_typedef(it) for it in structs()}, types)
    numbers = {name: int(number.replace("'h", "0x"), 0) for name, number in re.findall(r"\b(SCI_\w+) = ([\w']+)", text)}
    compare(tally, "SystemVerilog", {f"SCI_{name}": it for of in enums().values() for name, it in of.items()}, numbers)


def main():
    tally = Tally()
    check_python(tally)
    check_rust(tally)
    check_rust_enums(tally)
    check_verilog(tally)
    return tally.end()


if __name__ == "__main__":
    sys.exit(main())
