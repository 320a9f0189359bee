#!/usr/bin/env python3
"""Builds the C library (`make library`), of sources that rt ci has proved, and checks it:

- the header compiles by itself as C11 and as C++17, without a warning;
- the header declares the functions that the library has, and no other global name is in it (nm), and each has the parameters of its export in
  crates/sci_c; the numbers of statuses and the fields of structs are those of crates/sci_c_values
  and crates/sci_c_traces;
- the numbers of states, obstacles, commands and kinds of requests are those of the crates, and so are their names in
  library/support.c;
- the tests of library/tests run, with each allocation refused in turn, and under valgrind;
- the examples of examples/c write what stands in library/tests/examples.txt;
- random calls from Python do what the text programs do.

What has no compiler or program here is left out, and a line says so. The last line is 'N passed, M failed'."""

import os
import re
import shutil
import subprocess
import sys
import tempfile

TOP = os.path.dirname(os.path.dirname(os.path.dirname(os.path.abspath(__file__))))
sys.path.insert(0, f"{TOP}/scripts/make")
import library  # noqa: E402
from header import HEADER, declared, enum, header, number_of, read, structs  # noqa: E402
from tally import Tally  # noqa: E402

CALLS = "200000"
TESTS = ("layout", "misuse", "texts", "turns", "windows", "traces", "adversaries", "memory")
C = ["-std=c11", "-Wall", "-Wextra", "-Wpedantic", "-Werror", "-O2"]
CXX = ["-std=c++17", "-Wall", "-Wextra", "-Wpedantic", "-Werror", "-O2"]
# What stands in the header and not in the crates.
HELPERS = {"sci_status_text", *(f"sci_{it}_name" for it in ("status", "command", "state", "home_state", "obstacle", "verdict"))}
# The types of C that a type of Rattle is.
TYPES = {"u8": "uint8_t", "u16": "uint16_t", "u32": "uint32_t", "u64": "uint64_t", "usize": "size_t"}


def rattle(crate):
    """The sources of a crate, without comments."""
    folder = f"{TOP}/crates/{crate}/src"
    return "\n".join(re.sub(r"^\s*//.*", "", read(f"{folder}/{name}"), flags=re.MULTILINE) for name in sorted(os.listdir(folder)))


def c_types(name, written):
    """The parameters of C that one of an export is, without const."""
    if written == "Global":
        return []
    if written in ("&mut SciObject", "&SciObject"):
        return ["object *"]
    pointer = re.fullmatch(r"&(mut )?(.+)", written)
    if not pointer:
        return [TYPES[written]]
    inner = pointer[2]
    if buffer := re.fullmatch(r"\[(\w+)\]", inner):
        return [f"{TYPES.get(buffer[1]) or c_name(buffer[1])} *", "size_t"]
    if array := re.fullmatch(r"\[(\w+); (\d+)\]", inner):
        return [f"{TYPES[array[1]]}[{array[2]}]"]
    return [f"{TYPES.get(inner) or c_name(inner)} *"]


def c_name(struct):
    """`SciTextFault` as `sci_text_fault`."""
    return re.sub(r"(?<!^)([A-Z])", r"_\1", struct).lower()


def exports():
    """The exports of crates/sci_c: whether each answers a status, and its parameters as C has them."""
    found = {}
    for name, parameters, result in re.findall(r'extern "C" fn (sci_\w+)\(([^)]*)\)( -> u32)?', rattle("sci_c")):
        pairs = [re.fullmatch(r"(\w+): (.+)", it.strip()) for it in re.split(r",(?![^\[]*\])", parameters) if it.strip()]
        found[name] = bool(result), [kind for pair in pairs for kind in c_types(pair[1], pair[2])]
    return found


def plain(kind):
    """A type of the header without const, and an object's and an array's by what it is."""
    kind = re.sub(r"\bconst\b", "", kind).strip()
    kind = re.sub(r"\s*\*", " *", kind)
    kind = re.sub(r"SCI_\w+", lambda it: str(number_of(it[0])), kind)
    return re.sub(r"^sci_(machine|node|logs|scoreboard) \*$", "object *", kind)


def check_signatures(tally):
    of_header, of_crate = declared(), exports()
    tally.count("functions", sorted((set(of_header) - HELPERS) ^ set(of_crate)))
    for name, (answers, parameters) in of_crate.items():
        result, kinds = of_header.get(name, ("", []))
        wrong = [plain(it) for it in kinds] != parameters or (result not in ("sci_status", "uint32_t")) == answers
        tally.count(name, wrong and f"{kinds} in the header, and {parameters} in the crate")
        const = [it.startswith("const") for it in kinds if re.search("sci_(machine|node|logs|scoreboard)", it)]
        kept = "ensures kept {" in contract(name)
        tally.count(f"{name}: const", bool(const) and (const[0] != kept) and "the header's const is not what the contract keeps")


def contract(name):
    """The clauses of an export."""
    text = rattle("sci_c")
    start = text.index(f'fn {name}(')
    return text[start: text.index("\n{", start)]


def fields_of(body):
    """The fields of a struct of a crate, with their types as C has them."""
    for part in body.split(",\n"):
        words = re.sub(r"\bpub\b", "", part).strip().rstrip(",")
        if not words or words.startswith("ghost"):
            continue
        name, kind = (it.strip() for it in words.split(":"))
        array = re.fullmatch(r"\[(\w+); (\d+)\]", kind)
        yield (name, f"{TYPES[array[1]]}[{array[2]}]") if array else (name, TYPES.get(kind) or c_name(kind))


def check_structs(tally):
    values, of_header = rattle("sci_c_values") + rattle("sci_c_traces"), structs()
    for name, body in re.findall(r"#\[repr\(C\)\][^{]*pub struct (\w+) \{(.*?)\n\}", values, re.DOTALL):
        wanted = list(fields_of(body))
        tally.count(name, of_header.get(c_name(name)) != wanted and f"{of_header.get(c_name(name))} in the header, and {wanted}")
    numbers = dict(re.findall(r"pub const (SCI_\w+): u32 = (\d+);", values))
    wrong = [name for name, number in numbers.items() if not re.search(rf"\b{name} = {number}\b", header())]
    tally.count("statuses", wrong)


def numbers(crate, variant, number=r"(\w+)"):
    """The numbers that a match of a crate gives the variants of an enum, by the names that they have in the header."""
    found = re.findall(rf"{variant}::(\w+)(?:\(_\)| \{{ \.\. \}})?\)? => {number},", rattle(crate))
    return {re.sub(r"(?<!^)([A-Z])", r"_\1", name).upper(): int(value, 0) for name, value in found if value[0].isdigit()}


def texts(crate, variant):
    """The texts that a match of a crate gives the variants of an enum."""
    found = re.findall(rf'{variant}::(\w+)(?:\(_\)| \{{ \.\. \}})? => "([^"]+)",', rattle(crate))
    return {re.sub(r"(?<!^)([A-Z])", r"_\1", name).upper(): text for name, text in found}


def table(function):
    """The names that a function of support.c has, in their order."""
    body = re.search(rf"const char \*{function}\(.*?\n\}}", read(f"{TOP}/library/support.c"), re.DOTALL)[0]
    return [it for it in re.findall(r'"([^"]*)"', body) if it != "?"]


def check_names(tally):
    """The numbers of enums, and the names that belong to them."""
    commands = re.findall(r"(0x\w+) => Some\(Command::(\w+)\)", rattle("sci_packets"))
    commands = {f"CMD_{name.upper()}": int(number, 0) for number, name in commands}
    by_number = {
        "state": (numbers("sci_c_values", "Held"), texts("sci_cache", "Held")),
        "home_state": (numbers("sci_c_values", "HomeState"), texts("sci_home", "HomeState")),
        "obstacle": ({"NO_OBSTACLE": 0, **numbers("sci_c_values", "Obstacle")}, {"NO_OBSTACLE": "enabled", **texts("sci_core", "Obstacle")}),
        "command": (commands, {f"CMD_{name}": text for name, text in texts("sci_packets", "Command").items()}),
    }
    for what, (of_crate, names) in by_number.items():
        tally.count(f"numbers of {what}", enum(f"sci_{what}") != of_crate and f"{of_crate} in the crate")
        wanted = [names[it] for it in sorted(of_crate, key=of_crate.get)]
        tally.count(f"names of {what}", table(f"sci_{what}_name") != wanted and f"{wanted} in the crate")
    kinds = re.search(r"ALL: \[AskKind; \d+\] = \[(.*?)\];", rattle("sci_words"), re.DOTALL)[1]
    kinds = {name.upper(): place for place, name in enumerate(re.findall(r"AskKind::(\w+)", kinds))}
    tally.count("kinds of requests", enum("sci_ask_kind") != kinds and f"{kinds} in the crate")
    asks = int(re.search(r"const ASKS: usize = (\d+);", rattle("sci_c"))[1])
    tally.count("room of a turn", enum("sci_limit")["TURN_ROOM"] != 1 + asks and f"{1 + asks} in the crate")
    statuses = sorted(enum("sci_status_number").items(), key=lambda it: it[1])
    tally.count("names of status", table("sci_status_name") != [f"SCI_{name}" for name, _ in statuses] and "others in the header")
    verdicts = ["lawful", *re.findall(r'"fault \d ([a-z-]+)"', rattle("sci_command"))]
    tally.count("names of verdict", table("sci_verdict_name") != verdicts and f"{verdicts} in the crate")


def check_symbols(tally):
    """The names that the library shows are those of the header, and it has the hardening that distributions ask for."""
    if not shutil.which("nm"):
        print("nm is missing: the symbols of the library are left out")
        return
    for words in (["-D", "--defined-only", "liblichenknit.so"], ["-g", "--defined-only", "liblichenknit.a"]):
        text = subprocess.run(["nm", *words], cwd=library.OUT, stdout=subprocess.PIPE, text=True, check=True).stdout
        found = {it.split("@")[0] for it in re.findall(r"^\w* [A-Z] (\S+)", text, re.MULTILINE)} - {"SCI_1"}
        tally.count(f"symbols of {words[-1]}", sorted(found ^ set(declared())))
    if shutil.which("readelf"):
        text = tally.run("readelf", ["readelf", "-dlSW", f"{library.OUT}/liblichenknit.so"])
        lacking = [it for it in ("GNU_RELRO", "BIND_NOW", ".debug_info") if it not in text]
        tally.count("liblichenknit.so", lacking and f"it lacks {lacking}")


def check_programs(tally, cc, room):
    """The header alone, the tests and the examples in C and C++."""
    flags, archive = [f"-I{TOP}/include"], f"{library.OUT}/liblichenknit.a"
    memory = "-Wl,--wrap=malloc,--wrap=realloc,--wrap=free"
    cxx = next((it for it in (os.environ.get("CXX"), "c++", "g++", "clang++") if it and shutil.which(it)), None)
    tally.run("the header as C11", [cc, *C, *flags, "-fsyntax-only", "-x", "c", HEADER])
    made = [(cc, C, f"library/tests/{name}.c", [memory] if name == "memory" else []) for name in TESTS]
    made += [(cc, C, f"examples/c/{name}.c", []) for name in ("first", "two_nodes", "any_order", "lock_step", "turns", "long_run", "record", "scoreboard", "trace")]
    if cxx:
        tally.run("the header as C++17", [cxx, *CXX, *flags, "-fsyntax-only", "-x", "c++", HEADER])
        made += [(cxx, CXX, f"examples/c/{name}.cpp", []) for name in ("two_nodes", "machine")]
    else:
        print("there is no C++ compiler: the examples in C++ are left out")
    # Its calls have stacks of their own, which valgrind doesn't follow.
    unfollowed = "library/tests/stack.c"
    made.append((cc, C, unfollowed, []))
    if not shutil.which("valgrind"):
        print("valgrind is missing: leaks are looked for by the counts of the tests alone")
    for compiler, standard, source, more in made:
        program = f"{room}/{os.path.basename(source)}.out"
        tally.run(f"{source} compiles", [compiler, *standard, *flags, f"{TOP}/{source}", archive, *more, "-o", program])
        if not os.path.exists(program):
            continue
        output = tally.run(source, [program])
        if source.startswith("examples/"):
            check_output(tally, os.path.basename(source), output)
        if shutil.which("valgrind") and source != unfollowed:
            tally.run(f"{source} under valgrind", ["valgrind", "-q", "--leak-check=full", "--error-exitcode=9", program])


def check_output(tally, name, output):
    """What an example writes stands in examples.txt, behind a line with its name."""
    parts = re.split(r"^== (\S+)\n", read(f"{TOP}/library/tests/examples.txt"), flags=re.MULTILINE)
    wanted = dict(zip(parts[1::2], parts[2::2])).get(name)
    tally.count(f"output of {name}", output != wanted and output)


def check_random_calls(tally):
    settings = {**os.environ, "LICHENKNIT_LIBRARY": f"{library.OUT}/liblichenknit.so", "PYTHONPATH": f"{TOP}/python"}
    scimem = f"{TOP}/crates/scimem/out/scimem"
    if not os.path.exists(scimem):
        print("scimem isn't built: the comparison with the text programs is left out")
        return
    words = [sys.executable, "library/tests/random_calls.py", scimem, CALLS]
    output = tally.run("random calls", words, cwd=TOP, env=settings)
    found = re.search(r"(\d+) passed, (\d+) failed\n$", output)
    tally.passed += int(found[1]) if found else 0


def main():
    tally, cc = Tally(), library.compiler()
    if cc is None or library.lacking():
        print("there is no C compiler with the headers of the C library, or no binutils: our C library is left out\n0 passed, 0 failed")
        return 0
    if subprocess.run(["make", "-s", "library"], cwd=TOP).returncode:
        print("0 passed, 1 failed")
        return 1
    check_signatures(tally)
    check_structs(tally)
    check_names(tally)
    check_symbols(tally)
    with tempfile.TemporaryDirectory(prefix="library-") as room:
        check_programs(tally, cc, room)
    check_random_calls(tally)
    return tally.end()


sys.exit(main())
