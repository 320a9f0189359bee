#!/usr/bin/env python3
"""Looks for proofs of a crate that the tactic `grind` finds by itself, and leaves those short:

    scripts/make/shorten.py CRATE [LINES]    bodies of LINES lines and more: 4 without the number

Each such clause of a lemma, of a lemma of a module or of a goal gets the body `grind (arith, ..)`, with the lemmas that its body
cited. `rt check` says which of these are no proofs, and they get their bodies back, until the crate is proved. Read what is left
before you commit it, and run rt tidy, which drops the imports that nothing needs any more."""

import glob
import re
import subprocess
import sys
import textwrap
from collections import namedtuple

WORD = re.compile(r"(?<![\w.\-'])([a-z_][\w\-']*)")
SIGNED = re.compile(r"(?:pub )?([a-z_][\w\-']*) (?:\{[^}]*\} )?: ")
# What grind knows without being told, and words of the language.
KNOWN = set(
    "nat_lt nat_le refl sym ap subst inl inr cc tt arith omega absurd elim let in record rw grind search simp rules zero suc true "
    "false length get_or set take drop filter map reverse if then else cond not option_map is_some is_none unwrap_or".split()
)

# A clause: its lemma, its lines in the file, what stands before ` =`, the lemmas that its body cites, and how far it is indented.
Clause = namedtuple("Clause", "name start end head cited indent")


def lemmas_in(lines):
    """The names that the file's lines declare, or import from proofs."""
    declared = {m[1] for it in lines if not it.startswith("use") and (m := SIGNED.match(it.strip()))}
    hidden = {m[1] for it in lines if (m := re.match(r"\s*(?:pub )?(?:abbrev|unfoldable)(?: pub)? ([a-z_][\w\-']*)", it))}
    used = [names for it in lines if re.match(r"use \S+\.proofs\.", it) for names in re.findall(r"\{([^{}]*)\}", it)]
    imported = {it.split(" as ")[-1].strip() for names in used for it in names.split(",")}
    return declared, (declared | {it for it in imported if re.match(r"[a-z_]", it)}) - hidden


def in_modules(lines):
    """Of each line, whether it stands in a module; and the lemmas that modules declare."""
    inside, places, names = False, [], set()
    for line in lines:
        inside = line.startswith("module _") or inside and (not line or line[0] in " })]-")
        places.append(inside)
        if inside and (found := re.match(r"  (?! )" + SIGNED.pattern, line)):
            names.add(found[1])
    return places, names


def end_of(lines, start, indent):
    """The line behind the clause that starts here."""
    end = start + 1
    while end < len(lines) and re.match(" " * indent + r"(?: |[})\]])", lines[end]):
        end += 1
    return end


def clauses_of(lines, least):
    """The clauses of at least this many lines whose proof isn't recursive."""
    declared, known = lemmas_in(lines)
    places, of_modules = in_modules(lines)
    for start, line in enumerate(lines):
        found = re.match(r"(  )?([a-z_][\w\-']*)\b", line)
        if not found or found[2] not in declared or SIGNED.match(line.strip()):
            continue
        indent = len(found[1] or "")
        end = end_of(lines, start, indent)
        text = "\n".join(it[indent:] for it in lines[start:end])
        parts = re.match(r"((?:\{[^}]*\}|[^{}=])*?) =(?:\s|$)", text)
        apart = lines[end : end + 1] == [""] and lines[end + 1 : end + 2] and lines[end + 1].startswith(" " * (indent + 1))
        if indent and not (places[start] and found[2] in of_modules) or end - start < least or not parts or "\n" in parts[1] or apart:
            continue
        body = text[parts.end() :]
        bound = set(WORD.findall(parts[1])) | set(re.findall(r"let ([a-z_][\w\-']*)", body))
        words = list(dict.fromkeys(WORD.findall(body)))
        if found[2] not in words and "where" not in words and words[:1] != ["grind"]:
            cited = tuple(it for it in words if it in known and it not in KNOWN | bound)
            yield Clause(found[2], start, end, parts[1], cited, indent)


def shortened(lines, clauses):
    """The text of the lines with those clauses short, and the first and the last line of each of them there."""
    by_start, out, place, spans = {it.start: it for it in clauses}, [], 0, []
    while place < len(lines):
        clause = by_start.get(place)
        if clause:
            cited = f"({', '.join(['arith', *clause.cited])})" if clause.cited else "arith"
            indent = " " * clause.indent
            new = textwrap.wrap(
                f"{clause.head} = grind {cited}", 160 - clause.indent, subsequent_indent="    ", break_long_words=False, break_on_hyphens=False
            )
            spans.append((len(out) + 1, len(out) + len(new), clause))
            out += [indent + it for it in new]
            place = clause.end
        else:
            out.append(lines[place])
            place += 1
    text = "\n".join(out)
    if clauses and not re.search(r"^use .*\barith\b", text, re.M):
        text = re.sub(r"(use Rattle\.std\.proofs\.Common\.\{[^}]*)\}", r"\1, arith}", text, count=1)
        if not re.search(r"^use .*\barith\b", text, re.M):
            text = f"use Rattle.std.proofs.Common.{{arith}}\n{text}"
            spans = [(first + 1, last + 1, clause) for first, last, clause in spans]
    return text, spans


def refused(told, folder, spans):
    """Those clauses that a check refused, by what it told: those at whose lines an error is, or else all of its file."""
    errors = [it for it in re.findall(r"^\./(proofs/\S+?):(\d+):\d+: error: (.*)$", told, re.M) if "not checked" not in it[2]]
    wrong = {
        (f"{folder}/{path}", clause)
        for path, line, _ in errors
        for first, last, clause in spans.get(f"{folder}/{path}", ())
        if first <= int(line) <= last
    }
    return wrong or {(f"{folder}/{path}", clause) for path, _, _ in errors for _, _, clause in spans.get(f"{folder}/{path}", ())}


def main():
    crate, least = sys.argv[1], int((sys.argv[2:] or ["4"])[0])
    folder = f"crates/{crate}"
    paths = [it for it in glob.glob(f"{folder}/proofs/**/*.antt", recursive=True) if not it.endswith(("Invariants.antt", "Lib.antt"))]
    texts = {it: open(it).read().split("\n") for it in paths}
    left = {it: found for it in paths if (found := [c for c in clauses_of(texts[it], least) if len(c.cited) <= 12])}
    while any(left.values()):
        spans = {}
        for path, clauses in left.items():
            text, spans[path] = shortened(texts[path], clauses)
            with open(path, "w") as file:
                file.write(text)
        print(f"{sum(map(len, left.values()))} left", flush=True)
        ran = subprocess.run(["rt", "check"], cwd=folder, stdout=subprocess.PIPE, stderr=subprocess.STDOUT, text=True)
        if re.findall(r"^logic=([\w-]+)", ran.stdout, re.M)[-1:] == ["proved"]:
            break
        wrong = refused(ran.stdout, folder, spans)
        if not wrong:
            print(ran.stdout[-3000:])
        left = {path: [it for it in clauses if wrong and (path, it) not in wrong] for path, clauses in left.items()}
    for path, clauses in left.items():
        with open(path, "w") as file:
            file.write(shortened(texts[path], clauses)[0])
    print(f"{sum(it.end - it.start - 1 for clauses in left.values() for it in clauses)} lines fewer")


main()
