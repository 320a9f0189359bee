"""What a page of a log has to show, and where it shows something else: for check_page.py.

The data of such a page have to be the log, and what `explain`, `order --show` and `order --by-serial --show` write of it. The picture
has to have each entry in the column of its node, in the order that was found, or else in that of its log; an arrow for each step of a
cycle, with its reason, or for each two entries of a faulty line of memory that follow each other in the order of versions; a mark at
what the verdict names; and one colour for one version. Then the other order is chosen, a folded entry is opened, and an entry is
clicked on.
"""

import json
import os
import re
import subprocess
from collections import namedtuple

TOP = os.path.dirname(os.path.dirname(os.path.dirname(os.path.abspath(__file__))))
SCIVIEW, SCIMEM = (os.environ.get(name.upper(), f"{TOP}/crates/{name}/out/{name}") for name in ("sciview", "scimem"))
ORDERS = {"log order": ("order", "--show"), "program order": ("order", "--by-serial", "--show")}
# Independent reads of independent writes: the two readers see them in two orders.
IRIW = b"""log 2 4 2
last 0 @1 1 0 0 0 0 0 0 0
last 1 @1 1 0 0 0 0 0 0 0
0 0 store 0 0 1 = - @1
1 0 store 1 0 1 = - @1
2 0 load 0 0 = 1 @1
2 1 load 1 0 = 0 @0
3 0 load 1 0 = 1 @1
3 1 load 0 0 = 0 @0
"""

Case = namedtuple("Case", "name given")
Entry = namedtuple("Entry", "line row node memory version")
# What one view shows: the verdict, the entries in the order that was found or None, the arrows, and the lines that are marked.
View = namedtuple("View", "verdict order arrows marked")


def written(*words, given):
    """What `sciview` writes of a log, whatever its verdict."""
    return subprocess.run([SCIVIEW, *words], input=given, stdout=subprocess.PIPE, check=False).stdout.decode()


def run_of(nodes, count):
    """The log of a run of some operations."""
    made = subprocess.run([f"{TOP}/scripts/make/inputs.py", "workload", "migratory", str(nodes)], stdout=subprocess.PIPE, check=True).stdout
    script = b"\n".join(made.split(b"\n")[: count + 1]) + b"\n"
    schedule = subprocess.run([SCIVIEW, "run", "--seed", "3"], input=script, stdout=subprocess.PIPE, check=True).stdout
    return subprocess.run([SCIMEM, "replay"], input=schedule, stdout=subprocess.PIPE, stderr=subprocess.DEVNULL, check=True).stdout


def cases():
    """The logs whose pages are looked at."""
    for name in sorted(os.listdir(f"{TOP}/examples")):
        if name.endswith(".log"):
            with open(f"{TOP}/examples/{name}", "rb") as file:
                yield Case(name, file.read())
    yield Case("iriw.log", IRIW)
    yield Case("in format 1", IRIW.split(b"\n", 1)[1])
    yield Case("without entries", b"log 2 1 1\nlast 0 @0 0 0 0 0 0 0 0 0\n")
    log = run_of(4, 160)
    yield Case("a run of 4 nodes", log)
    # A load that got another word: the other entries are folded.
    yield Case("a run with a fault", re.sub(rb"( load \S+ \S+ = )(\d+)( @[5-9]\n)", lambda it: it[1] + b"1" + it[2] + it[3], log, count=1))


def entries_of(case):
    """The entries of a log, and the lines of its last contents."""
    entries, lasts = [], []
    for line, row in enumerate(case.given.decode().splitlines(), 1):
        words = row.split()
        if words[0] == "last":
            lasts.append(Entry(line, row, None, int(words[1]), words[2]))
        elif words[0] != "log":
            entries.append(Entry(line, row, int(words[0]), int(words[3]), words[-1]))
    return entries, lasts


def data_of(case):
    """The data of a page of a log."""
    parts = [case.given.decode()]
    for words in (("explain",), *ORDERS.values()):
        parts += [f"sciview {' '.join(words)}\n", written(*words, given=case.given)]
    return "".join(parts)


def faulty_view(case):
    """What a page shows of a log that isn't lawful."""
    rows = written("explain", given=case.given).splitlines()
    verdict = [it for it in rows if re.match("fault|  line", it)]
    arrows, marked, before = [], [], None
    for row in rows:
        around = re.match(r" {2}[> ] line (\d+): ", row)
        found = re.match(r" {2}line (\d+): ", row)
        if found:
            marked.append(int(found[1]))
        if around and before:
            arrows.append([before, int(around[1]), "next in the order of versions"])
        before = int(around[1]) if around else None
    return View("\n".join(verdict), None, arrows, marked)


def order_view(case, words):
    """What it shows of an order."""
    verdict, *rows = written(*words, given=case.given).splitlines()
    if not verdict.startswith("not "):
        return View(verdict, rows, [], [])
    steps = [re.fullmatch(r"line (\d+): .* comes after the next: (.*)", it).groups() for it in rows]
    arrows = [[int(steps[(place + 1) % len(steps)][0]), int(line), why] for place, (line, why) in enumerate(steps)]
    return View(verdict, None, arrows, [])


def views(case):
    """What it shows, by the name of what is chosen."""
    if written("explain", given=case.given) != "lawful\n":
        return {"faults": faulty_view(case)}
    return {name: order_view(case, words) for name, words in ORDERS.items()}


# What stands in a page. It is scrolled through, since only what is in view is drawn.
READ = """(() => {
  const all = (selector, inside = document) => [...inside.querySelectorAll(selector)], main = document.querySelector("main");
  const entries = new Map(), folds = new Map();
  for (let top = 0; top <= main.scrollHeight; top += 500) {
    main.scrollTop = top;
    main.onscroll();
    for (const it of all("#picture .entry")) {
      const box = it.querySelector("rect"), [number, row] = all("text", it).map(text => text.textContent);
      entries.set(number, [+number, row, +box.getAttribute("x"), +box.getAttribute("y"), box.style.fill, it.classList.contains("bad")]);
    }
    for (const it of all("#picture .fold")) folds.set(it.dataset.fold, parseInt(it.textContent));
  }
  main.scrollTop = 0;
  main.onscroll();
  return JSON.stringify({
    verdict: document.getElementById("verdict").textContent,
    entries: [...entries.values()].sort((a, b) => a[3] - b[3] || a[2] - b[2]),
    folds: [...folds.values()].reduce((sum, it) => sum + it, 0),
    arrows: all("#picture .edge").map(it => [+it.dataset.from, +it.dataset.to, it.querySelector("title").textContent.split(": ")[1]]),
    names: all("#picture .edge.cycle text").map(it => it.textContent),
    lasts: all("#last tr").map(it => [+it.cells[0].textContent, it.cells[1].textContent, it.classList.contains("bad")]),
  });
})()"""


def entry_faults(there, view, entries):
    """Where entries stand elsewhere, or look otherwise."""
    drawn = [it[:2] for it in there["entries"]]
    if view.order is not None and [it[1] for it in drawn] != view.order:
        yield "another order"
    of = {it.line: it for it in entries}
    if len(drawn) + there["folds"] != len(entries) or any(of[line].row != row for line, row in drawn):
        yield f"{len(drawn)} entries and {there['folds']} folded ones of {len(entries)}"
    columns = {}
    for line, _, x, _, fill, bad in there["entries"]:
        columns.setdefault(of[line].node, []).append((x, line))
        if bad != (line in view.marked):
            yield f"the mark of line {line}"
        if (fill == "") != (of[line].version == "@0"):
            yield f"the colour of line {line}"
    if view.order is None and any([it[1] for it in lines] != sorted(it[1] for it in lines) for lines in columns.values()):
        yield "a log in another order"
    places = [{x for x, _ in columns[node]} for node in sorted(columns)]
    if any(len(it) != 1 for it in places) or [*map(min, places)] != sorted(map(min, places)):
        yield "columns"
    fills = {}
    for line, _, _, _, fill, _ in there["entries"]:
        fills.setdefault((of[line].memory, of[line].version) if fill else None, set()).add(fill)
    if any(len(it) != 1 for it in fills.values()) or len(set(map(str, fills.values()))) != len(fills):
        yield "colours"


def view_faults(browser, case, view):
    """Where the page shows something else than it has to."""
    entries, lasts = entries_of(case)
    there = json.loads(browser.value(READ))
    if there["verdict"] != view.verdict:
        yield f"the verdict {there['verdict']!r}"
    if there["arrows"] != view.arrows or (there["names"] != [it[2] for it in view.arrows] and not view.marked):
        yield f"the arrows {there['arrows']}"
    if there["lasts"] != [[it.line, it.row, it.line in view.marked] for it in lasts]:
        yield "the last contents"
    yield from entry_faults(there, view, entries)


def use_faults(browser, path, case):
    """Where a link, a click or a key does something else."""
    entries, _ = entries_of(case)
    if not entries:
        return
    what = "document.getElementById('what').textContent"
    middle = entries[len(entries) // 2]
    browser.open(f"{path}#{middle.line}")
    if browser.value(what) != f"line {middle.line}: {middle.row}":
        yield f"the link: {browser.value(what)}"
    browser.open(path)
    before = browser.value("document.querySelectorAll('#picture .fold').length")
    if before:
        browser.click(".fold text")
        if browser.value("document.querySelectorAll('#picture .fold').length") != before - 1:
            yield "a click on folded entries"
    browser.click(".entry text")
    line = browser.value("document.querySelector('#picture .entry.on').dataset.line")
    if browser.value(what).split(":")[0] != f"line {line}":
        yield f"a click on an entry: {browser.value(what)}"
    browser.open(path)
    linked = browser.value("[...document.querySelectorAll('#words a')].map(it => it.getAttribute('href'))[0]")
    if linked:
        browser.press("ArrowRight")
        if browser.value("location.hash") != linked:
            yield f"a key: {browser.value('location.hash')}"


def shown_faults(browser, path, case):
    """What is wrong with a page in a browser."""
    wanted = views(case)
    browser.open(path)
    first = next((name for name, view in wanted.items() if view.arrows or view.marked), next(iter(wanted)))
    chosen = "document.querySelector('#orders input:checked')?.parentElement.textContent.trim() ?? 'faults'"
    if browser.value(chosen) != first:
        yield f"it begins with {browser.value(chosen)}"
    for place, (name, view) in enumerate(wanted.items()):
        if len(wanted) > 1:
            browser.value(f"document.querySelectorAll('#orders input')[{place}].click()")
        for fault in view_faults(browser, case, view):
            yield f"{name}: {fault}"
    yield from use_faults(browser, path, case)
