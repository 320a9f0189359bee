#!/usr/bin/env python3
"""Opens pages of `sciview page` in a browser, and compares what stands in them with what other commands of `sciview` write.

The pages are of the schedules of examples/, of runs of 2 to 16 nodes, of drawn events of which many aren't enabled, and of
some lines and some events of them. The data of a page have to be the lines that `trace --json` and `lists` write. Behind each
event the page has to show the words of `trace` for it, the last line of `lists` for the line of memory, the packets that are
under way about it, the states that the events said last, of each line in the overview too, an arrow for each pointer and each
packet, and the entries that were logged. Then keys are pressed, and a packet is clicked on. log_pages.py says what a page of a log
has to show. A page in docs/pages/ has to be what the program writes of the schedule or log of that name; `check_page.py --write`
renews them. Without Chromium it says `skipped: no browser`, and looks at the texts alone. The last line is 'N passed, M failed', of
pages.
"""

import functools
import html
import json
import os
import re
import subprocess
import sys
import tempfile
from collections import namedtuple
from contextlib import nullcontext

import log_pages
from browser import Browser, found

TOP = os.path.dirname(os.path.dirname(os.path.dirname(os.path.abspath(__file__))))
SCIVIEW = os.environ.get("SCIVIEW", f"{TOP}/crates/sciview/out/sciview")
# At most so many moments of a page are looked at, which lie evenly.
MOMENTS = 200

# A page: what it is called, the options that it is made with, and the schedule.
Case = namedtuple("Case", "name options given")


@functools.cache
def ran(*words, given=b""):
    return subprocess.run([SCIVIEW, *words], input=given, stdout=subprocess.PIPE, check=True).stdout.decode()


def workload(kind, nodes, count):
    """The schedule of a run of some operations of scripts/make/inputs.py."""
    script = subprocess.run([f"{TOP}/scripts/make/inputs.py", "workload", kind, str(nodes)], stdout=subprocess.PIPE, check=True).stdout
    return ran("run", given=b"\n".join(script.split(b"\n")[: count + 1]) + b"\n").encode()


def cases():
    """The pages that are looked at."""
    for name in sorted(os.listdir(f"{TOP}/examples")):
        if name.endswith(".schedule"):
            with open(f"{TOP}/examples/{name}", "rb") as file:
                yield Case(name, (), file.read())
    with open(f"{TOP}/examples/store-buffer.script", "rb") as file:
        yield Case("zeros.schedule", (), ran("allowed", "--show", "1", given=file.read()).encode())
    for nodes in (2, 4, 8, 16):
        yield Case(f"a run of {nodes} nodes", (), workload("migratory", nodes, 40 * nodes))
    drawn = ran("random", "3", "2", "1", "600", "7", "--dead", "30").encode()
    yield Case("drawn events", (), drawn)
    yield Case("drawn events of line 1", ("--line", "1"), drawn)
    yield Case("drawn events of lines 200 to 300", ("--events", "200", "300"), drawn)


# ---- what has to stand in a page


def traced(case):
    """Of each event of the page: the object and the words of `trace`, and the line of `lists` behind it, or None."""
    objects = [json.loads(it) for it in ran("trace", "--json", given=case.given).splitlines()]
    blocks = re.split(r"\n(?=\d)", ran("trace", given=case.given).rstrip("\n"))
    lists = {int(it.split()[0]): it for it in ran("lists", given=case.given).splitlines()}
    shown = {json.loads(it)["number"] for it in ran("trace", "--json", *case.options[:2], given=case.given).splitlines()} \
        if "--line" in case.options else {it["number"] for it in objects}
    if "--events" in case.options:
        first, last = map(int, case.options[-2:])
        shown = {it for it in shown if first <= it <= last}
    return [(it, block, lists.get(it["number"])) for it, block in zip(objects, blocks) if it["number"] in shown]


def data_of(case):
    """The data of the page, as `trace --json` and `lists` have them."""
    objects = {json.loads(it)["number"]: it for it in ran("trace", "--json", given=case.given).splitlines()}
    lines = [case.given.decode().split("\n", 1)[0]]
    for event, _, listed in traced(case):
        lines += [objects[event["number"]], *filter(None, [listed])]
    return "\n".join(lines) + "\n"


def line_of(event):
    packet = event.get("sent") or event.get("taken") or {}
    return event.get("line", packet.get("line"))


def packet_words(packet):
    """A packet as `trace` has it."""
    words = f"{packet['command']} to {packet['to']} from {packet['from']} control {packet['control']} line {packet['line']}"
    if "id" in packet:
        words += f" id {'none' if packet['id'] is None else packet['id']}"
    return words + (f" @{packet['version']} {' '.join(packet['words'])}" if "words" in packet else "")


def state_words(state):
    """A state as `trace` has it."""
    named = [f" {name} {state[name]}" for name in ("forward", "backward", "head") if name in state]
    sent = " sent" if state.get("sent") else ""
    return state["state"] + "".join(named) + sent + (f" @{state['version']}" if "version" in state else "")


def beginning(events):
    """The states before the first event, as far as an event says them, and the packets and the operations that were under way."""
    caches, homes, pending, issued, sent, under = {}, {}, {}, set(), [], []
    for event, block, _ in events:
        line = line_of(event)
        if "cache_before" in event:
            caches.setdefault((event["node"], line), event["cache_before"])
        if "home_before" in event:
            homes.setdefault(line, event["home_before"])
        if "taken" in event and event["taken"] in sent:
            sent.remove(event["taken"])
        elif "taken" in event:
            under.append(event["taken"])
        if "sent" in event:
            sent.append(event["sent"])
        if event["enabled"] and event["event"] == "issue":
            issued.add((event["node"], line))
        elif "entry" in event and (event["node"], line) in issued:
            issued.remove((event["node"], line))
        elif "entry" in event:
            pending[event["node"], line] = re.search(r"logged \d+ \d+ (.*?) =", block)[1]
    return caches, homes, pending, under


def moments(case):
    """What the page has to show behind each event."""
    events = traced(case)
    caches, homes, pending, under = beginning(events)
    lists, log, line = {}, [], 0
    for event, block, listed in events:
        line = line if line_of(event) is None else line_of(event)
        if "taken" in event:
            under.remove(event["taken"])
        if "sent" in event:
            under.append(event["sent"])
        if "cache_after" in event:
            caches[event["node"], line] = event["cache_after"]
        if "home_after" in event:
            homes[line] = event["home_after"]
        if listed:
            lists[line] = listed
        if event["enabled"] and event["event"] == "issue":
            pending[event["node"], line] = block.split(" ", 3)[3]
        if "entry" in event:
            del pending[event["node"], line]
            log.append(f"{event['number']}: {block.rsplit('logged ', 1)[1]}")
        about = [it for it in under if it["line"] == line]
        here = {n: it for (n, of), it in caches.items() if of == line}
        yield {
            "what": block,
            "here": block.split("\n")[0],
            "list": lists.get(line, f"line {line}: no event so far says its list"),
            "under": "\n".join(map(packet_words, about)) or "nothing",
            "log": log[-1] if log else "nothing",
            "packets": len(about),
            "operations": sorted([n, it] for (n, of), it in pending.items() if of == line),
            "forward": sum("forward" in it for it in here.values()),
            "caches": sorted([n, it["state"] + (f" @{it['version']}" if "version" in it else "")] for n, it in here.items()),
            "home": state_words(homes[line]) if line in homes else "no event of it",
            "all": sorted([of, n, state_words(it)] for (n, of), it in caches.items()),
        }


# ---- what stands in it

# The same, read in the page behind each of some events.
READ = """(counts => {
  const text = id => document.getElementById(id).textContent;
  const all = selector => [...document.querySelectorAll(selector)];
  return JSON.stringify(counts.map(count => {
    const at = document.getElementById("at");
    at.value = count;
    at.dispatchEvent(new Event("input"));
    const cells = all("#overview tr[data-line]").flatMap(row => [...row.querySelectorAll("td")].map((cell, n) => [+row.dataset.line, n, cell.title]));
    const here = document.querySelector("#events [aria-current]")?.textContent.replace(/^\\d+/, it => it + ": ");
    return {
      what: text("what"), here, list: text("list"), under: text("under"), log: text("log").split("\\n")[0],
      operations: all("#picture .operation").map(it => [+it.dataset.operation, it.textContent]),
      packets: all("#picture .packet").length, forward: all("#picture path.forward").length,
      caches: all("#picture [data-node]").map(it => [+it.dataset.node, it.querySelectorAll("text")[1].textContent]).filter(it => it[1] !== "no event of it"),
      home: all("#picture .home text")[1].textContent,
      all: cells.filter(it => it[2] !== "no event of it"),
    };
  }));
})"""


def shown_faults(browser, case):
    """Where the page shows something else."""
    wanted = list(moments(case))
    counts = list(range(1, len(wanted) + 1, -(-len(wanted) // MOMENTS)))
    for count, there in zip(counts, json.loads(browser.value(f"{READ}({counts})"))):
        for part, want in wanted[count - 1].items():
            if there[part] != want:
                yield f"event {count}, {part}: {there[part]!r} and not {want!r}"


def use_faults(browser, path, case):
    """Where a link, a key or a click does something else."""
    events = traced(case)
    middle = len(events) // 2
    browser.open(f"{path}#{events[middle - 1][0]['number']}")
    where = "document.getElementById('where').textContent"
    keys = [("", middle), ("ArrowRight", middle + 1), ("ArrowLeft", middle), ("End", len(events)), ("Home", 0)]
    for key, count in keys:
        if key:
            browser.press(key)
        if browser.value(where) != f"{count} of {len(events)}":
            yield f"{key or 'the link'}: {browser.value(where)}"
    sent = next((place for place, (it, _, _) in enumerate(events) if "sent" in it), None)
    if sent is None:
        return
    browser.open(f"{path}#{events[sent][0]['number']}")
    browser.click(".packet text")
    lit = browser.value("document.getElementById('marked').textContent.split('\\n').map(it => parseInt(it))")
    if events[sent][0]["number"] not in lit or lit != transaction(events, sent):
        yield f"a click on a packet lights up {lit}"


def transaction(events, place):
    """The lines of the events of a request's transaction: up to the first that accepts its answer."""
    asked, numbers = events[place][0]["sent"], []
    for event, _, _ in events[place:]:
        packet = event.get("sent") or event.get("taken")
        asks = event["event"] in ("ask", "serve", "refuse")
        if packet and packet["line"] == asked["line"] and packet["from" if asks else "to"] == asked["from"]:
            numbers.append(event["number"])
            if event["event"] == "accept":
                break
    return numbers


def written_faults(text, case, data):
    """Where a page's title or data are others than they have to be."""
    if html.unescape(re.search("<title>(.*?)</title>", text, re.DOTALL)[1]) != case.name:
        yield "another title"
    if html.unescape(re.search('<pre id="data" hidden>(.*?)</pre>', text, re.DOTALL)[1]) != data:
        yield "other data"
    if re.search("https?:", text.replace(case.name, "")):
        yield "an address"


def stored(case):
    """The page in docs/ of a schedule or a log, if there is one."""
    path = f"{TOP}/docs/pages/{case.name.removesuffix('.schedule').replace('.log', '-log')}.html"
    return path if os.path.exists(path) else None


def page_of(case):
    """The text of a page."""
    return ran("page", *getattr(case, "options", ()), "--title", case.name, given=case.given)


def write():
    """Renews the pages in docs/."""
    for case in (*cases(), *log_pages.cases()):
        if stored(case):
            with open(stored(case), "w") as file:
                file.write(page_of(case))


def faults(browser, folder, case):
    """What is wrong with a page."""
    text = page_of(case)
    of_log = isinstance(case, log_pages.Case)
    yield from written_faults(text, case, log_pages.data_of(case) if of_log else data_of(case))
    if stored(case):
        with open(stored(case)) as file:
            if file.read() != text:
                yield f"{os.path.relpath(stored(case), TOP)} is another page"
    if browser:
        path = f"{folder}/page.html"
        with open(path, "w") as file:
            file.write(text)
        try:
            if of_log:
                yield from log_pages.shown_faults(browser, path, case)
                return
            browser.open(path)
            yield from shown_faults(browser, case)
            yield from use_faults(browser, path, case)
        except ValueError as error:
            yield str(error)


def main():
    counts = {True: 0, False: 0}
    program = found()
    with tempfile.TemporaryDirectory(prefix="page-", ignore_cleanup_errors=True) as folder:
        with Browser(program, f"{folder}/user") if program else nullcontext() as browser:
            for case in (*cases(), *log_pages.cases()):
                wrong = list(faults(browser, folder, case))
                counts[not wrong] += 1
                print(f"{case.name}: {'; '.join(wrong[:3]) or 'right'}", flush=True)
    if not program:
        print("skipped: no browser")
    print(f"{counts[True]} passed, {counts[False]} failed")
    return 1 if counts[False] or not counts[True] else 0


sys.exit(write() if sys.argv[1:] == ["--write"] else main())
