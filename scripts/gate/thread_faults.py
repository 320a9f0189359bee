"""Trials of `scimem threads` with several nodes: refused allocations, threads that can't be made, little address space.

A run by threads has no answer that is known before: it is one of many. So each log is looked at (thread_logs.py): it has to
be whole, also where threads can't be made. Else memory is refused, and nothing else is written."""

import random
from collections import namedtuple

from fault_runs import Trial
from thread_logs import wrong_log

WORDS = ["threads"]
MEMORY = (2, b"refused at line 0: memory\n", b"scimem threads: out of memory\n")

# A script of several nodes: its name, its text, and the most address space that it is given above the least, in KB.
Script = namedtuple("Script", "name given most_space")


def script(nodes, lines, count, most_space):
    """A script with this many operations of each node, on any line."""
    chance = random.Random(nodes)
    acts = ("load {} 0", "store {} 0 7", "fetch-add {} 0 1")
    rows = [f"p {n} {chance.choice(acts).format(chance.randrange(lines))}" for _ in range(count) for n in range(nodes)]
    given = "\n".join([f"machine {nodes} {lines} 2", *rows, ""]).encode()
    return Script(f"threads, {nodes} nodes", given, most_space)


def is_right(ran, it, usage):
    """Whether a run has written a whole log of its script, or has refused for want of memory."""
    if ran.told != b"a" and ran[:3] == (2, b"", usage):
        return True
    if ran.status == 0 and not ran.errors:
        return wrong_log(it.given, ran.output) is None
    return ran[:3] == MEMORY


def try_calls(faults, program, usage, it, kind):
    """Has each call of a kind fail in turn, until a run has none that fails. That run has to be whole, and so has each in
    which a thread can't be made."""
    trial = Trial(f"{kind}s of {it.name}")
    for number in range(1, 1_000_000):
        ran = faults.run([program, *WORDS], it.given, fault=f"{kind}:{number}")
        trial.count(ran.told)
        if not is_right(ran, it, usage) or ran.status != 0 and (kind == "thread" or not ran.told):
            trial.fail(f"{kind} {number}", ran)
        if not ran.told:
            return trial


def try_space(faults, program, usage, it, least):
    """Limits the address space in even steps, from the least on."""
    trial = Trial(f"address space of {it.name}")
    limits = [least + it.most_space * step // 16 for step in range(17)]
    run = lambda kilobytes: faults.run([program, *WORDS], it.given, kilobytes=kilobytes)
    for kilobytes, ran in zip(limits, faults.pool.map(run, limits)):
        trial.count(ran.status != 0)
        if not is_right(ran, it, usage):
            trial.fail(f"{kilobytes} KB", ran)
    return trial


def try_threads(faults, program, usage, least, tell):
    """All these trials."""
    scripts = [script(3, 3, 20, 1 << 15), script(16, 4, 20, 1 << 18)]
    each = lambda kind: list(faults.pool.map(lambda it: try_calls(faults, program, usage, it, kind), scripts))
    trials = tell("scimem threads", "allocations refused", each("alloc"))
    trials += tell("scimem threads", "threads refused", each("thread"))
    space = [try_space(faults, program, usage, it, least) for it in scripts]
    return trials + tell("scimem threads", "runs refused for want of address space", space)
