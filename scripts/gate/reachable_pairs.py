#!/usr/bin/env python3
"""Goes through all that one line of memory can be in, in a machine of N nodes, and prints which pairs of a state and what it
met never come:

    scripts/gate/reachable_pairs.py [N]        3 nodes, if it isn't said; 4 take some minutes and 2 GB

It is written after the tables of docs/PROTOCOL.md, and uses nothing of the crates. Contents, versions and control numbers are
left out: a node has one ask of the line under way at most, so no answer is another ask's. A node may ask whatever its state
lets it ask, and any request but a setback may be refused. More lines of memory only take away: their packets share lanes and
version slots. check_pages.py asks it whether a pair comes of which docs/COMMANDS.md says that none does."""

import sys

from protocol_pairs import pairs_of_code, pairs_that_never_come

HOME = "home"
# What a cache that waits does where the answer is busy, and what it is then.
AFTER_BUSY = {"Asking": "Out", "Purging": "Head", "Claiming": "FreshHead", "Rolling": "Below", "Fading": "Out"}


def asks(state):
    """What a cache in a state may ask: the request, its target, what it names, and the state then. A state is its name, and behind it
    its identifiers: the forward one (None if there is none), the backward one."""
    name, *ids = state
    if name == "Out":
        yield "mread", HOME, None, ("Asking",)
        yield "fread", HOME, None, ("Asking",)
    elif name in ("Joining", "FreshJoining") and not ids[1]:
        yield "cread", ids[0], None, (name, ids[0], True)
    elif name == "Head" and ids[0] is not None:
        yield "purge", ids[0], None, ("Purging", ids[0])
    elif name == "Head":
        yield "wback", HOME, None, ("Returning",)
    elif name == "FreshHead":
        yield "claim", HOME, None, ("Claiming", ids[0])
        if ids[0] is None:
            yield "clear", HOME, None, ("Clearing",)
    elif name == "Below":
        yield "roll", ids[1], ids[0], ("Rolling", *ids)
    elif name == "Telling" and not ids[2]:
        yield "setback", ids[0], ids[1], ("Telling", ids[0], ids[1], True)


def served_at_home(home, asker, request):
    """How a home serves a request: its state then, the answer, and what that names."""
    name, head = home
    if request == "mread":
        return ("GONE", asker), *(("mdata", None) if name == "HOME" else ("mgone", head))
    if request == "fread" and name == "GONE":
        return ("GONE", asker), "mgone", head
    if request == "fread":
        return ("FRESH", asker), "fdata", head
    granted = home == (("GONE" if request == "wback" else "FRESH"), asker)
    if not granted:
        return home, "wbno", None
    return ("GONE", asker) if request == "claim" else ("HOME", None), "wbok", None


def served(state, asker, request, named):
    """How a cache serves a request: its state then, the answer, and what that names."""
    name, *ids = state
    if request == "cread" and name in ("Head", "FreshHead"):
        return ("Below", ids[0], asker), "cdata", None
    if request == "purge" and name in ("Below", "Rolling"):
        return ("Out",) if name == "Below" else ("Fading",), "purged", ids[0]
    if request == "roll" and name in ("Head", "FreshHead", "Below") and ids[0] == asker:
        return (name, named, *ids[1:]), "rolled", None
    if request == "setback":
        return (name, ids[0], named) if name in ("Below", "Rolling") and ids[1] == asker else state, "told", None
    return state, "busy", None


def accepted(state, answer, named):
    """The state of a cache that has accepted an answer."""
    name, *ids = state
    if answer == "mdata":
        return ("Head", None)
    if answer == "mgone":
        return ("Joining", named, False)
    if answer == "fdata":
        return ("FreshHead", None) if named is None else ("FreshJoining", named, False)
    if answer == "cdata":
        return ("Head" if name == "Joining" else "FreshHead", ids[0])
    if answer == "purged":
        return ("Head", named)
    if answer == "wbok":
        return ("Head", ids[0]) if name == "Claiming" else ("Out",)
    if answer == "rolled":
        return ("Out",) if ids[0] is None else ("Telling", ids[0], ids[1], False)
    if answer == "told":
        return ("Out",)
    if name in ("Joining", "FreshJoining"):
        return (name, ids[0], False)
    if name in ("Clearing", "Returning"):
        return ("FreshHead" if name == "Clearing" else "Head", None)
    return (AFTER_BUSY[name], *ids)


def changed(values, place, value):
    return values[:place] + (value,) + values[place + 1 :]


def steps(whole):
    """What can happen: the pair, if it is one, and all that the line is in then. Of each node it has the state of the cache and the
    packet under way by its ask: whether it is an answer, the command, its receiver, and what it names."""
    home, states, ways = whole
    for n, (state, way) in enumerate(zip(states, ways)):
        if way is None:
            for request, target, named, then in asks(state):
                yield f"cache.{state[0]}.ask.{request}", (home, changed(states, n, then), changed(ways, n, (False, request, target, named)))
            continue
        is_answer, command, target, named = way
        if is_answer:
            yield f"cache.{state[0]}.accept.{command}", (home, changed(states, n, accepted(state, command, named)), changed(ways, n, None))
            continue
        if command != "setback":
            yield None, (home, states, changed(ways, n, (True, "busy", None, None)))
        if target == HOME:
            then, answer, names = served_at_home(home, n, command)
            yield f"home.{home[0]}.serve.{command}", (then, states, changed(ways, n, (True, answer, None, names)))
        else:
            then, answer, names = served(states[target], n, command, named)
            yield f"cache.{states[target][0]}.serve.{command}", (home, changed(states, target, then), changed(ways, n, (True, answer, None, names)))


def reached(nodes):
    """How many states there are, and the pairs that come."""
    first = (("HOME", None), (("Out",),) * nodes, (None,) * nodes)
    seen, left, pairs = {first}, [first], set()
    while left:
        for pair, then in steps(left.pop()):
            pairs.add(pair)
            if then not in seen:
                seen.add(then)
                left.append(then)
    for state in ("Head", "FreshHead", "Below"):
        pairs.add(f"cache.{state}.perform.load")
    return len(seen), pairs - {None} | {"cache.Head.perform.maker"}


def wrong_reasons(nodes=3):
    """The pairs that come in a machine of this many nodes, and of which docs/COMMANDS.md says that they never do."""
    _count, pairs = reached(nodes)
    return [f"docs/COMMANDS.md says that {it} never comes" for it in pairs_that_never_come() if it in pairs]


def main(words):
    count, pairs = reached(int((words + ["3"])[0]))
    never, said = set(pairs_of_code()) - pairs, set(pairs_that_never_come())
    print(f"{count:,} states, {len(pairs)} pairs")
    for pair in sorted(never):
        print(f"never {pair}{'' if pair in said else ', though docs/COMMANDS.md has no reason'}")
    for pair in sorted(pairs & said):
        print(f"docs/COMMANDS.md says that {pair} never comes")
    return 1 if pairs & said else 0


if __name__ == "__main__":
    sys.exit(main(sys.argv[1:]))
