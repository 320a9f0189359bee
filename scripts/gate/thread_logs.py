"""What is wrong with a log of `scimem threads`, if something is."""

from collections import Counter

from plain_answers import Lines, answer, read_log, read_script


def wrong_log(given, log):
    """Why this isn't a whole log of a run of the script, or None if it is: it is lawful, and each operation of the script has
    one entry, with its serial."""
    _nodes, _lines, issued = read_script(Lines(given))
    if answer("audit", log) != (0, b"lawful\n"):
        return "a log that isn't lawful"
    asked, serials = Counter(), Counter()
    for node, operation in issued:
        asked[node, serials[node], operation] += 1
        serials[node] += 1
    _nodes, _last, entries = read_log(Lines(log), True)
    logged = Counter((it.node, it.serial, it.operation) for it in entries)
    if logged - asked:
        return "entries that aren't the script's"
    if logged != asked:
        return "operations without an entry"
    return None
