"""Trials of a built program: refused allocations, little address space, and devices that fail. scripts/gate/try_faults.py says
more."""

import os
import re
import signal
import subprocess
import time
from collections import namedtuple
from errno import EAGAIN, EINTR, EIO, ENOSPC, EPIPE

from fault_runs import Ran, Trial
from stored_cases import stored_cases
from thread_faults import try_threads

# A run of a program: a name, the words of its command line, its input, what it has to write, and its usage line.
Case = namedtuple("Case", "name words given status output errors usage")

# Of each program a word that chooses a command, and the stored case with no word.
PROGRAMS = {"scimem": (b"oracle", "words.txt: no word"), "sciview": (b"order", "sciview-words.txt: no word")}

# A standard output whose reader has left.
NO_READER = "a pipe without a reader"

# How many operations and entries of each of 16 nodes the larger inputs have. A list takes memory for each event, so those of
# `sciview` have fewer.
LARGER = {"scimem": 300, "sciview": 60}


def odd_words(word):
    """Words that choose no command, of a word that does."""
    return ([b"\xff"], [b""], [word, b"\xff"], [word + b"\n"], [b"\xef\xbb\xbf" + word], [word] * 100_000, [b"o" * 130_000])


def usage_of(top, name):
    """What a program writes on standard error if the words of its command line choose no command."""
    return next(it.errors for it in stored_cases(top) if it.name == PROGRAMS[name][1])


def told(program, case, words):
    """What a program says of a command on standard error."""
    command = [it for it in case.words[:1] if not it.startswith("-")]
    return " ".join([os.path.basename(program), *command]).encode() + b": %s\n" % words


def refused(program, case, kind, words):
    """How the whole input of a command is refused: the status, the line of scimem's standard output, and what is said of it."""
    place = b"byte" if case.words == ["decode"] else b"line"
    output = b"refused at %s 0: %s\n" % (place, kind) if os.path.basename(program) == "scimem" else b""
    return 2, output, told(program, case, words)


def unread(program, case):
    return refused(program, case, b"read", b"the input can't be read")


def unwritten(program, case, has_left):
    """What is said if the output can't be written, for a reader that has left or not. A refusal is told in its place, and so are
    events that aren't enabled if the reader has left. Which line of a log is which address is told behind a whole log alone."""
    if has_left and "--log" in case.words:
        return b"" if case.status == 0 else case.errors
    if case.status == 2 or has_left:
        return case.errors
    return told(program, case, b"standard output can't be written")


def plain_cases(top, program):
    """The stored cases that are one run of a program whose input is stored. Those of `threads` have to be of one node, which
    needs no second thread: with several, the answer differs if a thread is refused."""
    usage = usage_of(top, program)
    for it in stored_cases(top):
        if it.program == program:
            yield Case(it.name, it.words, it.given, it.status, it.output, it.errors, usage)


def larger_cases(faults, name, program, count):
    """A case of each command whose input has `count` operations, events, entries and packets of each node or kind."""
    made = lambda *words: subprocess.run([f"{faults.top}/scripts/make/inputs.py", *words], stdout=subprocess.PIPE, check=True).stdout
    script = made("script", str(count), "4")
    schedule = b"\n".join(made("schedule").split(b"\n")[: count * 16 + 1]) + b"\n"
    log = faults.run([f"{faults.top}/crates/scimem/out/scimem", "oracle"], script).output
    inputs = {
        "scimem": {
            "oracle": script,
            "replay": schedule,
            "audit": log,
            "upgrade": log,
            "decode": made("packets", str(count)),
        },
        "sciview": {
            "order": log,
            "explain": log,
            "packets": schedule,
            "trace": schedule,
            "lists": schedule,
            "stats": schedule,
            "chart": schedule,
            "page": schedule,
        },
    }
    usage = usage_of(faults.top, name)
    for command, given in inputs[name].items():
        whole = faults.run([program, command], given)
        yield Case(f"{command}, {len(given):,} bytes", [command], given, whole.status, whole.output, whole.errors, usage)


def is_whole(ran, case):
    return ran[:3] == (case.status, case.output, case.errors)


def is_memory(ran, case, program):
    """Whether memory is told and nothing else; or, if the command line couldn't be read, the usage line, or why there is none."""
    unread_words = case.usage, b"sciview: there is no memory for the words\n"
    if ran.told != b"a" and ran[:2] == (2, b"") and ran.errors in unread_words:
        return True
    return ran[:3] == refused(program, case, b"memory", b"out of memory")


def is_bare(ran, case, program):
    """Whether a refusal names the kind of its fault alone, since there was no memory to say more."""
    if ran[:2] != (case.status, case.output) or case.status != 2:
        return False
    bare = re.fullmatch(rb"(.*: line \d+): (?:syntax|range|too-many)\n", ran.errors)
    asked = ran.errors == told(program, case, b"a number is out of range") and b": --" in case.errors
    return case.errors.startswith(bare[1]) if bare else asked


def try_allocations(faults, program, case):
    """Refuses each allocation in turn, until a run refuses none."""
    trial = Trial(f"allocations of {case.name}")
    for number in range(1, 1_000_000):
        ran = faults.run([program, *case.words], case.given, fault=f"alloc:{number}")
        trial.count(ran.told)
        if not (is_whole(ran, case) or ran.told and (is_memory(ran, case, program) or is_bare(ran, case, program))):
            trial.fail(f"allocation {number}", ran)
        if not ran.told:
            return trial


def try_reads(faults, program, case):
    """Has each read fail in turn, while a read gives at most five bytes."""
    trial = Trial(f"reads of {case.name}")
    for error in (EIO, EINTR, EAGAIN):
        for number in range(1, 1_000_000):
            how = {"fault": f"read:{number}", "error": error, "most": 5}
            ran = faults.run([program, *case.words], case.given, **how)
            trial.count(ran.told)
            if not (ran[:3] == unread(program, case) if ran.told else is_whole(ran, case)):
                trial.fail(f"read {number} with error {error}", ran)
            if not ran.told:
                break
    return trial


def try_writes(faults, program, case):
    """Has each write fail in turn, while a write takes at most seven bytes."""
    trial = Trial(f"writes of {case.name}")
    for error in (ENOSPC, EPIPE, EINTR, 0):
        for number in range(1, 1_000_000):
            how = {"fault": f"write:{number}", "error": error, "most": 7}
            ran = faults.run([program, *case.words], case.given, **how)
            trial.count(ran.told)
            cut = ran[:3] == (2, case.output[: 7 * (number - 1)], unwritten(program, case, error == EPIPE))
            if not (cut if ran.told else is_whole(ran, case)):
                trial.fail(f"write {number} with error {error}", ran)
            if not ran.told:
                break
    return trial


def try_one_byte(faults, program, case):
    """One byte with each read, and with each write."""
    trial = Trial(f"single bytes of {case.name}")
    trial.refused = 1
    ran = faults.run([program, *case.words], case.given, most=1)
    return trial if is_whole(ran, case) else trial.fail("one byte at a time", ran)


def least_space(faults, program, usage):
    """The least address space, in steps of 4 KB, with which the program starts: it then writes its usage line."""
    starts = lambda kilobytes: faults.run([program], kilobytes=kilobytes)[:3] == (2, b"", usage)
    low, high = 0, 1 << 14
    while high - low > 4:
        middle = (low + high) // 8 * 4
        low, high = (low, middle) if starts(middle) else (middle, high)
    return high


def try_space(faults, program, case, least, steps):
    """Limits the address space in even steps, from the least to a size with which the answer is whole."""
    trial = Trial(f"address space of {case.name}")
    run = lambda kilobytes: faults.run([program, *case.words], case.given, kilobytes=kilobytes)
    enough = next((1 << bits for bits in range(6, 20) if is_whole(run(least + (1 << bits)), case)), None)
    if not enough:
        return trial.fail("half a gigabyte is not enough", None)
    limits = [least + enough * step // steps for step in range(steps + 1)]
    for kilobytes, ran in zip(limits, faults.pool.map(run, limits)):
        trial.count(not is_whole(ran, case))
        if not (is_whole(ran, case) or is_memory(ran, case, program) or is_bare(ran, case, program)):
            trial.fail(f"{kilobytes} KB", ran)
    return trial


def with_files(program, case, **files):
    """A run whose standard input and output are these files, or are closed (None). It tells only what it wrote to a pipe."""
    closed = " ".join(f"{word}-" for word, name in (("<&", "stdin"), (">&", "stdout")) if files.get(name, 0) is None)
    files = {name: file for name, file in files.items() if file is not None}
    words = ["bash", "-c", f'exec "$0" "$@" {closed}', program, *case.words]
    files = {"stdin": subprocess.DEVNULL, "stdout": subprocess.PIPE, **files}
    ran = subprocess.run(words, stderr=subprocess.PIPE, timeout=60, **files)
    return Ran(ran.returncode, ran.stdout or b"", ran.stderr, b"")


def input_devices(program, case):
    """Standard inputs that can't be read: what each is, and a run with it."""
    yield "closed", with_files(program, case, stdin=None)
    with open("/dev/full", "wb") as full:
        yield "open for writing alone", with_files(program, case, stdin=full)
    folder = os.open("/", os.O_RDONLY)
    yield "a folder", with_files(program, case, stdin=folder)
    os.close(folder)
    reader, writer = os.pipe()
    os.set_blocking(reader, False)
    yield "an empty pipe that never waits", with_files(program, case, stdin=reader)
    os.close(reader)
    os.close(writer)


def output_devices(program, case, path):
    """Standard outputs that can't be written: what each is, and a run with it, whose input is the file."""
    with open(path, "rb") as file, open("/dev/full", "wb") as full:
        yield "/dev/full", with_files(program, case, stdin=file, stdout=full)
    with open(path, "rb") as file:
        yield "closed", with_files(program, case, stdin=file, stdout=None)
    with open(path, "rb") as file, open(path, "rb") as other:
        yield "open for reading alone", with_files(program, case, stdin=file, stdout=other)
    reader, writer = os.pipe()
    os.close(reader)
    with open(path, "rb") as file:
        yield NO_READER, with_files(program, case, stdin=file, stdout=writer)
    os.close(writer)


def full_pipe(program, case, path):
    """A run into a pipe that never waits, and that nobody reads until the run has ended. Its input is the file."""
    reader, writer = os.pipe()
    os.set_blocking(writer, False)
    with open(path, "rb") as file:
        ran = with_files(program, case, stdin=file, stdout=writer)
    os.close(writer)
    with os.fdopen(reader, "rb") as taken:
        return ran._replace(output=taken.read())


def reader_that_leaves(program, case, path):
    """A run whose output is closed once its first ten bytes were read. Its input is the file."""
    words = [program, *case.words]
    with open(path, "rb") as file, subprocess.Popen(words, stdin=file, stdout=subprocess.PIPE) as ran:
        front = ran.stdout.read(10)
        ran.stdout.close()
        return Ran(ran.wait(60), front, b"", b"")


def halting_writer(program, case):
    """A run that is stopped and continued while it waits for input, which comes in two parts."""
    words = [program, *case.words]
    with subprocess.Popen(words, stdin=subprocess.PIPE, stdout=subprocess.PIPE, stderr=subprocess.PIPE) as ran:
        half = len(case.given) // 2
        ran.stdin.write(case.given[:half])
        ran.stdin.flush()
        for sent in (signal.SIGSTOP, signal.SIGCONT, signal.SIGWINCH):
            time.sleep(0.02)
            ran.send_signal(sent)
        output, errors = ran.communicate(case.given[half:], timeout=60)
        return Ran(ran.returncode, output, errors, b"")


def try_devices(faults, program, case):
    """Real devices that fail, with no library between."""
    trial = Trial(f"devices of {case.words[0]}")
    path = f"{faults.room}/{case.words[0]}"
    with open(path, "wb") as file:
        file.write(case.given)
    cut = lambda count, has_left: (2, case.output[:count], unwritten(program, case, has_left))
    runs = [(what, ran, unread(program, case)) for what, ran in input_devices(program, case)]
    runs += [(what, ran, cut(0, what == NO_READER)) for what, ran in output_devices(program, case, path)]
    # (a pipe holds 65,536 bytes, so that a writer of more than a megabyte is still writing)
    if len(case.output) > 1 << 20:
        runs.append(("a reader that leaves", reader_that_leaves(program, case, path), cut(10, True)))
        runs.append(("a full pipe", full_pipe(program, case, path), cut(1 << 16, False)))
    for what, ran, wanted in runs:
        trial.count(True)
        if ran[:3] != wanted:
            trial.fail(what, ran)
    trial.count(True)
    ran = halting_writer(program, case)
    return trial if is_whole(ran, case) else trial.fail("a stopped run", ran)


def try_words(faults, program, usage, words):
    """A command line that chooses no command: how the command or the program is called, status 2, and nothing is read."""
    trial = Trial(f"{len(words)} words {words[0][:20]!r}")
    ran = faults.run([program, *words])
    called = ran.errors == usage or re.fullmatch(rb"sciview order: .*\nusage: sciview order .*\n", ran.errors)
    return trial if ran[:2] == (2, b"") and called else trial.fail("odd words", ran)


def tell(name, what, trials):
    """Prints how many calls were refused in trials, or how many runs were made."""
    print(f"{name}: {len(trials)} inputs, {sum(it.refused for it in trials)} {what}", flush=True)
    return trials


def try_program(faults, name):
    """All trials of a program."""
    program = f"{faults.top}/crates/{name}/out/{name}"
    if not os.path.isfile(program):
        return [Trial(name).fail("the program is not built: run make faults", None)]
    usage = usage_of(faults.top, name)
    stored, larger = list(plain_cases(faults.top, name)), list(larger_cases(faults, name, program, LARGER[name]))
    each = lambda call, cases: list(faults.pool.map(lambda it: call(faults, program, it), cases))
    trials = tell(name, "allocations refused", each(try_allocations, stored + larger))
    trials += tell(name, "reads failed", each(try_reads, stored))
    trials += tell(name, "writes failed", each(try_writes, stored))
    trials += tell(name, "runs with one byte a read and a write", each(try_one_byte, stored + larger))
    least = least_space(faults, program, usage)
    space = [try_space(faults, program, it, least, 32) for it in stored]
    space += [try_space(faults, program, it, least, 256) for it in larger]
    largest = list(larger_cases(faults, name, program, 16_384))
    space += [try_space(faults, program, it, least, 64) for it in largest]
    trials += tell(name, f"runs refused for want of address space, from {least} KB on", space)
    trials += tell(name, "devices that fail", each(try_devices, largest))
    if name == "scimem":
        trials += try_threads(faults, program, usage, least, tell)
    odd = [try_words(faults, program, usage, it) for it in odd_words(PROGRAMS[name][0])]
    print(f"{name}: {len(odd)} command lines that choose no command", flush=True)
    return trials + odd
