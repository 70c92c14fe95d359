#!/usr/bin/env python3
"""Times 10,000 operations of each kind that is built, through the program, on collections of 100, 1,000 and 10,000 objects.

Operations stand 1,000 to a transaction, each drained, on a new store. What the same script takes without them is taken off, so
that the figures are of parsing, checking, spelling, journalling and applying the operations alone. Then pages of 100 names and
other readings. Prints processor microseconds for one, least of three rounds.
Build the program first: `make run`. A word names the kinds to measure; none measures all.
"""
import os
import shutil
import subprocess
import sys
import tempfile

ROOT = os.path.dirname(os.path.dirname(os.path.abspath(__file__)))
PROGRAM = os.path.join(ROOT, "crates", "filestore_cli", "out", "filestore_cli")
SIZES = (100, 1_000, 10_000)
COUNT = 10_000
ROUNDS = 3
JOURNAL = 1 << 28


def place(number):
    """The number-th object of the collection, with a hash that is spread over all digits."""
    return f"1.0_head/o{number}__head_{number * 2654435761 % 2**32:08X}__1"


def spare(number):
    return f"1.0_head/p{number}__head_{number * 2654435761 % 2**32:08X}__1"


def both(number, size):
    """An object, and one that isn't there."""
    return place(number % size), spare(number % size)


# Each kind: what is done to each object before, and the number-th operation on an object.
KINDS = {
    "touch": (None, lambda i, o, s: f"touch {o}"),
    "write": (None, lambda i, o, s: f"write {o} {i % 64} x5ac35ac35ac35ac3"),
    "zero": (None, lambda i, o, s: f"zero {o} 0 64"),
    "truncate": (None, lambda i, o, s: f"truncate {o} {64 + i % 64}"),
    "touch and remove": (None, lambda i, o, s: f"touch {s}\nremove {s}"),
    "setattr": (None, lambda i, o, s: f"setattr {o} x5f{i % 8:02x} x0102"),
    "rmattr": ("setattr {o} x5f x01", lambda i, o, s: f"rmattr {o} x5f"),
    "rmattrs": ("setattr {o} x5f x01", lambda i, o, s: f"rmattrs {o}"),
    "mkcoll": (None, lambda i, o, s: f"mkcoll 2.{i:x}_head"),
    "rmcoll": (None, lambda i, o, s: f"rmcoll 2.{i:x}_head"),
}
READINGS = {
    "page of 100 names": lambda o: f"list 1.0_head {o.split('/')[1]} 100",
    "read": lambda o: f"read {o} 0 64",
    "stat": lambda o: f"stat {o}",
    "attrs": lambda o: f"attrs {o}",
    "omap": lambda o: f"omap {o}",
}
# how many of each reading: so many that the making of the objects is small beside them
PAGES = 200
READS = 20_000


def transactions(operations):
    """Operations, 1,000 to a transaction, each transaction drained."""
    lines = []
    for first in range(0, len(operations), 1_000):
        lines += ["begin", *operations[first : first + 1_000], "end", "drain"]
    return lines


def fill(size, before):
    """A collection of so many objects."""
    lines = transactions([f"touch {place(number)}" for number in range(size)])
    if before:
        lines += transactions([before.format(o=place(number)) for number in range(size)])
    return ["mkcoll 1.0_head", "drain"] + lines


def seconds(folder, lines):
    """Processor seconds of a run on a new store."""
    script = os.path.join(folder, "script")
    with open(script, "w") as out:
        out.write("\n".join(lines) + "\n")
    shutil.rmtree(os.path.join(folder, "store"), ignore_errors=True)
    with open(os.path.join(folder, "journal"), "wb") as out:
        out.truncate(JOURNAL)
    with open(script) as source, open(os.path.join(folder, "answers"), "w") as sink:
        child = subprocess.Popen([PROGRAM, "store", "journal", "run", "new"], stdin=source, stdout=sink, cwd=folder)
        _, ended, usage = os.wait4(child.pid, 0)
    answers = open(os.path.join(folder, "answers")).read()
    if os.waitstatus_to_exitcode(ended) != 0 or "refused" in answers:
        sys.exit(f"status {os.waitstatus_to_exitcode(ended)}: {answers[-200:]}")
    return usage.ru_utime + usage.ru_stime


def each(folder, setup, lines, count):
    """Microseconds for one of the lines."""
    without = min(seconds(folder, setup) for _ in range(ROUNDS))
    with_all = min(seconds(folder, setup + lines) for _ in range(ROUNDS))
    return (with_all - without) / count * 1e6


def kind_times(folder, kind):
    before, line = KINDS[kind]
    times = []
    for size in SIZES:
        setup = fill(size, before)
        if kind == "rmcoll":
            setup += transactions([f"mkcoll 2.{number:x}_head" for number in range(COUNT)])
        operations = [line(number, *both(number, size)) for number in range(COUNT)]
        times.append(each(folder, setup, transactions(operations), COUNT))
    return times


def reading_times(folder, reading):
    line = READINGS[reading]
    times = []
    for size in SIZES:
        setup = fill(size, "write {o} 0 x5ac35ac3")
        count = PAGES if "page" in reading else READS
        lines = [line(place(number * 7919 % size)) for number in range(count)]
        times.append(each(folder, setup, lines, count))
    return times


def main():
    if not os.path.exists(PROGRAM):
        sys.exit(f"{PROGRAM} isn't built: run make run")
    wanted = sys.argv[1:]
    print(f"cores: {os.cpu_count()}; microseconds with {', '.join(f'{size:,}' for size in SIZES)} objects")
    with tempfile.TemporaryDirectory() as folder:
        for kind in [*KINDS, *READINGS]:
            if wanted and kind.split()[0] not in wanted:
                continue
            times = kind_times(folder, kind) if kind in KINDS else reading_times(folder, kind)
            print(f"{kind}: " + ", ".join(f"{time:.2f}" for time in times), flush=True)


if __name__ == "__main__":
    main()
