#!/usr/bin/env python3
"""Times the program on ROOT and JOURNAL, beside a plain C program that makes the same system calls on files.

Each case is a script on a store. Its run is traced once by `strace`; `replay.c` makes the same calls, with the same lengths and
syncs, on a copy of the files as they were, with the same standard input and a file as standard output; it spells the bytes that
it writes there as digits, as the program has to. What starting a program takes is left out of either. Prints for each case the
seconds of both (least of three rounds), the ratio, and how many system calls and syncs a round makes. Build the program first:
`make run`. A word names the cases to measure.
"""
import os
import re
import shutil
import subprocess
import sys
import tempfile
import time

HERE = os.path.dirname(os.path.abspath(__file__))
PROGRAM = os.environ.get("PROGRAM") or os.path.join(os.path.dirname(HERE), "crates", "filestore_cli", "out", "filestore_cli")
ROUNDS = 3
COUNT = 1_000
BLOCK = "x" + "5a" * 4096
FILES = (
    "openat,close,read,write,pread64,pwrite64,fsync,fdatasync,ftruncate,lseek,fstat,statx,newfstatat,getdents64,stat,lstat,"
    "mkdir,mkdirat,unlink,unlinkat,rmdir,rename,renameat,renameat2,link,linkat"
)


def name(number):
    return f"1.0_head/o{number}__head_{number * 2654435761 % 2**32:08X}__1"


def each(line, drain_after=1, count=COUNT):
    """A line for each object, drained after each so many."""
    lines = []
    for number in range(count):
        lines.append(line(number))
        if (number + 1) % drain_after == 0:
            lines.append("drain")
    return lines + ["drain"]


def batched(line, count):
    """The same, 500 operations to a transaction."""
    lines = []
    for first in range(0, count, 500):
        lines += ["begin", *[line(number) for number in range(first, min(first + 500, count))], "end", "drain"]
    return lines


COLLECTION = ["mkcoll 1.0_head", "drain"]


def blocks(count):
    return COLLECTION + batched(lambda number: f"write {name(number)} 0 {BLOCK}", count)


def touched(count):
    return COLLECTION + batched(lambda number: f"touch {name(number)}", count)


# Each case: the script that makes the store, and the one that is measured.
CASES = {
    "new objects, a drain each": (COLLECTION, each(lambda n: f"write {name(n)} 0 {BLOCK}")),
    "new objects, a drain each 16": (COLLECTION, each(lambda n: f"write {name(n)} 0 {BLOCK}", 16)),
    "new objects, a drain each 100": (COLLECTION, each(lambda n: f"write {name(n)} 0 {BLOCK}", 100)),
    "overwrites, a drain each": (blocks(COUNT), each(lambda n: f"write {name(n)} 0 {BLOCK}")),
    "attributes, a drain each": (blocks(COUNT), each(lambda n: f"setattr {name(n)} x5f x0102")),
    "reads": (blocks(COUNT), [f"read {name(n)} 0 4096" for n in range(COUNT)]),
    "mount, 1,000 objects": (touched(1_000), []),
    "mount, 10,000 objects": (touched(10_000), []),
}


def text(lines):
    return "".join(line + "\n" for line in lines).encode()


def timed(folder, words, lines):
    """The seconds of a command, its status and what it printed; it reads a file, and prints to one."""
    with open(os.path.join(folder, "script"), "w+b") as script, open(os.path.join(folder, "printed"), "w+b") as printed:
        script.write(text(lines))
        script.seek(0)
        begin = time.monotonic()
        status = subprocess.run(words, cwd=folder, stdin=script, stdout=printed, check=False).returncode
        seconds = time.monotonic() - begin
        printed.seek(0)
        return seconds, status, printed.read()


def run(folder, command, lines, trace=()):
    seconds, status, printed = timed(folder, [*trace, PROGRAM, "root", "journal", *command.split()], lines)
    if status != 0 or b"refused" in printed:
        sys.exit(f"status {status}: {printed[-200:]}")
    return seconds


def start(folder):
    """What it takes to start the program."""
    return min(timed(folder, [PROGRAM], [])[0] for _ in range(20))


def hexed(string):
    return string.replace("\\x", "")


NUMBERS = {"O_RDONLY": os.O_RDONLY, "O_WRONLY": os.O_WRONLY, "O_RDWR": os.O_RDWR, "O_CREAT": os.O_CREAT, "O_EXCL": os.O_EXCL,
           "O_TRUNC": os.O_TRUNC, "O_APPEND": os.O_APPEND, "O_CLOEXEC": os.O_CLOEXEC, "O_DIRECTORY": os.O_DIRECTORY,
           "O_NONBLOCK": os.O_NONBLOCK, "O_NOFOLLOW": os.O_NOFOLLOW, "O_SYNC": os.O_SYNC, "O_DSYNC": os.O_DSYNC}
WHENCE = {"SEEK_SET": 0, "SEEK_CUR": 1, "SEEK_END": 2}


def flags_of(words):
    return sum(NUMBERS.get(word, 0) for word in words.split("|"))


def calls_of(log):
    """The calls of a trace, in the words of `replay.c`."""
    found = []
    for line in open(log):
        match = re.match(r"(?:\d+ +)?(\w+)\((.*)\) += (-?\d+)", line)
        if not match:
            continue
        call, rest, result = match.group(1), match.group(2), int(match.group(3))
        paths = [hexed(path) for path in re.findall(r'"((?:\\x[0-9a-f]{2})*)"', rest)]
        plain = re.sub(r'"[^"]*"(\.\.\.)?', '""', rest)
        words = [word.strip() for word in plain.split(",")]
        slot = int(words[0]) if re.fullmatch(r"\d+", words[0]) else None
        if call == "openat" and result >= 0:
            mode = int(words[3], 8) if len(words) > 3 else 0
            found.append(f"o {result} {flags_of(words[2])} {mode} {paths[0]}")
        elif call == "close":
            found.append(f"c {slot}")
        elif call in ("read", "write"):
            found.append(f"{call[0]} {slot} {words[-1]}")
        elif call in ("pread64", "pwrite64"):
            found.append(f"{'p' if call == 'pread64' else 'P'} {slot} {words[-2]} {words[-1]}")
        elif call in ("fsync", "fdatasync"):
            found.append(f"{'s' if call == 'fsync' else 'd'} {slot}")
        elif call == "ftruncate":
            found.append(f"t {slot} {words[1]}")
        elif call == "lseek":
            found.append(f"k {slot} {words[1]} {WHENCE.get(words[2], 0)}")
        elif call == "fstat" or (call in ("newfstatat", "statx") and slot is not None):
            found.append(f"f {slot}")
        elif call == "statx":
            found.append(f"x 0 {int('NOFOLLOW' in rest)} 0 {paths[0]}")
        elif call == "getdents64":
            found.append(f"g {slot} {words[-1]}")
        elif call in ("newfstatat", "stat", "lstat") and paths:
            found.append(f"S 0 {int('NOFOLLOW' in rest or call == 'lstat')} 0 {paths[0]}")
        elif call in ("mkdir", "mkdirat"):
            found.append(f"m 0 {int(words[-1], 8)} 0 {paths[0]}")
        elif call == "rmdir" or (call == "unlinkat" and "AT_REMOVEDIR" in rest):
            found.append(f"e 0 0 0 {paths[0]}")
        elif call in ("unlink", "unlinkat"):
            found.append(f"u 0 0 0 {paths[0]}")
        elif call.startswith("rename") and len(paths) == 2:
            found.append(f"R 0 0 0 {paths[0]} {paths[1]}")
        elif call in ("link", "linkat") and len(paths) == 2:
            found.append(f"L 0 0 0 {paths[0]} {paths[1]}")
    return found


def replayed(folder, words, lines):
    """The seconds that `replay.c` tells on its standard error."""
    with open(os.path.join(folder, "script"), "w+b") as script, open(os.path.join(folder, "printed"), "wb") as printed:
        script.write(text(lines))
        script.seek(0)
        return float(subprocess.run(words, cwd=folder, stdin=script, stdout=printed, stderr=subprocess.PIPE, check=True).stderr)


def measure(work, replay, case):
    before, lines = CASES[case]
    made = os.path.join(work, "made")
    os.mkdir(made)
    run(made, "run new", before)

    def fresh():
        folder = os.path.join(work, "round")
        shutil.rmtree(folder, ignore_errors=True)
        shutil.copytree(made, folder)
        os.sync()
        return folder

    folder = fresh()
    log = os.path.join(work, "log")
    run(folder, "run", lines, ["strace", "-f", "-qq", "-xx", "-s", "600", "-e", f"trace={FILES}", "-o", log])
    calls = calls_of(log)
    with open(os.path.join(work, "calls"), "w") as out:
        out.write("\n".join(calls) + "\n")
    ours = min(run(fresh(), "run", lines) for _ in range(ROUNDS)) - start(folder)
    plain = min(replayed(fresh(), [replay, os.path.join(work, "calls")], lines) for _ in range(ROUNDS))
    syncs = sum(call[0] in "sd" for call in calls)
    print(f"| {case} | {ours:.3f} s | {plain:.3f} s | {ours / plain:.2f} | {len(calls):,} | {syncs:,} |", flush=True)
    shutil.rmtree(made)


def main():
    if not os.path.exists(PROGRAM):
        sys.exit(f"{PROGRAM} isn't built: make run")
    if not shutil.which("strace"):
        print("strace is missing: nothing was measured")
        return
    chosen = [case for case in CASES if len(sys.argv) < 2 or sys.argv[1] in case]
    with tempfile.TemporaryDirectory() as work:
        replay = os.path.join(work, "replay")
        subprocess.run(["cc", "-O2", "-o", replay, os.path.join(HERE, "replay.c")], check=True)
        print("| case | program | plain C | ratio | calls | syncs |\n|---|---|---|---|---|---|")
        for case in chosen:
            measure(work, replay, case)


if __name__ == "__main__":
    main()
