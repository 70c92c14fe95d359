#!/usr/bin/env python3
"""Kills the program, fails its system calls and takes away the power, and asks what the next run finds.

usage: journal_outside.py [PROGRAM]

Each run is the built program on a folder of its own, under strace. For each system call that touches JOURNAL or its
folder, and for each way of failing, the same script is run anew:

- killed: the process dies as it enters the call; the files stay as they are.
- refused: the call answers EIO, and the process goes on.
- no power: the process dies as it enters the call, and the files are then what a loss of power may leave.

What a loss of power may leave, in the weakest setting: of JOURNAL each page of 4,096 bytes, by itself, as it was at the
last fsync of the file or as it is now; its name only where its folder was synced since it was made. In the setting
`ordered` a sync of the file keeps its name too, as ext4 does.

After each, a run that reads must end with status 0, or with status 7 where no transaction was acknowledged, and each
object whose write was acknowledged must read as it was written. A second run of `run new`, on a ROOT of its own, between the
two is the case of a journal that was made by a process that died. Prints a line for each kind, and ends with 1 at the first loss.
"""
import os
import random
import re
import shutil
import subprocess
import sys
import tempfile

ROOT = os.path.dirname(os.path.dirname(os.path.abspath(__file__)))
PROGRAM = os.path.join(ROOT, "crates", "filestore_cli", "out", "filestore_cli")
CALLS = "openat,open,creat,ftruncate,truncate,fsync,fdatasync,pwrite64,write,pread64,read,lseek,rename,renameat,renameat2,unlink,unlinkat,link,linkat"
PAGE = 4096
SMALL = 24_576
OBJECTS = 3


def name(number):
    return f"1.0_head/o{number}__head_{number:08X}__1"


def script(first=0):
    """Objects, each written and drained by itself."""
    lines = ["mkcoll 1.0_head", "drain"] if first == 0 else []
    for number in range(first, first + OBJECTS):
        lines += [f"write {name(number)} 0 x{number + 1:02x}aa", "drain"]
    return ("\n".join(lines) + "\n").encode()


READER = "".join(f"read {name(number)} 0 9\n" for number in range(2 * OBJECTS)).encode()


class Box:
    """A folder with ROOT and, in a folder of its own, JOURNAL."""

    def __init__(self, work):
        self.at = tempfile.mkdtemp(dir=work)
        self.folder = os.path.join(self.at, "kept")
        os.mkdir(self.folder)
        self.journal = os.path.join(self.folder, "journal")
        self.root = os.path.join(self.at, "store")

    def words(self, command):
        return [PROGRAM, self.root, self.journal] + command.split()

    def gone(self):
        shutil.rmtree(self.at)


def run(box, command, stdin, inject=None):
    """The status and the output of a run, and its calls as (name, line) where none is injected."""
    log = os.path.join(box.at, "log")
    trace = ["strace", "-f", "-y", "-e", f"trace={CALLS}", "-o", log]
    if inject:
        call, number, how = inject
        trace += ["-e", f"inject={call}:{how}:when={number}"]
    done = subprocess.run(trace + box.words(command), input=stdin, stdout=subprocess.PIPE, check=False)
    with open(log, encoding="latin-1") as lines:
        calls = [(found.group(1), line) for line in lines if (found := re.match(r"\d+\s+(\w+)\(", line))]
    return done.returncode, done.stdout.decode("latin-1").splitlines(), calls


def acknowledged(lines):
    """The greatest number in an `ack N` line."""
    return max((int(line.split()[1]) for line in lines if line.startswith("ack ")), default=0)


def numbered(calls, box):
    """The calls on the journal or its folder, each as (its name, its number among those of its name, its line)."""
    seen, found = {}, []
    for call, line in calls:
        seen[call] = seen.get(call, 0) + 1
        if box.folder in line:
            found.append((call, seen[call], line))
    return found


def content(box):
    if not os.path.exists(box.journal):
        return None
    with open(box.journal, "rb") as file:
        return file.read()


def check(box, acks, what):
    """A run that reads what was acknowledged: transaction 1 makes the collection, 2 and so on write the objects."""
    status, lines, _ = run(box, "run", READER)
    if status == 7 and acks == 0:
        return
    if status != 0:
        sys.exit(f"{what}: acknowledged up to {acks}, and the next run ends with {status}: {lines[-1:]}")
    for number in range(acks - 1):
        if lines[number] != f"data x{number + 1:02x}aa":
            sys.exit(f"{what}: object {number} was acknowledged by {acks} and reads `{lines[number]}`")


def settings(first):
    """What comes before the run that is cut off: nothing, or a journal of 24,576 bytes."""
    if first == "missing":
        return lambda box: None
    return lambda box: open(box.journal, "wb").write(bytes(SMALL))


def kills_and_refusals(work, first):
    start = settings(first)
    box = Box(work)
    start(box)
    _, _, calls = run(box, "run new", script())
    points = numbered(calls, box)
    box.gone()
    if first == "missing":
        points = thinned(points)
    for call, number, _ in points:
        for how in ("signal=KILL", "error=EIO"):
            box = Box(work)
            start(box)
            _, lines, _ = run(box, "run new", script(), (call, number, how))
            check(box, acknowledged(lines), f"{first}: {call} {number} {how}")
            box.gone()
    print(f"{first}: {len(points)} calls, each killed and refused: nothing acknowledged is lost")


def thinned(points):
    """Of the many writes that zero a large journal, the first and the last three."""
    writes = [point for point in points if point[0] in ("pwrite64", "write")]
    kept = set(map(id, writes[:3] + writes[-12:]))
    return [point for point in points if point[0] not in ("pwrite64", "write", "lseek") or id(point) in kept]


def no_power(work, first, ordered, twice):
    """Cut off at each call, then what a loss of power leaves; with `twice` a run before was killed there first."""
    start = settings(first)
    box = Box(work)
    start(box)
    _, _, calls = run(box, "run new", script())
    points = numbered(calls, box)
    box.gone()
    if first == "missing":
        points = thinned(points)
    draw = random.Random(7)
    for call, number, _ in points:
        box = Box(work)
        start(box)
        run(box, "run new", script(), (call, number, "signal=KILL"))
        made = first != "missing"
        if twice:
            stable = content(box)
            box.root = os.path.join(box.at, "again")
            status, lines, calls = run(box, "run new", script())
        else:
            stable = None
            lines, calls = [], []
        images(work, box, lines, calls, made, ordered, stable, draw, f"{first}: {call} {number}")
        box.gone()
    how = "in order" if ordered else "weakest"
    print(f"{first}, {how}{', a killed run before' if twice else ''}: {len(points)} points: nothing acknowledged is lost")


def images(work, box, lines, calls, made, ordered, stable, draw, what):
    """After a whole run: its name is kept where a sync says so, and each page is synced, since the last call is a sync."""
    acks = acknowledged(lines)
    if acks == 0:
        return
    folder_synced = any(call in ("fsync", "fdatasync") and f"<{box.folder}>" in line for call, line in calls)
    file_synced = any(call in ("fsync", "fdatasync") and f"<{box.journal}>" in line for call, line in calls)
    if not (made or folder_synced or (ordered and file_synced)):
        sys.exit(f"{what}: transaction {acks} was acknowledged and JOURNAL's name may be lost")
    pages(work, box, calls, stable, draw, acks, what)


def pages(work, box, calls, stable, draw, acks, what):
    """The pages written since the file's last sync may be as they were."""
    last = max((i for i, (call, line) in enumerate(calls) if call in ("fsync", "fdatasync") and f"<{box.journal}>" in line), default=-1)
    late = [line for call, line in calls[last + 1:] if call == "pwrite64" and f"<{box.journal}>" in line]
    now = content(box)
    for line in late:
        place = int(re.search(r", (\d+)\)\s+= ", line).group(1)) // PAGE * PAGE
        if stable is not None and draw.random() < 0.5:
            now = now[:place] + stable[place:place + PAGE] + now[place + PAGE:]
    with open(box.journal, "wb") as file:
        file.write(now)
    check(box, acks, what)


def main():
    global PROGRAM
    if len(sys.argv) > 1:
        PROGRAM = os.path.abspath(sys.argv[1])
    if not os.path.exists(PROGRAM):
        sys.exit(f"{PROGRAM} isn't built: run make run")
    if not shutil.which("strace"):
        print("strace is missing: nothing was tried")
        return
    with tempfile.TemporaryDirectory() as work:
        for first in ("small", "missing"):
            kills_and_refusals(work, first)
            for ordered in (True, False):
                no_power(work, first, ordered, twice=True)


if __name__ == "__main__":
    main()
