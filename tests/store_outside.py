#!/usr/bin/env python3
"""Kills the program and fails its system calls, and asks what the next run finds.

usage: store_outside.py [PROGRAM]

Each run is the built program on a ROOT and a JOURNAL of its own, under strace. For each system call that touches either or
the folder of both, the same script is run anew: once the process dies as it enters the call, and once the call answers EIO.

Then a run that reads must end with status 0, or with status 7 where nothing was acknowledged. It must read the objects after
a number of transactions that is no less than the last one acknowledged, and once it is closed `tests/read_store.py` must read
the same. Prints a line for each kind, and ends with 1 at the first loss.
"""
import os
import re
import shutil
import subprocess
import sys
import tempfile

sys.path.insert(0, os.path.dirname(os.path.abspath(__file__)))
from read_store import objects  # noqa: E402

HERE = os.path.dirname(os.path.dirname(os.path.abspath(__file__)))
PROGRAM = os.path.join(HERE, "crates", "filestore_cli", "out", "filestore_cli")
CALLS = (
    "openat,open,creat,ftruncate,truncate,fsync,fdatasync,pwrite64,write,pread64,read,lseek,rename,renameat,renameat2,"
    "unlink,unlinkat,link,linkat,mkdir,mkdirat,rmdir,getdents64"
)
SMALL = 24_576
COLLECTION = "1.0_head"
LONG = "n" * 230


def name(number):
    front = LONG if number % 2 else "o"
    return f"{front}{number}__head_{number:08X}__1"


# Each transaction as its statement, and what it does to the objects: {name: (bytes, attributes)}.
def made(state):
    return {}


def written(number, value):
    def after(state):
        old = state.get(name(number), (b"", {}))
        return {**state, name(number): (value + old[0][len(value):], old[1])}

    return f"write {COLLECTION}/{name(number)} 0 x{value.hex()}", after


def attributed(number, key, value):
    def after(state):
        old = state.get(name(number), (b"", {}))
        return {**state, name(number): (old[0], {**old[1], key: value})}

    return f"setattr {COLLECTION}/{name(number)} x{key.hex()} x{value.hex()}", after


def removed(number):
    def after(state):
        return {key: value for key, value in state.items() if key != name(number)}

    return f"remove {COLLECTION}/{name(number)}", after


TRANSACTIONS = [
    (f"mkcoll {COLLECTION}", made),
    written(0, b"\x01\xaa"),
    written(1, b"\x02\xbb"),
    attributed(1, b"k", b"v"),
    written(0, b"\x03"),
    removed(1),
    written(2, b"\x04\xcc"),
]


def states():
    """The objects after each number of transactions; None stands for a store without the collection."""
    found = [None]
    for _, after in TRANSACTIONS:
        found.append(after(found[-1] or {}))
    return found


STATES = states()
SCRIPT = "".join(f"{statement}\ndrain\n" for statement, _ in TRANSACTIONS).encode()
READER = f"list {COLLECTION} - 100\n".encode()


class Box:
    """A folder with ROOT and JOURNAL."""

    def __init__(self, work):
        self.at = tempfile.mkdtemp(dir=work)
        self.kept = os.path.join(self.at, "kept")
        os.mkdir(self.kept)
        self.root = os.path.join(self.kept, "root")
        self.journal = os.path.join(self.kept, "journal")
        with open(self.journal, "wb") as file:
            file.write(bytes(SMALL))

    def run(self, command, stdin, inject=None):
        """The status and the output of a run, and its calls as (name, line) where none is injected."""
        log = os.path.join(self.at, "log")
        trace = ["strace", "-f", "-y", "-e", f"trace={CALLS}", "-o", log]
        if inject:
            call, number, how = inject
            trace += ["-e", f"inject={call}:{how}:when={number}"]
        words = [PROGRAM, self.root, self.journal] + command.split()
        done = subprocess.run(trace + words, input=stdin, stdout=subprocess.PIPE, check=False)
        with open(log, encoding="latin-1") as lines:
            calls = [(found.group(1), line) for line in lines if (found := re.match(r"\d+\s+(\w+)\(", line))]
        return done.returncode, done.stdout.decode("latin-1").splitlines(), calls

    def gone(self):
        shutil.rmtree(self.at)


def acknowledged(lines):
    """The greatest number in an `ack N` line."""
    return max((int(line.split()[1]) for line in lines if line.startswith("ack ")), default=0)


def points(box, calls):
    """The calls on ROOT, JOURNAL or their folder, each as (its name, its number among those of its name)."""
    seen, found = {}, []
    for call, line in calls:
        seen[call] = seen.get(call, 0) + 1
        if box.kept in line:
            found.append((call, seen[call]))
    return found


def check(box, acks, what):
    """The next run mounts, and the closed store has the objects after some transactions, at least those acknowledged."""
    status, lines, _ = box.run("run", READER)
    if status == 7 and acks == 0:
        return
    if status != 0:
        sys.exit(f"{what}: acknowledged up to {acks}, and the next run ends with {status}: {lines[-1:]}")
    listed = None if lines == ["none"] else sorted(lines[1:-1])
    folder = os.path.join(box.root, "tree", "current", COLLECTION)
    there = {name: (content, attrs) for _, name, content, attrs in objects(box.root)} if os.path.isdir(folder) else None
    if (None if there is None else sorted(there)) != listed:
        sys.exit(f"{what}: the run lists {listed}, and the files are {there}")
    if there not in STATES[acks:]:
        sys.exit(f"{what}: acknowledged up to {acks}, and the objects are {there}")


def trial(work, before, command):
    """Cuts off a run at each of its calls. `before` says what ran on the store earlier."""
    box = Box(work)
    before(box)
    status, lines, calls = box.run(command, SCRIPT)
    if status != 0 or acknowledged(lines) < len(TRANSACTIONS):
        sys.exit(f"{command}: the whole run ends with {status}: {lines[-1:]}")
    cuts = points(box, calls)
    box.gone()
    for call, number in cuts:
        for how in ("signal=KILL", "error=EIO"):
            box = Box(work)
            before(box)
            _, lines, _ = box.run(command, SCRIPT, (call, number, how))
            check(box, acknowledged(lines), f"{command}: {call} {number} {how}")
            box.gone()
    print(f"{command}: {len(cuts)} calls, each killed and refused: nothing acknowledged is lost")


def main():
    global PROGRAM
    if len(sys.argv) > 1:
        PROGRAM = os.path.abspath(sys.argv[1])
    if not os.path.exists(PROGRAM):
        sys.exit(f"{PROGRAM} isn't built: run make run")
    if not shutil.which("strace"):
        print("strace is missing: nothing was tried")
        return
    with tempfile.TemporaryDirectory() as work:
        trial(work, lambda box: None, "run new")
        trial(work, lambda box: box.run("run new", b""), "run")


if __name__ == "__main__":
    main()
