#!/usr/bin/env python3
"""Spoils a store by hand, in one way at a time, and asks what the program answers.

usage: refused_stores.py [PROGRAM]

Each case begins with a copy of one closed store. The next run must print the one line that says what is wrong, end with
status 7, and leave each file of ROOT and the bytes of JOURNAL as they were. Prints a line for each case, and ends with 1 at
the first other answer.
"""
import os
import shutil
import subprocess
import sys
import tempfile

HERE = os.path.dirname(os.path.dirname(os.path.abspath(__file__)))
PROGRAM = os.path.join(HERE, "crates", "filestore_cli", "out", "filestore_cli")
SMALL = 24_576
SCRIPT = b"mkcoll 1.0_head\nwrite 1.0_head/a__head_00000001__1 0 x68656c6c6f\nmkcoll 2.0_head\ndrain\n"
LONG = "n" * 230


def run(box, command, script=b""):
    words = [PROGRAM, os.path.join(box, "root"), os.path.join(box, "journal"), *command.split()]
    done = subprocess.run(words, input=script, stdout=subprocess.PIPE, check=False)
    return done.returncode, done.stdout.decode()


def contents(box):
    """Each file and folder of ROOT and the journal, with its bytes, but for the mark of use and the folders that opening makes."""
    found = {}
    for folder, _, files in os.walk(box):
        if os.path.relpath(folder, box) not in ("root/tree", "root/side", "root/snap"):
            found[os.path.relpath(folder, box)] = None
        for name in files:
            path = os.path.join(folder, name)
            if path != os.path.join(box, "root", "dirty"):
                with open(path, "rb") as file:
                    found[os.path.relpath(path, box)] = file.read()
    return found


def put(path, content):
    def spoil(box):
        with open(os.path.join(box, path), "wb") as file:
            file.write(content)

    return spoil


def folder(path):
    return lambda box: os.makedirs(os.path.join(box, path))


def gone(path):
    def spoil(box):
        whole = os.path.join(box, path)
        shutil.rmtree(whole) if os.path.isdir(whole) else os.remove(whole)

    return spoil


def empty(box):
    """ROOT without anything in it."""
    shutil.rmtree(os.path.join(box, "root"))
    os.mkdir(os.path.join(box, "root"))


def other_journal(box):
    """The journal's headers name another store."""
    place = os.path.join(box, "root", "tree", "fsid")
    with open(place, "wb") as file:
        file.write(b"0" * 31 + b"1\n")


def zeroed(box):
    with open(os.path.join(box, "journal"), "wb") as file:
        file.write(bytes(SMALL))


TREE = "root/tree/"
CURRENT = TREE + "current/"
COLLECTION = CURRENT + "1.0_head/"
# What is spoiled, how, and the line that tells it.
CASES = [
    ("an empty ROOT", empty, "not a store"),
    ("no version", gone(TREE + "store_version"), "not a store"),
    ("another version", put(TREE + "store_version", b"3\n"), "version 3"),
    ("no fsid", gone(TREE + "fsid"), "not a store"),
    ("a short fsid", put(TREE + "fsid", b"00\n"), "not a store"),
    ("no settings", gone(TREE + "settings"), "bad settings"),
    ("a setting above its limit", put(TREE + "settings", b"merge 10\nsplit 0\nlfn 40\nmode wal\n"), "bad settings"),
    ("a mode that isn't built", put(TREE + "settings", b"merge 10\nsplit 2\nlfn 40\nmode parallel\n"), "bad settings"),
    ("a journal of zeros", zeroed, "no ring header"),
    ("a journal of another store", other_journal, "fsid " + "0" * 31 + "1 " + "0" * 32),
    ("no committed number", gone(CURRENT + "commit_op_seq"), "bad number"),
    ("a committed number of other digits", put(CURRENT + "commit_op_seq", b"3\n"), "bad number"),
    ("a committed number below the journal", put(CURRENT + "commit_op_seq", b"0000000000000001\n"), "journal gap 4 1"),
    ("a file among the objects", put(COLLECTION + "x", b""), "damaged current/1.0_head/x"),
    ("a folder among the objects", folder(COLLECTION + "x"), "damaged current/1.0_head/x"),
    ("a hashed folder", folder(COLLECTION + "DIR_A"), "damaged current/1.0_head/DIR_A"),
    ("a long name without its text", put(COLLECTION + LONG[:200] + "_0123_0_long", b""), f"damaged current/1.0_head/{LONG[:200]}_0123_0_long"),
    ("a file in a collection's place", lambda box: (gone(CURRENT + "2.0_head")(box), put(CURRENT + "2.0_head", b"")(box)), "damaged current/2.0_head"),
    ("no folder for files that are built", gone(CURRENT + "aside"), "not a store"),
    ("a folder among files that are built", folder(CURRENT + "aside/x"), "damaged current/aside/x"),
    ("no folder of keys", gone(CURRENT + "omap"), "not a store"),
    ("no trash", gone(CURRENT + "trash"), "not a store"),
    ("a folder of the committed number's name", lambda box: (gone(CURRENT + "commit_op_seq")(box), folder(CURRENT + "commit_op_seq")(box)), "bad number"),
]


def main():
    global PROGRAM
    if len(sys.argv) > 1:
        PROGRAM = os.path.abspath(sys.argv[1])
    if not os.path.exists(PROGRAM):
        sys.exit(f"{PROGRAM} isn't built: run make run")
    with tempfile.TemporaryDirectory() as work:
        made = os.path.join(work, "made")
        os.mkdir(made)
        zeroed(made)
        status, printed = run(made, "run new", SCRIPT)
        if status != 0:
            sys.exit(f"no store was made: {printed}")
        for what, spoil, line in CASES:
            box = os.path.join(work, "box")
            shutil.copytree(made, box)
            spoil(box)
            before = contents(box)
            answer = run(box, "run", b"drain\n")
            if answer != (7, f"store: {line}\n"):
                sys.exit(f"{what}: {answer}, and not `store: {line}`")
            after = contents(box)
            if after != before:
                changed = sorted(path for path in before.keys() | after.keys() if before.get(path, 0) != after.get(path, 0))
                sys.exit(f"{what}: these have changed: {changed}")
            shutil.rmtree(box)
            print(f"{what}: store: {line}")
        answer = run(made, "run new")
        if answer != (7, "store: not empty\n"):
            sys.exit(f"a store that is there: {answer}, and not `store: not empty`")
        print("a store that is there, and run new: store: not empty")


if __name__ == "__main__":
    main()
