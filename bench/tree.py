#!/usr/bin/env python3
"""Times a tree of files on the file system: 10,000 objects of one directory made, found and removed.

Beside it a plain C program makes the same calls of the file system, its syncs too. The two take turns in one folder.
Prints for each the least time of three rounds, with the processor's time in that round, and the ratio of the least
times. Build the tree's program first: `cd crates/tree_bench && rt run`. The folder is the first word, or the system's
one for temporary files, and the number of objects the second.
"""
import os
import shutil
import subprocess
import sys
import tempfile
import time

ROOT = os.path.dirname(os.path.dirname(os.path.abspath(__file__)))
PROGRAM = os.path.join(ROOT, "crates", "tree_bench", "out", "tree_bench")
SOURCE = os.path.join(ROOT, "bench", "tree.c")
WORDS = ("make", "find", "remove")
ROUNDS = 3


def seconds(program, word, root, count):
    """The time that a run takes, and the processor's part of it."""
    start = time.monotonic()
    child = subprocess.Popen([program, word, root, count])
    _, status, usage = os.wait4(child.pid, 0)
    taken = time.monotonic() - start
    if os.waitstatus_to_exitcode(status) != 0:
        sys.exit(f"{program} {word}: status {os.waitstatus_to_exitcode(status)}")
    return taken, usage.ru_utime + usage.ru_stime


def main():
    if not os.path.exists(PROGRAM):
        sys.exit(f"{PROGRAM} isn't built: cd crates/tree_bench && rt run")
    folder = sys.argv[1] if len(sys.argv) > 1 else None
    count = sys.argv[2] if len(sys.argv) > 2 else "10000"
    times = {}
    with tempfile.TemporaryDirectory(dir=folder) as folder:
        plain = os.path.join(folder, "plain")
        subprocess.run(["gcc", "-O2", "-o", plain, SOURCE], check=True)
        for _ in range(ROUNDS):
            for name, program in (("tree", PROGRAM), ("plain", plain)):
                root = os.path.join(folder, "root")
                os.mkdir(root)
                for word in WORDS:
                    times.setdefault((name, word), []).append(seconds(program, word, root, count))
                shutil.rmtree(root)
    print(f"cores: {os.cpu_count()}")
    for word in WORDS:
        tree, tree_processor = min(times["tree", word])
        plain, plain_processor = min(times["plain", word])
        print(
            f"{word}: tree {tree:.3f} s ({tree_processor:.3f} s of the processor), "
            f"plain {plain:.3f} s ({plain_processor:.3f} s), ratio {tree / plain:.2f}"
        )


if __name__ == "__main__":
    main()
