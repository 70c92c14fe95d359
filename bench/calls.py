#!/usr/bin/env python3
"""Counts the system calls of a mount: an empty script is run on a store whose journal of 64 MB is idle.

Prints how many calls the program makes, and how many bytes it writes to the journal, from `strace`. Build the program
first: `make run`. The folder is the first word, or the system's one for temporary files.
"""
import os
import re
import subprocess
import sys
import tempfile

ROOT = os.path.dirname(os.path.dirname(os.path.abspath(__file__)))
PROGRAM = os.path.join(ROOT, "crates", "filestore_cli", "out", "filestore_cli")


def run(words, folder):
    return subprocess.run(words, cwd=folder, stdin=subprocess.DEVNULL, stdout=subprocess.DEVNULL, check=True)


def main():
    if not os.path.exists(PROGRAM):
        sys.exit(f"{PROGRAM} isn't built: make run")
    folder = sys.argv[1] if len(sys.argv) > 1 else None
    with tempfile.TemporaryDirectory(dir=folder) as folder:
        run([PROGRAM, "root", "journal", "run", "new"], folder)
        run(["strace", "-f", "-qq", "-o", "calls", PROGRAM, "root", "journal", "run"], folder)
        calls = open(os.path.join(folder, "calls")).read().splitlines()
    written = sum(
        int(match.group(1)) for line in calls if (match := re.search(r"\bpwrite64\(.*\) = (\d+)$", line))
    )
    names = {}
    for line in calls:
        if match := re.match(r"\d+ +(\w+)\(", line):
            names[match.group(1)] = names.get(match.group(1), 0) + 1
    print(f"calls: {sum(names.values())}, bytes written: {written}")
    for name, count in sorted(names.items(), key=lambda item: -item[1])[:8]:
        print(f"  {name}: {count}")


if __name__ == "__main__":
    main()
