#!/usr/bin/env python3
"""Runs the built program on generated scripts of 1, 8 and 60 MB.

Prints, for each, the seconds per MB and the peak memory as a multiple of the script's bytes. The last script may take
at most twice the first one's time per MB. Build the program first: `make run`.
"""
import os
import resource
import subprocess
import sys
import tempfile
import time

ROOT = os.path.dirname(os.path.dirname(os.path.abspath(__file__)))
PROGRAM = os.path.join(ROOT, "crates", "filestore_cli", "out", "filestore_cli")


def script(size):
    """A script of about so many bytes: writes to 1,000 objects, a drain every 500 of them, now and then a read and a page.

    Each write takes one block of the journal, so that the longest script's fit into a new one of 64 MB.
    """
    lines = ["mkcoll 1.0_head"]
    total = len(lines[0]) + 1
    number = 0
    while total < size:
        name = number % 1000
        place = f"1.0_head/o{name}__head_{name:08X}__1"
        line = f"write {place} {number % 4096} x{'5a' * 2048}"
        number += 1
        lines.append(line)
        total += len(line) + 1
        if number % 500 == 0:
            for line in ("drain", f"read {place} 0 64", "list 1.0_head - 10"):
                lines.append(line)
                total += len(line) + 1
    lines.append("drain")
    return "\n".join(lines) + "\n"


def main():
    if not os.path.exists(PROGRAM):
        sys.exit(f"{PROGRAM} isn't built: run make run")
    print(f"cores: {os.cpu_count()}")
    per_mb = []
    with tempfile.TemporaryDirectory() as folder:
        for megabytes in (1, 8, 60):
            path = os.path.join(folder, "script")
            with open(path, "w") as out:
                out.write(script(megabytes * 1_000_000))
            size = os.path.getsize(path)
            with open(path) as source, open(os.devnull, "w") as sink:
                start = time.monotonic()
                child = subprocess.Popen([PROGRAM, os.path.join(folder, f"store{megabytes}"), os.path.join(folder, f"journal{megabytes}"), "run", "new"], stdin=source, stdout=sink)
                _, status, usage = os.wait4(child.pid, 0)
                seconds = time.monotonic() - start
            if os.waitstatus_to_exitcode(status) != 0:
                sys.exit(f"{megabytes} MB: status {os.waitstatus_to_exitcode(status)}")
            per_mb.append(seconds / (size / 1e6))
            memory = usage.ru_maxrss * 1024
            print(f"{megabytes} MB: {per_mb[-1]:.4f} s per MB, peak memory {memory / size:.1f} times the script")
    print(f"last to first: {per_mb[-1] / per_mb[0]:.2f}")


if __name__ == "__main__":
    main()
