#!/usr/bin/env python3
"""Times transactions of one block each through the program and its journal, with a drain every 100.

Scripts of 100, 1,000 and 10,000 writes of 3,000 bytes run on a store that is there, each on a file of its own size.
Beside them a plain C program writes as many blocks of 4,096 bytes and calls fdatasync as often. Prints, for each, the
microseconds per transaction of both, the least of three rounds, and the ratio. Build the program first: `make run`.
The folder is the first word, or the system's one for temporary files.
"""
import os
import subprocess
import sys
import tempfile
import time

ROOT = os.path.dirname(os.path.dirname(os.path.abspath(__file__)))
PROGRAM = os.path.join(ROOT, "crates", "filestore_cli", "out", "filestore_cli")
SOURCE = os.path.join(ROOT, "bench", "journal.c")
GROUP = 100
ROUNDS = 3


def script(count):
    """A collection, so many writes to 100 objects, and a drain after each hundred."""
    lines = ["mkcoll 1.0_head"]
    for number in range(count):
        name = number % 100
        lines.append(f"write 1.0_head/o{name}__head_{name:08X}__1 0 x{'5a' * 3000}")
        if (number + 1) % GROUP == 0:
            lines.append("drain")
    return "\n".join(lines) + "\n"


def seconds(words, stdin):
    with open(stdin) as source, open(os.devnull, "w") as sink:
        start = time.monotonic()
        done = subprocess.run(words, stdin=source, stdout=sink, check=False)
        taken = time.monotonic() - start
    if done.returncode != 0:
        sys.exit(f"{words}: status {done.returncode}")
    return taken


def blank(path, size):
    """A file of zeros, all of them on the disk."""
    with open(path, "wb") as out:
        out.write(bytes(size))
        out.flush()
        os.fsync(out.fileno())


def main():
    if not os.path.exists(PROGRAM):
        sys.exit(f"{PROGRAM} isn't built: run make run")
    folder = sys.argv[1] if len(sys.argv) > 1 else None
    print(f"cores: {os.cpu_count()}")
    with tempfile.TemporaryDirectory(dir=folder) as folder:
        plain = os.path.join(folder, "plain")
        subprocess.run(["gcc", "-O2", "-o", plain, SOURCE], check=True)
        source = os.path.join(folder, "script")
        for count in (100, 1_000, 10_000):
            with open(source, "w") as out:
                out.write(script(count))
            size = 8_192 + 4_096 * (count + 2)
            times = {"journal": [], "plain": []}
            for _ in range(ROUNDS):
                path = os.path.join(folder, "journal")
                blank(path, size)
                seconds([PROGRAM, path + ".store", path, "run", "new"], os.devnull)
                times["journal"].append(seconds([PROGRAM, path + ".store", path, "run"], source))
                blank(path, size)
                times["plain"].append(seconds([plain, path, str(count)], os.devnull))
                os.remove(path)
            journal, other = (min(times[name]) / count * 1e6 for name in ("journal", "plain"))
            print(f"{count} transactions: {journal:.1f} us each, plain {other:.1f} us, ratio {journal / other:.2f}")


if __name__ == "__main__":
    main()
