#!/usr/bin/env python3
"""Times the journal's ring on a file: 10,000 entries of 4,000 bytes, synced once per 100, appended and then read back.

Beside it a plain C program writes, syncs and reads as many bytes at the same places. The two take turns on files of
96 MB in one folder. Prints for each the least time of five rounds, with the processor's time in that round, and the
ratio of the least times. Build the ring's program first: `cd crates/ring_bench && rt run`. The folder is the first
word, or the system's one for temporary files.
"""
import os
import subprocess
import sys
import tempfile
import time

ROOT = os.path.dirname(os.path.dirname(os.path.abspath(__file__)))
PROGRAM = os.path.join(ROOT, "crates", "ring_bench", "out", "ring_bench")
SOURCE = os.path.join(ROOT, "bench", "ring.c")
SIZE = 96 * 1024 * 1024
ROUNDS = 5


def seconds(program, word, path):
    """The time that a run takes, and the processor's part of it."""
    start = time.monotonic()
    child = subprocess.Popen([program, word, path])
    _, status, usage = os.wait4(child.pid, 0)
    taken = time.monotonic() - start
    if os.waitstatus_to_exitcode(status) != 0:
        sys.exit(f"{program} {word}: status {os.waitstatus_to_exitcode(status)}")
    return taken, usage.ru_utime + usage.ru_stime


def blank(path):
    """A file of zeros, all of them on the disk."""
    with open(path, "wb") as out:
        for _ in range(96):
            out.write(bytes(SIZE // 96))
        out.flush()
        os.fsync(out.fileno())


def main():
    if not os.path.exists(PROGRAM):
        sys.exit(f"{PROGRAM} isn't built: cd crates/ring_bench && rt run")
    folder = sys.argv[1] if len(sys.argv) > 1 else None
    times = {}
    with tempfile.TemporaryDirectory(dir=folder) as folder:
        plain = os.path.join(folder, "plain")
        subprocess.run(["gcc", "-O2", "-o", plain, SOURCE], check=True)
        for _ in range(ROUNDS):
            for name, program in (("ring", PROGRAM), ("plain", plain)):
                path = os.path.join(folder, "file")
                blank(path)
                if name == "ring":
                    subprocess.run([program, "make", path], check=True)
                for word in ("append", "read"):
                    times.setdefault((name, word), []).append(seconds(program, word, path))
                os.remove(path)
    print(f"cores: {os.cpu_count()}")
    for word in ("append", "read"):
        ring, ring_processor = min(times["ring", word])
        plain, plain_processor = min(times["plain", word])
        print(
            f"{word}: ring {ring:.3f} s ({ring_processor:.3f} s of the processor), "
            f"plain {plain:.3f} s ({plain_processor:.3f} s), ratio {ring / plain:.2f}"
        )


if __name__ == "__main__":
    main()
