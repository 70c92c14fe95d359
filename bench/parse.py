#!/usr/bin/env python3
"""Times the program on scripts that it only takes apart, beside a plain C program that finds lines and words and decodes digits.

The last line of each script is refused, so nothing runs, and no store is touched. Prints, for each script, the processor
seconds of both (least of five rounds), the ratio, and the program's peak memory as a multiple of the script's bytes. Build the
program first: `make run`.
"""
import os
import subprocess
import sys
import tempfile

BENCH = os.path.dirname(os.path.abspath(__file__))
PROGRAM = sys.argv[1] if len(sys.argv) > 1 else os.path.join(BENCH, "..", "crates", "filestore_cli", "out", "filestore_cli")
WORDS = [os.path.abspath(PROGRAM), "store", "journal", "run", "new"]
PLACE = "1.0_head/o{0}__head_{0:08X}__1"


def writes(size):
    """Writes of 3,000 bytes."""
    lines = [f"write {PLACE.format(number)} {number % 4096} x{'5ac3' * 1500}" for number in range(size // 6050)]
    return "\n".join(lines + ["wirte x"])


def kinds(size):
    """Every kind of line, one after the other."""
    group = """mkcoll 2.{1:x}_head
begin
touch {0}
write {0} 4096 x00ffc35a
zero {0} 0 512
truncate {0} 65536
setattr {0} x5f x0102 x736e6170736574 x03
omapset {0} x01 x303030372e31 x0102
end
rmattr {0} x5f
rmattrs {0}
clone {0} {0}_a
clonerange {0} {0}_a 0 4096 8192
move {0}_a {0}
omaprm {0} x303030372e31 x303030372e32
omaprange {0} x30 x31
omapclear {0}
remove {0}
drain
read {0} 0 4096
stat {0}
attrs {0}
omap {0}
list 1.0_head - 100
colls
acked
rmcoll 2.{1:x}_head
""".replace("{0}_a", "1.0_head/p{1}__head_{1:08X}__1")
    text = "".join(group.format(PLACE.format(number), number) for number in range(size // 1200))
    return text + "wirte x"


def drains(size):
    """Lines that are one short word."""
    return "drain\n" * (size // 6 - 2) + "wirte x"


def run(words, path, status, folder):
    """Processor seconds and peak memory of one run."""
    with open(path) as source, open(os.devnull, "w") as sink:
        child = subprocess.Popen(words, stdin=source, stdout=sink, cwd=folder)
        _, ended, usage = os.wait4(child.pid, 0)
    if os.waitstatus_to_exitcode(ended) != status:
        sys.exit(f"{words[0]}: status {os.waitstatus_to_exitcode(ended)}")
    return usage.ru_utime + usage.ru_stime, usage.ru_maxrss * 1024


def main():
    if not os.path.exists(WORDS[0]):
        sys.exit(f"{WORDS[0]} isn't built: run make run")
    with tempfile.TemporaryDirectory() as folder:
        plain = os.path.join(folder, "parse")
        subprocess.run(["cc", "-O2", "-o", plain, os.path.join(BENCH, "parse.c")], check=True)
        path = os.path.join(folder, "script")
        for make, size in ((writes, 24_000_000), (kinds, 24_000_000), (drains, 67_108_864)):
            with open(path, "w") as out:
                out.write(make(size))
            ours = [run(WORDS, path, 2, folder) for _ in range(5)]
            theirs = [run([plain], path, 0, folder) for _ in range(5)]
            seconds, other = min(ours)[0], min(theirs)[0]
            memory = max(peak for _, peak in ours) / os.path.getsize(path)
            print(f"{make.__name__}: {seconds:.3f} s, plain {other:.3f} s, ratio {seconds / other:.1f}, memory {memory:.1f} times the script")


if __name__ == "__main__":
    main()
