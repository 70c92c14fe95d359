#!/usr/bin/env python3
"""Replays the system calls of a tree on real files, and opens what a loss of power may leave after each of them.

usage: tree_outside.py [PROGRAM [EVERY]]

PROGRAM is the built crate tree_steps; runs are killed after each call, or after each EVERYth. A run of it makes changes of a tree and prints `ok` behind each; strace tells its
system calls. They are replayed on a model of a file system, and after each call that changes or syncs something the
model gives folders that a loss of power may leave. Each is opened by the program, and read here, as docs/STORE.md says:
it must hold each change that was acknowledged, and of the one that was being made all or nothing (of bytes and lengths
each page old or new).

The model. A file has the bytes that it was last synced with, or of each page of 4,096 bytes and of the length those or
the ones of now. A change of names (a name made, taken away, linked, or moved with one call) is kept or lost as a whole.

- `weakest`: a change of names is kept for sure once each folder that it touches was synced after it. Of the others any
  choice is kept, whatever their order.
- `ext4`: changes of names are kept in their order, and all of them up to the last sync of any file or folder.

In both, what reads after a loss of power is what the disk has. Not in the model: a sync that fails, and a disk that
loses what it said it had.

Four trials, each in both settings: one run; a run that is killed after each of its calls, and a second run before the
power goes; a second run that is killed in the midst of what it does first, and a third one; a closed tree copied with
`cp -a`. In the end the trial tries itself: with the mark of the killed run taken away it must find a loss.
Prints a line a trial, and ends with 1 at the first loss.
"""
import copy
import hashlib
import os
import random
import re
import shutil
import subprocess
import sys
import tempfile

TOP = os.path.dirname(os.path.dirname(os.path.abspath(__file__)))
PROGRAM = os.path.join(TOP, "crates", "tree_steps", "out", "tree_steps")
CALLS = "openat,mkdir,mkdirat,rename,renameat,renameat2,unlink,unlinkat,rmdir,link,linkat,write,pwrite64,lseek,ftruncate,fsync,fdatasync,close"
PAGE = 4096
PIECE = 100
SETTINGS = ("weakest", "ext4")

EVERY = 1
LONG = "n" * 150
FIRST = [
    "dir a", "file a/f", "put a/f 0 9000 x", "set a/f guard 1", "put a/f 4000 5000 y", "cut a/f 100", "dir b",
    "move a/f b/f", "set b/f guard 2", "file b/g", "set b/g k v", "move b/g b/f", "set b mark m", "move b c",
    "move c/f c/h", "file c/f", f"set c/h {LONG} w", "move c/h a/h", "unset a/h k", "move c/f d", "gone d", "gone a/h",
    "nodir a", "file c/i", "set c/i z 1",
]
SECOND = ["dir s", "file s/f", "set s/f guard 9", "move s/f s/g"]
THIRD = ["dir t"]


class Loss(Exception):
    """What a loss of power took that was acknowledged."""


# A tree, as changes make it: a dictionary from each path to (bytes or None for a directory, attributes).

def below(tree, path):
    return [p for p in tree if p == path or p.startswith(path + "/")]


def changed(tree, step):
    """The tree after a change."""
    tree = dict(tree)
    kind, path, *more = step.split(" ")
    data, attrs = tree.get(path, (None, {}))
    if kind == "dir":
        tree[path] = (None, {})
    elif kind == "file":
        tree[path] = (b"", {})
    elif kind in ("gone", "nodir"):
        del tree[path]
    elif kind == "move":
        moved = [(more[0] + p[len(path):], tree.pop(p)) for p in below(tree, path)]
        tree.update(moved)
    elif kind == "put":
        at, count = int(more[0]), int(more[1])
        piece = more[2].encode() * count
        data = data.ljust(at, b"\0")
        tree[path] = (data[:at] + piece + data[at + count:], attrs)
    elif kind == "cut":
        tree[path] = (data[:int(more[0])].ljust(int(more[0]), b"\0"), attrs)
    elif kind == "set":
        tree[path] = (data, {**attrs, more[0]: more[1]})
    elif kind == "unset":
        tree[path] = (data, {name: value for name, value in attrs.items() if name != more[0]})
    return tree


# A tree, as its folder is read by hand.

def attributes(folder, begin=b""):
    found = {}
    if not os.path.isdir(folder):
        return found
    for name in os.listdir(folder):
        if name.startswith("_"):
            with open(os.path.join(folder, name), encoding="latin-1") as file:
                found[(begin + bytes.fromhex(name[1:])).decode()] = file.read()
        elif name.startswith("-"):
            found.update(attributes(os.path.join(folder, name), begin + bytes.fromhex(name[1:])))
    return found


def read_tree(root, path=""):
    tree = {}
    folder = os.path.join(root, "tree", path)
    for name in os.listdir(folder):
        node = path + "/" + name if path else name
        side = os.path.join(root, "side", *[part for step in node.split("/") for part in ("c", step)])
        here = os.path.join(folder, name)
        if os.path.isdir(here):
            tree[node] = (None, attributes(side))
            tree.update(read_tree(root, node))
        else:
            with open(here, "rb") as file:
                tree[node] = (file.read(), attributes(side))
    return tree


# The model of a file system.

class World:
    """Nodes by number: a folder's names, a file's bytes of now and of its last sync. `base` has the names that are kept
    for sure; `changes` are those since, each as (names that it sets, folders that weren't synced since)."""

    def __init__(self):
        self.names = {0: {}}
        self.base = {0: {}}
        self.files = {}
        self.kept = {}
        self.changes = []
        self.count = 0

    def copy(self):
        return copy.deepcopy(self)

    def new(self):
        self.count += 1
        return self.count

    def find(self, path):
        node = 0
        for step in [step for step in path.split("/") if step]:
            node = self.names[node][step]
        return node

    def place(self, path):
        folder, _, name = path.rstrip("/").rpartition("/")
        return self.find(folder), name

    def set_names(self, *sets):
        for folder, name, node in sets:
            if node is None:
                del self.names[folder][name]
            else:
                self.names[folder][name] = node
        self.changes.append((sets, {folder for folder, _, _ in sets}))

    def make_dir(self, path):
        folder, name = self.place(path)
        node = self.new()
        self.names[node] = {}
        self.base[node] = {}
        self.set_names((folder, name, node))

    def make_file(self, path):
        folder, name = self.place(path)
        node = self.new()
        self.files[node] = b""
        self.kept[node] = b""
        self.set_names((folder, name, node))

    def remove(self, path):
        folder, name = self.place(path)
        self.set_names((folder, name, None))

    def link(self, path, to):
        self.set_names((*self.place(to), self.find(path)))

    def rename(self, path, to):
        if path != to:
            self.set_names((*self.place(to), self.find(path)), (*self.place(path), None))

    def write(self, node, at, data):
        old = self.files[node].ljust(at, b"\0")
        self.files[node] = old[:at] + data + old[at + len(data):]

    def set_len(self, node, length):
        self.files[node] = self.files[node][:length].ljust(length, b"\0")

    def sync(self, node):
        """Both settings' parts of a sync: `late` folders are those of `weakest`, the number that of `ext4`."""
        if node in self.files:
            self.kept[node] = self.files[node]
        else:
            for _, late in self.changes:
                late.discard(node)
        self.in_order = len(self.changes)

    in_order = 0

    def survivors(self, setting, how, draw):
        """The changes of names that a loss of power leaves."""
        if setting == "ext4":
            most = len(self.changes)
            end = {"lost": self.in_order, "now": most}.get(how, draw.randint(self.in_order, most))
            return self.changes[:end]
        keep = {"lost": lambda: False, "now": lambda: True}.get(how, lambda: draw.random() < 0.5)
        return [change for change in self.changes if not change[1] or keep()]

    def bytes_left(self, node, how, draw):
        old, now = self.kept[node], self.files[node]
        if how != "drawn" or old == now:
            return old if how == "lost" else now
        length = len(draw.choice((old, now)))
        pages = [
            draw.choice((old, now))[at:at + PAGE].ljust(PAGE, b"\0")
            for at in range(0, length, PAGE)
        ]
        return b"".join(pages)[:length]

    def image(self, setting, how, draw):
        """What a loss of power leaves: for each folder its names, for each file its bytes."""
        names = {node: dict(found) for node, found in self.base.items()}
        for sets, _ in self.survivors(setting, how, draw):
            for folder, name, node in sets:
                if node is None:
                    names[folder].pop(name, None)
                else:
                    names[folder][name] = node
        return names, {node: self.bytes_left(node, how, draw) for node in self.files}


def build(image, at):
    """Makes the folder of an image."""
    names, files = image
    made = {}

    def fill(node, path):
        os.mkdir(path)
        for name, child in names[node].items():
            here = os.path.join(path, name)
            if child in names:
                fill(child, here)
            elif child in made:
                os.link(made[child], here)
            else:
                with open(here, "wb") as file:
                    file.write(files[child])
                made[child] = here

    fill(0, at)


def print_of(image):
    """A short text that tells images apart."""
    names, files = image

    def told(node):
        return {
            name: told(child) if child in names else hashlib.sha1(files[child]).hexdigest()
            for name, child in sorted(names[node].items())
        }

    return hashlib.sha1(repr(told(0)).encode()).hexdigest()


# The calls of a run.

def text_of(word):
    return re.sub(r"\\x([0-9a-f]{2})", lambda found: chr(int(found.group(1), 16)), word)


def words_of(line):
    """The words of a call: strings decoded, an opened file as (its number, its path)."""
    words = []
    for found in re.finditer(r'"((?:\\x[0-9a-f]{2})*)"(?:\.\.\.)?|(AT_FDCWD|\d+)<([^>]*)>|([^,\s()]+)', line):
        if found.group(1) is not None:
            words.append(text_of(found.group(1)))
        elif found.group(2) is not None:
            words.append((found.group(2), text_of(found.group(3))))
        else:
            words.append(found.group(4))
    return words


class Trace:
    """Replays the calls of a run in the folder `at` on a world."""

    def __init__(self, world, at):
        self.world, self.at, self.places, self.acks = world, at, {}, 0

    def inside(self, path):
        path = os.path.normpath(path)
        if path == self.at:
            return ""
        return path[len(self.at) + 1:] if path.startswith(self.at + "/") else None

    def named(self, words, number):
        """The path that a folder and a name say."""
        folder, name = words[number], words[number + 1]
        return self.inside(name if name.startswith("/") else os.path.join(folder[1], name))

    def call(self, name, words, result):
        """Replays a call. Answers whether it changed or synced something, or acknowledged a change."""
        if result.startswith("-1"):
            return False
        if name == "openat":
            return self.open(words, result)
        if name == "write" and words[0][0] == "1":
            self.acks += 1
            return True
        if isinstance(words[0], tuple) and name in ("write", "pwrite64", "lseek", "ftruncate", "fsync", "fdatasync"):
            return self.on_file(name, words, result)
        return self.on_names(name, words)

    def open(self, words, result):
        path = self.named(words, 0)
        if path is None:
            return False
        flags = words[2].split("|")
        folder, name = self.world.place(path) if path else (0, "")
        changes = False
        if "O_CREAT" in flags and name not in self.world.names[folder]:
            self.world.make_file(path)
            changes = True
        node = self.world.find(path)
        if "O_TRUNC" in flags and self.world.files[node]:
            self.world.set_len(node, 0)
            changes = True
        self.places[result.split("<")[0]] = (node, 0)
        return changes

    def on_file(self, name, words, result):
        number = words[0][0]
        if number not in self.places or self.inside(words[0][1]) is None:
            return False
        node, place = self.places[number]
        if name == "lseek":
            self.places[number] = (node, int(result))
            return False
        if name in ("write", "pwrite64"):
            data = words[1].encode("latin-1")[:int(result)]
            at = int(words[3]) if name == "pwrite64" else place
            self.world.write(node, at, data)
            self.places[number] = (node, at + len(data))
        elif name == "ftruncate":
            self.world.set_len(node, int(words[1]))
        else:
            self.world.sync(node)
        return True

    def on_names(self, name, words):
        if name.endswith("at") or name == "renameat2":
            paths = [self.named(words, 0)] + ([self.named(words, 2)] if name in ("linkat", "renameat", "renameat2") else [])
        else:
            paths = [self.inside(word) for word in words[:2] if isinstance(word, str) and word.startswith("/")]
        if not paths or None in paths:
            return False
        if name.startswith("mkdir"):
            self.world.make_dir(paths[0])
        elif name.startswith("rename"):
            self.world.rename(*paths)
        elif name.startswith("link"):
            self.world.link(*paths)
        elif name in ("unlink", "unlinkat", "rmdir"):
            self.world.remove(paths[0])
        else:
            return False
        return True


def run(at, steps):
    """Runs the program in a folder, and answers its calls as (name, words, result)."""
    log = at + ".log"
    words = ["strace", "-f", "-y", "-xx", "-s", "1000000", "-e", f"trace={CALLS}", "-o", log]
    done = subprocess.run(
        words + [PROGRAM, os.path.join(at, "store")] + steps, stdout=subprocess.PIPE, check=False, cwd="/"
    )
    if done.returncode != 0:
        raise Loss(f"the program ends with {done.returncode}: {done.stdout}")
    calls = []
    with open(log, encoding="latin-1") as lines:
        for line in lines:
            if found := re.match(r"\d+\s+(\w+)\((.*)\)\s+= (\S.*)$", line.strip()):
                calls.append((found.group(1), words_of(found.group(2)), found.group(3)))
    os.remove(log)
    return calls


# What is tried.

class Trial:
    def __init__(self, work, setting):
        self.work, self.setting, self.draw = work, setting, random.Random(7)
        self.seen, self.opened, self.moments, self.folders = set(), 0, 0, 0

    def folder(self):
        self.folders += 1
        return os.path.join(self.work, f"{self.setting}{self.folders}")

    def states(self, start, steps, acks):
        """The trees that may stand: the one of all acknowledged changes, and that after the next. The first
        acknowledgement is that the tree is open."""
        done = start
        for step in steps[:max(acks - 1, 0)]:
            done = changed(done, step)
        if 0 < acks <= len(steps):
            return [done, changed(done, steps[acks - 1])]
        return [done]

    def moment(self, world, states, what, draws=2):
        """Opens images of a moment."""
        self.moments += 1
        for how in ["lost", "now"] + ["drawn"] * draws:
            image = world.image(self.setting, how, self.draw)
            key = (print_of(image), repr(states))
            if key not in self.seen:
                self.seen.add(key)
                self.open(image, states, f"{self.setting}, {what}, {how}")

    def open(self, image, states, what):
        self.opened += 1
        at = self.folder()
        build(image, at)
        root = os.path.join(at, "store")
        done = subprocess.run([PROGRAM, root], stdout=subprocess.PIPE, stderr=subprocess.STDOUT, check=False)
        if done.returncode != 0:
            raise Loss(f"{what}: the tree isn't opened ({at}): {done.stdout}")
        for left in ("dirty", "move"):
            if os.path.exists(os.path.join(root, left)):
                raise Loss(f"{what}: `{left}` stands after a whole run")
        found = read_tree(root)
        if not is_allowed(found, states):
            raise Loss(f"{what}: {differences(found, states)}")
        shutil.rmtree(at)

    def replay(self, world, at, calls, start, steps, what, each=True):
        """Replays a run and tries each moment of it. Answers copies of the world after each, with the states then."""
        trace, after = Trace(world, at), []
        for number, call in enumerate(calls):
            if trace.call(*call):
                states = start(trace.acks) if callable(start) else self.states(start, steps, trace.acks)
                if each:
                    self.moment(world, states, f"{what}, call {number} ({call[0]})")
                after.append((world.copy(), states, trace.acks))
        return after


def pages_of(data, length):
    return [data[at:at + PAGE] for at in range(0, length, PAGE)]


def is_between(found, old, now):
    """Each page and the length old or new, of a file that was being written."""
    if len(found) not in (len(old), len(now)):
        return False
    whole = max(len(old), len(now))
    old, now = old.ljust(whole, b"\0"), now.ljust(whole, b"\0")
    return all(byte in (a, b) for byte, a, b in zip(found, old, now))


def is_allowed(found, states):
    if found in states:
        return True
    if len(states) != 2 or states[0].keys() != states[1].keys() or found.keys() != states[0].keys():
        return False
    for path, (data, attrs) in found.items():
        (old, old_attrs), (now, now_attrs) = states[0][path], states[1][path]
        if attrs not in (old_attrs, now_attrs) or (data is None) != (old is None):
            return False
        if data is not None and data != old and not is_between(data, old, now):
            return False
    return True


def differences(found, states):
    return "; or ".join(
        ", ".join(
            f"{path}: {str(found.get(path))[:80]} and not {str(state.get(path))[:80]}"
            for path in sorted(found.keys() | state.keys())
            if found.get(path) != state.get(path)
        )
        for state in states
    )


def one_run(work, setting):
    """One run; answers the world after each call."""
    trial = Trial(work, setting)
    at = trial.folder()
    os.mkdir(at)
    after = trial.replay(World(), at, run(at, FIRST), {}, FIRST, "one run")
    shutil.rmtree(at)
    print(f"{setting}: one run of {len(FIRST)} changes, {trial.moments} moments, {trial.opened} folders opened")
    return after


def resumed(trial, world, steps, what, without_mark=False):
    """A killed process leaves the folders as they are: a next one opens them, and makes its changes. Answers its calls,
    its folder and the tree that it found."""
    at = trial.folder()
    build(world.image(trial.setting, "now", trial.draw), at)
    seen = trial.folder()
    shutil.copytree(at, seen)
    if without_mark and os.path.exists(os.path.join(at, "store", "dirty")):
        os.remove(os.path.join(at, "store", "dirty"))
        world.remove("store/dirty")
    subprocess.run([PROGRAM, os.path.join(seen, "store")], stdout=subprocess.DEVNULL, check=True)
    found = read_tree(os.path.join(seen, "store"))
    shutil.rmtree(seen)
    calls = run(at, steps)
    shutil.rmtree(at)
    return at, calls, found


def next_run(trial, world, states, steps, what, each, without_mark=False):
    """A run after a killed one. Until it has opened the tree, what stood before may stand."""
    at, calls, found = resumed(trial, world, steps, what, without_mark)
    if not is_allowed(found, states):
        raise Loss(f"{what}: {differences(found, states)}")

    def start(acks):
        return states + [found] if acks == 0 else trial.states(found, steps, acks)

    return trial.replay(world, at, calls, start, steps, what, each)


def killed_before(work, setting, after, without_mark=False):
    """A run is killed after each of its calls, and a second one is made before the power goes."""
    trial = Trial(work, setting)
    for number in range(0, len(after), EVERY):
        world, states, _ = after[number]
        what = f"killed after call {number}"
        later = next_run(trial, world.copy(), states, SECOND, what, False, without_mark)
        ends = [moment for i, moment in enumerate(later) if moment[2] > 0 and (i + 1 == len(later) or later[i + 1][2] > moment[2])]
        for moment, end_states, acks in ends:
            trial.moment(moment, end_states, f"{what}, then {acks} acknowledged", draws=1)
    print(f"{setting}: {-(-len(after) // EVERY)} runs killed, each with a second run, {trial.moments} moments, {trial.opened} folders opened")


def killed_twice(work, setting, after):
    """The second run is killed too, in each call until it has opened the tree, and a third one is made."""
    trial, runs = Trial(work, setting), 0
    for number in range(0, len(after), 12 * EVERY):
        world, states, _ = after[number]
        what = f"killed after call {number}"
        second = next_run(trial, world.copy(), states, SECOND, what, False)
        for again, (moment, again_states, acks) in enumerate(second):
            if acks > 0:
                break
            runs += 1
            third = next_run(trial, moment.copy(), again_states, THIRD, f"{what} and {again}", False)
            last, last_states, _ = third[-1]
            trial.moment(last, last_states, f"{what} and {again}, then a third run", draws=1)
    print(f"{setting}: {runs} second runs killed, each with a third run, {trial.opened} folders opened")


def copied(work):
    """A closed tree is copied with `cp -a` and opened elsewhere."""
    at = os.path.join(work, "closed")
    os.mkdir(at)
    run(at, FIRST)
    subprocess.run(["cp", "-a", at, at + "2"], check=True)
    shutil.rmtree(at)
    calls = run(at + "2", SECOND)
    tree = {}
    for step in FIRST + SECOND:
        tree = changed(tree, step)
    found = read_tree(os.path.join(at + "2", "store"))
    if found != tree:
        raise Loss(f"a copied tree: {differences(found, [tree])}")
    print(f"copied with cp -a: opened elsewhere, and {len(SECOND)} more changes made in {len(calls)} calls")


def teeth(work, after):
    """Without the mark a killed run's work is lost, and the trial must say so."""
    try:
        killed_before(work, "weakest", after, without_mark=True)
    except Loss as loss:
        print(f"without the mark, as it must be: {str(loss)[:150]}")
        return
    sys.exit("without the mark no loss was found: the trial has no teeth")


def main():
    global PROGRAM, EVERY
    if len(sys.argv) > 1:
        PROGRAM = os.path.abspath(sys.argv[1])
    if len(sys.argv) > 2:
        EVERY = int(sys.argv[2])
    for tool in ("strace", "cp"):
        if not shutil.which(tool):
            print(f"{tool} is missing: nothing was tried")
            return
    if not os.path.exists(PROGRAM):
        sys.exit(f"{PROGRAM} isn't built: cd crates/tree_steps && rt run")
    with tempfile.TemporaryDirectory() as work:
        try:
            for setting in SETTINGS:
                after = one_run(work, setting)
                killed_before(work, setting, after)
                killed_twice(work, setting, after)
            copied(work)
        except Loss as loss:
            sys.exit(str(loss))
        teeth(work, after)


if __name__ == "__main__":
    main()
