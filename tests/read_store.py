#!/usr/bin/env python3
"""Prints the objects of a store that was closed, by docs/STORE.md alone, without the program.

usage: read_store.py ROOT

A line for each object, by collection and name: its collection, its name, its length and its attributes.
"""
import os
import sys


def attributes(folder, front=b""):
    """The attributes in a side folder, as (name, value)."""
    found = []
    for name in sorted(os.listdir(folder)) if os.path.isdir(folder) else []:
        path = os.path.join(folder, name)
        if name.startswith("_"):
            with open(path, "rb") as file:
                found.append((front + bytes.fromhex(name[1:]), file.read()))
        elif name.startswith("-"):
            found += attributes(path, front + bytes.fromhex(name[1:]))
    return found


def objects(root):
    """Each object as (collection, name, bytes, attributes)."""
    current = os.path.join(root, "tree", "current")
    for collection in sorted(os.listdir(current)):
        if collection in ("aside", "trash", "omap", "commit_op_seq"):
            continue
        for name in sorted(os.listdir(os.path.join(current, collection))):
            side = dict(attributes(os.path.join(root, "side", "c", "current", "c", collection, "c", name)))
            with open(os.path.join(current, collection, name), "rb") as file:
                content = file.read()
            text = side.get(b"lfn", name.encode()).decode() if name.endswith("_long") else name
            yield collection, text, content, {key[2:]: value for key, value in side.items() if key.startswith(b"a:")}


def main():
    for collection, name, content, attrs in objects(sys.argv[1]):
        pairs = "".join(f" {key.hex()}={value.hex()}" for key, value in sorted(attrs.items()))
        print(f"{collection} {name} {len(content)}{pairs}")


if __name__ == "__main__":
    main()
