#!/usr/bin/env python3
"""Counts the paths of crates.txt, each of which `rt ci` goes over before its first proof, and the edges that most of them go over.

    tests/paths.py [N]      N edges (20), of those that another path stands in for: the most paths first
"""
import pathlib
import sys


def read(path):
    """The crates below each crate, those of the kit left out."""
    below = {}
    for line in path.read_text().splitlines():
        name, colon, rest = line.partition("#")[0].partition(":")
        if colon:
            below[name.strip()] = rest.split()
    return {name: [it for it in rest if it in below] for name, rest in below.items()}


def downward(below):
    """How many paths begin at each crate."""
    count = {}

    def paths(name):
        if name not in count:
            count[name] = 1 + sum(map(paths, below[name]))
        return count[name]

    for name in below:
        paths(name)
    return count


def upward(below, down):
    """How many paths end at each crate."""
    count = dict.fromkeys(below, 1)
    for name in sorted(below, key=down.get, reverse=True):
        for lower in below[name]:
            count[lower] += count[name]
    return count


def is_reached(below, top, wanted):
    """Whether `wanted` is below `top` by another way than their edge."""
    todo, seen = [it for it in below[top] if it != wanted], set()
    while todo:
        name = todo.pop()
        if name not in seen:
            seen.add(name)
            todo += below[name]
    return wanted in seen


def main():
    root = pathlib.Path(__file__).resolve().parent.parent
    number = int(sys.argv[1]) if len(sys.argv) > 1 else 20
    below = read(root / "crates.txt")
    down = downward(below)
    up = upward(below, down)
    print(sum(down.values()), "paths")
    edges = [(up[top] * down[it], top, it) for top in below for it in below[top]]
    found = (edge for edge in sorted(edges, reverse=True) if is_reached(below, *edge[1:]))
    for _, (paths, top, lower) in zip(range(number), found):
        print(f"{paths:9} {top} -> {lower}")


if __name__ == "__main__":
    main()
