#!/usr/bin/env python3
"""Counts the ways through crates.txt, which rt walks one by one, and names the lines that make most of them.

    python3 docs/ways.py

A way goes from a crate to one that it uses, to one that this uses, and so on. For each crate the number of ways from
it is one more than those of the crates in its line together.
"""

import functools
import pathlib

LISTED = pathlib.Path(__file__).resolve().parent.parent / "crates.txt"


def read_uses():
    """The crates of the repository that each crate uses."""
    lines = [line.split("#")[0].partition(":") for line in LISTED.read_text().splitlines()]
    named = {head.split()[0]: tail.split() for head, colon, tail in lines if colon}
    return {name: [it for it in used if it in named] for name, used in named.items()}


def main():
    uses = read_uses()

    @functools.lru_cache(None)
    def ways(name):
        return 1 + sum(map(ways, uses[name]))

    print(f"{sum(map(ways, uses)):,} ways over {len(uses)} crates")
    for name in sorted(uses, key=ways)[:-13:-1]:
        most = sorted(uses[name], key=ways)[:-4:-1]
        print(f"{ways(name):>12,}  {name}: {', '.join(f'{it} {ways(it):,}' for it in most)}")


if __name__ == "__main__":
    main()
