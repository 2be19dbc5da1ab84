"""Reads the tables of this folder: blocks of lines, apart by empty lines.

The first line of a block is its name, each other one a key and a value; a key may stand several times. Lines that begin
with two hyphens are comments.
"""
import functools
import os

FOLDER = os.path.dirname(os.path.abspath(__file__))


class Block:
    """A block of a table: its name, and the values of each key in their order."""

    def __init__(self, name):
        self.name = name
        self.lines = {}

    def all(self, key):
        return self.lines.get(key, [])

    def one(self, key, missing=""):
        return self.lines.get(key, [missing])[0]

    def listed(self, key):
        """The values of a key that is a list with commas."""
        return [part.strip() for value in self.all(key) for part in value.split(",") if part.strip()]


@functools.lru_cache(maxsize=None)
def read(name, folder=FOLDER):
    """The blocks of a table, which stands in this folder if no other is named."""
    blocks, block = [], None
    with open(os.path.join(folder, name), encoding="utf-8") as table:
        for line in table.read().splitlines():
            if line.startswith("--"):
                continue
            if not line.strip():
                block = None
            elif block is None:
                block = Block(line.strip())
                blocks.append(block)
            else:
                key, _, value = line.partition(" ")
                block.lines.setdefault(key, []).append(value)
    return blocks
