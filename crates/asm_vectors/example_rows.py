#!/usr/bin/env python3
"""Makes the last rows of the stdin of this crate: the sources of examples/, with the modules that are stored there.
src/row.rt has the fields of a row."""

from pathlib import Path

EXAMPLES = Path(__file__).resolve().parents[2] / "examples"
# The sources of the modules of a file, in order, where they are not the one of its name.
SOURCES = {"pipe": ["pipe", "lines"], "workers": ["workers", "worker"], "revisions": ["hello", "data", "newer"]}
SYNC = bytes([0x87, 0xCD])


def modules(data):
    """The modules of a file, which may have zero bytes between them."""
    while data:
        size = int.from_bytes(data[2:4], "big") if data.startswith(SYNC) else 0
        if size:
            yield data[:size]
        data = data[size or 1:]


def main():
    stored = {}
    for file in sorted(EXAMPLES.glob("*.mod")):
        names = SOURCES.get(file.stem, [file.stem])
        for name, module in zip(names, modules(file.read_bytes()), strict=True):
            assert stored.setdefault(name, module) == module
    for name, module in sorted(stored.items()):
        print("source", name, module.hex(), (EXAMPLES / f"{name}.asm").read_bytes().hex(), sep="\t")


if __name__ == "__main__":
    main()
