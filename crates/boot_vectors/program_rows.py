#!/usr/bin/env python3
"""Makes the last rows of programs of the stdin of this crate: those of examples/ that no other row runs, and a disk
whose program leaves it as it was. What is expected is what examples/README.md says. src/row.rt has the fields."""

from pathlib import Path

from image_rows import BOOT, row
from terminal_rows import line, title

EXAMPLES = Path(__file__).resolve().parents[2] / "examples"
RUN = "run modules --slices slices"

TYPED = b"Hellp\x08 \x08o\r\nHello\r\nXYZ" + 3 * b"\x08 \x08" + b"Bye\r\nBye\r\nBye!\r\nBye!\r\n"


def example(name):
    return (EXAMPLES / name).read_bytes()


def run(modules, slices, status, out):
    line(RUN, example(modules), example(slices).decode(), b"", status, out)


def boot(name, out):
    row(BOOT, example(f"{name}.img"), out=out, slices=example(f"{name}.slices"), script=example(f"{name}.keys"))


def main():
    title("examples: two programs in long and in short slices, a newer module, a program that never ends")
    run("workers.mod", "workers.slices", 0, 3 * b"tick\r\n" + 3 * b"tock\r\n")
    run("workers.mod", "turns.slices", 0, 3 * b"tick\r\ntock\r\n")
    run("revisions.mod", "hello.slices", 0, b"Newer\r\n")
    run("loop.mod", "loop.slices", 5, b"")
    title("examples: a boot of a disk")
    boot("echo", TYPED)


if __name__ == "__main__":
    main()
