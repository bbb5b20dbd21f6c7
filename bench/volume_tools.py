#!/usr/bin/env python3
"""Counts what the tools for images cost: volume_tools.py OS9, the built program.

Each tool does the largest thing that a volume of 32 MiB, and one of 128 MiB, holds: the largest file is put and got, a
directory of 10,000 entries (2,500 on the smaller one) is listed, and an image is repaired of which every free cluster
is lost. The host instructions of each are printed beside those of `check` of that image, and its seconds and its peak
memory. Needs valgrind.
"""
import os
import resource
import subprocess
import sys
import tempfile
import time

TOP = os.path.dirname(os.path.dirname(os.path.abspath(__file__)))
sys.path.insert(0, os.path.join(TOP, "bench"))

from daily import collected
from make_image import SECTOR, Volume

# The sectors of each volume, and the entries of its directory.
SIZES = ((131072, 2500), (524280, 10000))


def write_many(path, sectors, entries):
    """A volume whose directory MANY has so many entries, each a file of one sector."""
    volume = Volume(sectors)
    root, many = volume.take(1), volume.take(1)
    volume.directory(many, root, [(f"file{i:05}", volume.file(1)) for i in range(entries)])
    volume.directory(root, root, [("MANY", many)])
    volume.finish(root)
    with open(path, "wb") as out:
        out.write(volume.image)


def write_lost(path, sectors):
    """A volume without files, of which every cluster that is not in use is lost."""
    volume = Volume(sectors)
    root = volume.take(1)
    volume.directory(root, root, [])
    volume.next = sectors
    volume.finish(root)
    with open(path, "wb") as out:
        out.write(volume.image)


def run(words):
    return subprocess.run(words, check=True, capture_output=True).stdout.decode()


def measured(words):
    """The seconds of a run of these words, and its peak memory in bytes."""
    begin = time.monotonic()
    child = subprocess.Popen(words, stdout=subprocess.DEVNULL)
    _, status, used = os.wait4(child.pid, 0)
    assert status == 0, words
    return time.monotonic() - begin, 1024 * used.ru_maxrss


def report(program, name, image, words, before=None):
    """Prints a line of one tool, which begins with `before` for an image each time."""
    costs = []
    for start in (collected, measured):
        if before:
            run(["cp", before, image])
        costs.append(start([program, "vol", *words])[:2])
    (cost, _), (seconds, peak) = costs
    check, _ = collected([program, "check", image])
    size = os.path.getsize(image)
    sectors = size // SECTOR
    print(f"{name}, {sectors} sectors: {cost / 1e6:.1f} million host instructions, {cost / sectors:.0f} a sector; "
          f"check {check / 1e6:.1f} million; {cost / check:.2f} times; "
          f"{seconds:.2f} seconds; {peak / 2**20:.0f} MiB, {peak / size:.2f} times the image", flush=True)


def main():
    if len(sys.argv) != 2:
        sys.exit(__doc__.strip())
    program = os.path.abspath(sys.argv[1])
    with tempfile.TemporaryDirectory() as folder:
        os.chdir(folder)
        for sectors, entries in SIZES:
            run([program, "vol", "format", "empty", str(sectors)])
            free = int(run([program, "check", "empty"]).split()[5])
            with open("file", "wb") as out:
                out.write(os.urandom(SECTOR * (free - 1)))
            report(program, "put", "image", ["put", "image", "FILE", "file"], "empty")
            report(program, "get", "image", ["get", "image", "FILE", "copy"])
            run(["cmp", "file", "copy"])
            write_many("image", sectors, entries)
            lines = run([program, "vol", "dir", "image", "MANY"]).count("\n")
            report(program, f"dir of {lines}", "image", ["dir", "image", "MANY"])
            write_lost("lost", sectors)
            report(program, "repair", "image", ["repair", "image"], "lost")


if __name__ == "__main__":
    main()
