#!/usr/bin/env python3
"""Makes the image of a well filled RBF volume: make_image.py FILE SECTORS [MODULES]

Clusters have one sector. The root names one directory, MANY, with an entry for each 64 sectors of the
volume, each a file of one sector, and directories of 100 files of 16 sectors each until nine tenths
of the volume are taken. With MODULES it has these modules as its boot file besides, OS9Boot.
"""
import sys

SECTOR = 256


class Volume:
    def __init__(self, sectors):
        self.sectors = sectors
        self.image = bytearray(SECTOR * sectors)
        self.map_bytes = (sectors + 7) // 8
        self.next = 1 + (self.map_bytes + SECTOR - 1) // SECTOR
        self.boot = bytes(5)

    def take(self, count):
        """The first of so many sectors that were free, one after the other."""
        first = self.next
        self.next += count
        if self.next > self.sectors:
            sys.exit("make_image: the volume is too small")
        return first

    def put(self, lsn, data):
        self.image[SECTOR * lsn:SECTOR * lsn + len(data)] = data

    def describe(self, lsn, attributes, size, first, count):
        """Writes a descriptor with one segment."""
        descriptor = bytes([attributes, 0, 0, 126, 1, 2, 3, 4, 1]) + size.to_bytes(4, "big") + bytes([126, 1, 2])
        self.put(lsn, descriptor + first.to_bytes(3, "big") + count.to_bytes(2, "big"))

    def file(self, count):
        """A file that fills so many sectors; its descriptor's number."""
        lsn = self.take(1)
        first = self.take(count)
        self.put(first, bytes([lsn % 251]) * (SECTOR * count))
        self.describe(lsn, 0x1B, SECTOR * count, first, count)
        return lsn

    def boot_file(self, modules):
        """A boot file of these modules, which LSN 0 names by its first sector and its size; its descriptor's number."""
        lsn = self.take(1)
        count = (len(modules) + SECTOR - 1) // SECTOR
        first = self.take(count)
        self.put(first, modules)
        self.describe(lsn, 0x1B, len(modules), first, count)
        self.boot = first.to_bytes(3, "big") + len(modules).to_bytes(2, "big")
        return lsn

    def directory(self, lsn, parent, entries):
        """Writes a directory: its descriptor and its entries."""
        data = entry("..", parent) + entry(".", lsn) + b"".join(entry(name, fd) for name, fd in entries)
        count = (len(data) + SECTOR - 1) // SECTOR
        first = self.take(count)
        self.put(first, data)
        self.describe(lsn, 0xBF, len(data), first, count)

    def finish(self, root):
        ident = self.sectors.to_bytes(3, "big") + b"\0" + self.map_bytes.to_bytes(2, "big") + b"\0\1" + root.to_bytes(3, "big")
        self.put(0, ident.ljust(21, b"\0") + self.boot)
        marks = bytearray(self.map_bytes)
        for lsn in range(self.next):
            marks[lsn // 8] |= 0x80 >> lsn % 8
        self.put(1, marks)


def entry(name, fd):
    text = name.encode()
    return (text[:-1] + bytes([text[-1] | 0x80])).ljust(29, b"\0") + fd.to_bytes(3, "big")


def main():
    if len(sys.argv) not in (3, 4):
        sys.exit(__doc__.strip())
    sectors = int(sys.argv[2])
    volume = Volume(sectors)
    root = volume.take(1)
    many = volume.take(1)
    files = [(f"file{i:05}", volume.file(1)) for i in range(sectors // 64)]
    volume.directory(many, root, files)
    named = [("MANY", many)]
    if len(sys.argv) == 4:
        with open(sys.argv[3], "rb") as modules:
            named.append(("OS9Boot", volume.boot_file(modules.read())))
    while volume.next < sectors // 10 * 9:
        lsn = volume.take(1)
        room = min(100, max(1, (sectors // 10 * 9 - volume.next) // 17))
        volume.directory(lsn, root, [(f"data{i:03}", volume.file(16)) for i in range(room)])
        named.append((f"dir{len(named):05}", lsn))
    volume.directory(root, root, named)
    volume.finish(root)
    with open(sys.argv[1], "wb") as out:
        out.write(volume.image)


if __name__ == "__main__":
    main()
