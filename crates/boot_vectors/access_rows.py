#!/usr/bin/env python3
"""Makes rows of boots that count the accesses to a second drive, for the stdin of this crate: names that are found,
reads, writes, sizes, deletions, and sectors that are held.

How many accesses a call makes is worked out by hand from docs/disk.md. A row in which the first access after them is
planned to fail shows that there are no more, and one in which the last of them fails that there are no fewer.
src/row.rt has the fields of a row."""

from terminal_rows import EXIT
from worked_rows import (BOOT_SECTORS, OLD, ROOT, SEARCH, WRITTEN, Volume, boot_disk, directory_line, file_line,
                         lines, needed, program, row, tree)

MOUNT = 2  # the read of sector 0, and that of the map's one sector
FOUND = MOUNT + SEARCH + 1  # the root's descriptor and sector, and the descriptor of a file that is found there
FAULT = 247
OPEN = """
        leax    name,pcr
        lda     #3
        clrb
        os9     $84
        lbsr    answer
"""
SIZE = """
        lda     #3
        ldb     #2
        os9     $8D
        tfr     u,d
        lbsr    show
"""


def boot_line(modules):
    return tree([directory_line("/", ["OS9Boot"]), file_line("/OS9Boot", 3, modules)],
                64 - BOOT_SECTORS - needed(modules))


def access(name, source, shown, disk, left, failing):
    """A row whose program is this source: an access of D1 that fails, and the tree that D1 has afterwards."""
    modules = program("SysGo", f"start   nop\n{source}{EXIT}", 4000)
    row(name, lines(shown), [(boot_disk(modules), boot_line(modules)), (disk, left)], "10000*9",
        failing=[f"D1 {failing} {FAULT}"])


def with_a(contents=b"", more=()):
    """The smallest volume with a file A in its root, and its other files."""
    disk = Volume(16)
    disk.directory(ROOT, ROOT, [("A", 4), *more])
    disk.file(4, 0x0B, contents, [(5, needed(contents))] if contents else [])
    return disk


def left(contents, dates, free, lost=0):
    return tree([directory_line("/", ["A"]), file_line("/A", 0x0B, contents, dates)], free, lost)


def write(at, count):
    return f"""{OPEN}
        ldx     #{at >> 16}
        ldu     #{at & 0xFFFF}
        lda     #3
        os9     $88
        ldx     #$200
        ldy     #{count}
        lda     #3
        clrb
        os9     $8A
        lbsr    answer
{SIZE}"""


def named(source, path="/D1/A"):
    """A program that does this, with the path list that it opens."""
    return f"""{source}
        clrb
        os9     $06
name    fcs     "{path}"
"""


def writes():
    """A write reads the descriptor, which is held since the file was opened; it writes the one sector of the map, each
    sector of the bytes, and the descriptor. A sector of which not all bytes are laid is read before it is written."""
    def whole(count):
        return FOUND + 1 + needed(bytes(count)) + 1

    for name, at, count, calls, shown, contents, dates, free in [
        ("768 bytes are", 0, 768, whole(768), "0000 0300", bytes(768), WRITTEN, 8),
        ("all free sectors are", 0, 2816, whole(2816), "0000 0B00", bytes(2816), WRITTEN, 0),
        ("a byte more than there is room for is not", 0, 2817, FOUND, "01F8 0000", b"", OLD, 11),
        ("bytes behind the greatest position are not", 0xFFFFFFFF, 2, FOUND, "01F8 0000", b"", OLD, 11),
        ("a byte behind a gap of three sectors is", 1000, 1, whole(1001) + 1, "0000 03E9", bytes(1001), WRITTEN, 7),
        ("no byte is", 9, 0, FOUND, "0000 0000", b"", OLD, 11),
    ]:
        access(f"{name} written, in {calls} accesses", named(write(at, count)), f"0000 {shown}", with_a(),
               left(contents, dates, free), calls + 1)
    for name, place, free, lost in [("the map's", FOUND + 1, 11, 0), ("the first sector's", FOUND + 2, 8, 3),
                                    ("the descriptor's", whole(768), 8, 3)]:
        access(f"768 bytes are written, and {name} write fails", named(write(0, 768)), "0000 01F7 0000", with_a(),
               left(b"", OLD, free, lost), place)
    access("a byte is written behind a gap, and the last access fails", named(write(1000, 1)), "0000 01F7 0000",
           with_a(), left(b"", OLD, 7, 4), whole(1001) + 1)


def reads():
    """A read behind the end of the root, and one of no byte, have no access."""
    for name, at, count, shown, calls in [
        ("the root is read from its second entry on", 32, 64, "0000 0020", 1),
        ("the root is read from its end on", 64, 64, "01D3 0040", 0),
        ("the root is read from far behind its end on", 4000, 64, "01D3 0040", 0),
        ("no byte of the root is read", 0, 0, "0000 0000", 0),
    ]:
        source = f"""{OPEN.replace("lda     #3", "lda     #$81")}
        ldx     #0
        ldu     #{at}
        lda     #3
        os9     $88
        ldx     #$200
        ldy     #{count}
        lda     #3
        clrb
        os9     $89
        lbsr    answer
        tfr     y,d
        lbsr    show
"""
        disk = Volume(16)
        disk.directory(ROOT, ROOT, [])
        access(f"{name}, in {MOUNT + 1 + calls} accesses", named(source, "/D1"),
               f"0000 {shown}", disk, tree([directory_line("/", [])], 16 - 4), MOUNT + 1 + calls + 1)


def resize(size):
    return f"""{OPEN}
        ldx     #0
        ldu     #{size}
        lda     #3
        ldb     #2
        os9     $8E
        lbsr    answer
{SIZE}"""


def sizes():
    """A cut writes the descriptor, and then the map if a cluster is given back. A file that grows by a sector writes
    the map, reads and writes that sector, and writes the descriptor."""
    old = bytes(n % 251 for n in range(768))
    for size, more, contents, free in [(0, 2, b"", 11), (300, 2, old[:300], 9), (700, 1, old[:700], 8),
                                       (768, 0, old, 8), (769, 4, old + bytes(1), 7)]:
        dates = OLD if size == 768 else WRITTEN
        access(f"768 bytes are made {size}, in {FOUND + more} accesses", named(resize(size)),
               f"0000 0002 {size:04X}", with_a(old), left(contents, dates, free), FOUND + more + 1)
    access("768 bytes are cut, and the descriptor's write fails", named(resize(0)), "0000 01F7 0300", with_a(old),
           left(old, OLD, 8), FOUND + 1)
    access("768 bytes are cut, and the map's write fails", named(resize(0)), "0000 01F7 0000", with_a(old),
           left(b"", WRITTEN, 8, 3), FOUND + 2)
    access("768 bytes are made 769, and the last access fails", named(resize(769)), "0000 01F7 0300", with_a(old),
           left(old, OLD, 7, 1), FOUND + 4)


def searches():
    """A name is looked up in the sectors of its directory up to the one that has it. A file is not a directory, so
    nothing is looked up in it."""
    as_user = "        ldy     #7\n        os9     $1C\n"
    delete = f"{as_user}        leax    name,pcr\n        os9     $87\n        lbsr    answer\n"
    opened = OPEN.replace("lda     #3", "lda     #1")
    listed = OPEN.replace("lda     #3", "lda     #$81")
    for what, source, path, calls, shown in [
        ("a file is opened by another user", as_user + opened, "/D1/a", FOUND, "0000"),
        ("a name is not found", as_user + opened, "/D1/b", FOUND - 1, "01D8"),
        ("the root is opened by its own entry", as_user + listed, "/D1/.", FOUND - 1, "0000"),
        ("a name is looked up in a file", as_user + opened, "/D1/A/A", FOUND, "01D6"),
        ("a file is not deleted by another user", delete, "/D1/A", FOUND, "01D6"),
        ("the own entry is not deleted", delete.replace("#7", "#0"), "/D1/.", FOUND - 1, "01D6"),
        ("the entry of the parent is not deleted", delete.replace("#7", "#0"), "/D1/..", FOUND - 1, "01D6"),
        ("a missing file is not deleted", delete.replace("#7", "#0"), "/D1/b", FOUND - 1, "01D8"),
    ]:
        access(f"{what}, in {calls} accesses", named(source, path), shown, with_a(), left(b"", OLD, 11), calls + 1)
        access(f"{what}, and the last access fails", named(source, path), "01F7", with_a(), left(b"", OLD, 11), calls)
    for name, number, calls in [("A", 5, FOUND), ("B", 6, FOUND + 1), ("C", None, FOUND)]:
        disk = Volume(16)
        disk.directory(ROOT, ROOT, [("A", 5), *[("", 0)] * 5, ("B", 6)])  # nine entries, in two sectors
        disk.file(5, 0x0B, b"", [])
        disk.file(6, 0x0B, b"", [])
        kept = tree([directory_line("/", ["A", *["-"] * 5, "B"]), file_line("/A", 0x0B, b""),
                     file_line("/B", 0x0B, b"")], 16 - 7)
        for place, shown in [(calls + 1, "0000" if number else "01D8"), (calls, "01F7")]:
            access(f"the name {name} is looked up in a root of two sectors, and access {place} fails",
                   named(opened, f"/D1/{name}"), shown, disk, kept, place)


def held_sectors():
    """256 sectors of a volume are held, those that were used last. With the root's descriptor the first sector of the
    root is so after 254 others, and not after 256."""
    count = 258
    disk = Volume(320)
    disk.directory(ROOT, ROOT, [("", 0)] * (8 * count - 2))
    kept = tree([directory_line("/", ["-"] * (8 * count - 2))], 320 - 3 - count)
    for others, calls, place, shown in [(0, 4, 5, "0000"), (1, 5, 6, "0000"), (254, 258, 259, "0000"),
                                        (256, 261, 262, "0000"), (256, 261, 261, "01F7")]:
        source = f"""{OPEN.replace("lda     #3", "lda     #$81")}
        ldd     #{others + 1}
        std     $40
again   ldx     #$200
        ldy     #256
        lda     #3
        os9     $89
        ldd     $40
        subd    #1
        std     $40
        bne     again
        lda     #3
        ldx     #0
        ldu     #0
        os9     $88
        ldx     #$200
        ldy     #256
        lda     #3
        clrb
        os9     $89
        lbsr    answer
"""
        access(f"a sector is read, {others} others and the first one again, and access {place} fails",
               named(source, "/D1"), f"0000 {shown}", disk, kept, place)


def mounts():
    """A mount has two accesses. If the second one fails, nothing runs."""
    modules = program("SysGo", f"start   nop\n{EXIT}")
    row("a second drive that fails in the last access of its mount", b"", [(boot_disk(modules), "-"), (with_a(), "-")],
        status=9, line=f"os9: drive 1: {FAULT}", failing=[f"D1 {MOUNT} {FAULT}"])


def main():
    mounts()
    reads()
    writes()
    sizes()
    searches()
    held_sectors()


if __name__ == "__main__":
    main()
