#!/usr/bin/env python3
"""Makes rows of single calls of the program, worked out by hand: `programs`, `trees` or `sessions`, which are the last
rows under that heading of the stdin of this crate.

What is expected is worked out here from docs/texts.md, and the images are laid out by docs/disk.md. It shares no text
with the program. src/row.rt has the fields of a row."""

import sys

from assemble import crc
from image_rows import ECHO, HELLO, LINE, changed, row
from terminal_rows import title
from worked_rows import NEW, OLD, WRITTEN

RUN = "run modules --slices slices"
KEYED = RUN + " --script script"
BOOT = "boot d0.img --script script --slices slices"
DEBUG = "debug modules --slices slices --commands commands"

# writes the packet of F$Time, and exits with 0
TIME = bytes.fromhex("87cd0027000d11810f001200c853797347ef30c4103f15108e00068601103f8a5f103f06ecdadf")
# makes the file /D0/x, and exits with 0
CREATE = bytes.fromhex("87cd0029000d118101001200c853797347ef308c0b8602c603103f835f103f062f44302f780d265307")
# makes the file /D0/x, writes abcd, reads it for update, and exits with 0
RECORD = bytes.fromhex("87cd0046000d11816e001200c853797347ef308c248603c603103f83308c20108e0004103f8a8e0000"
                       "ce0000103f8830e8c0103f895f103f062f44302f780d61626364670d61")
BROKEN = changed(HELLO, 0, 0x86)

START = "at 0 process 2 pc E012 a 00 b 00 dp 00 cc 00 x 0100 y 0100 u 0000 s 0100"


def disk(module=HELLO, at=8, size=64, marks=(0xF0, 0x80)):
    """The smallest volume: 16 sectors, whose root is the only file, and a boot file that no directory names."""
    image = bytearray(4096)
    for place, byte in [(2, 16), (5, 2), (7, 1), (10, 2), (23, at), (24, size >> 8), (25, size & 255), (256, marks[0]),
                        (257, marks[1]), (512, 0xBF), (524, 64), (530, 3), (532, 1), (768, 0x2E), (769, 0xAE), (799, 2),
                        (800, 0xAE), (831, 2)]:
        image[place] = byte
    image[2048:2048 + len(module)] = module
    return bytes(image)


def shown(image):
    """The image, as a row with a tree has it."""
    sectors = [(lsn, image[256 * lsn:256 * lsn + 256].rstrip(b"\0")) for lsn in range(len(image) // 256)]
    return ";".join([str(len(image))] + [f"{lsn}:{held.hex()}" for lsn, held in sectors if held])


def tree(files, free, dates=OLD):
    """The tree of that volume. The cluster of its boot file is in no file."""
    names = ",".join(path[1:] for path, _ in files)
    lines = [f"{path} 03 0 {NEW} 1 {len(held)} {crc(held).hex()}" for path, held in files]
    return ";".join(sorted([f"/ bf 0 {dates} 0 [{names}]"] + lines) + [f"free {free} lost 1"])


def run(words, module=HELLO, zeros=0, slices="100", script="", status=0, out=b"", err="", terminals="-", host="-"):
    print(words, module.hex() or "-", zeros, slices.encode().hex() or "-", script.encode().hex() or "-", status,
          out.hex() or "-", err or "-", terminals, "-", "-", host, sep="\t")


def left(words, image, out, tree_left, history):
    print(words, "-", 0, b"200*4".hex(), "-", 0, out.hex() or "-", "-", shown(image), tree_left, "-", "-", "-",
          ";".join(history) or "-", sep="\t")


def session(words, commands, module=HELLO, slices="100", script="9 TERM 61", status=0, out=(), err="", terminals="-",
            host="-"):
    print(words, module.hex(), 0, slices.encode().hex(), script.encode().hex() or "-", commands.encode().hex(), status,
          ";".join(out) or "-", err or "-", terminals, host, sep="\t")


def programs():
    title("runs: the slices that a program of seven instructions and two calls needs")
    for slices, status, out in [("100", 0, LINE), ("1*3", 5, b""), ("4", 5, b""), ("6\n", 5, LINE), ("7", 0, LINE)]:
        run(RUN, slices=slices, status=status, out=out)
    title("runs: the host fails, which reads two files and then writes")
    for host, status, err in [(1, 2, "read slices"), (2, 2, "read modules"), (3, 3, "write output")]:
        run(RUN, status=status, err=f"os9: cannot {err}", host=host)
    title("runs: the order of causes, and lines of slices that are refused")
    run(RUN, BROKEN, slices="0", script="x", status=2, err="os9: cannot read modules", host=2)
    run(RUN, BROKEN, slices="0", script="x", status=7, err="os9: slices: line 1")
    run(KEYED, BROKEN, slices="0", script="x", status=7, err="os9: script: line 1")
    for slices, number in [("5*0", 1), ("1\n1000001", 2), ("\n\nx", 3)]:
        run(RUN, slices=slices, status=7, err=f"os9: slices: line {number}")
    title("runs: a call of TERM fails, and the bytes of the line before it are out")
    for failing, out in [(2, b""), (5, b"Hel"), (7, b"Hello"), (8, b"Hello\r")]:
        run(RUN, out=out, terminals=f"TERM {failing}")
    title("runs: keys before the last tick and behind it, and a script that cannot be read")
    run(KEYED, ECHO, slices="100*2", script="2 TERM 68 69 0D", out=b"hi\r\nhi\r\n")
    run(KEYED, ECHO, slices="100*2", script="3 TERM 68 69 0D", status=5)
    run(KEYED, ECHO, slices="100*2", script="2 T1 0D", status=2, err="os9: cannot read script", host=1)
    title("runs: words that are no command line")
    for words in [RUN + " --slices slices", "boot modules --slices slices"]:
        run(words, status=1, err="os9: words")
    title("runs: a file of seven blocks leaves one of eight for the data; a larger program wants two")
    large = HELLO
    for place, byte in [(11, 0x20), (12, 0x01), (40, 0x1D), (41, 0x4E), (42, 0xAC)]:
        large = changed(large, place, byte)
    run(RUN + " --blocks 8", zeros=57301, out=LINE)
    run(RUN + " --blocks 8", zeros=57302, status=8, err="os9: boot too large")
    run(RUN + " --blocks 8", large, 57301, status=8, err="os9: boot too large")
    run(RUN, large, 57301, status=8, err="os9: boot too large")
    title("runs: the time of F$Time: the year less 1900, the month, the day, the hour, the minute, the second")
    run(RUN + " --time 2000-02-29T23:59:58", TIME, out=bytes([100, 2, 29, 23, 59, 58]))
    run(RUN + " --time 1991-12-31T07:08:09", TIME, out=bytes([91, 12, 31, 7, 8, 9]))
    run(RUN, TIME, out=bytes([90, 1, 1, 0, 0, 0]))
    title("boots: an image is written back, or cannot be; it is in two drives, and that of D1 is written last")
    slices, good, broken = b"200*4", disk(), disk(marks=(0xE0, 0))
    row(BOOT, good, out=LINE, slices=slices)
    row(BOOT, good, status=3, out=LINE, err="os9: cannot write d0.img", slices=slices, failing=5)
    row("boot d0.img d0.img --script script --slices slices", disk(CREATE), slices=slices)
    title("boots: the second image is refused; bounds of a boot file in the eight sectors from sector 8 on")
    row("boot d0.img d1.img --script script --slices slices", good, broken, status=6,
        err="os9: d1.img: rule 3 at LSN 3", slices=slices)
    for at, size in [(0, 64), (8, 0), (8, 2049), (16, 1)]:
        row(BOOT, disk(at=at, size=size), status=8, err="os9: boot bounds", slices=slices)
    row(BOOT, disk(size=2048), out=LINE, slices=slices)
    row(BOOT, disk(at=9), status=8, err="os9: boot no SysGo", slices=slices)
    title("checks: an image, two calls of the host that fail, and an image that is refused")
    whole = disk(b"", 0, 0, (0xF0, 0))
    row("check d0.img", whole, out=b"files 0 dirs 1 free 12 lost 0\n", slices=slices)
    row("check d0.img", whole, status=2, err="os9: cannot read d0.img", slices=slices, failing=1)
    row("check d0.img", whole, status=3, err="os9: cannot write output", slices=slices, failing=2)
    row("check d1.img", whole, disk(b"", 0, 0, (0xE0, 0)), status=6, err="os9: d1.img: rule 3 at LSN 3", slices=slices)


def trees():
    title("a program makes a file; one writes its bytes and reads them for update, with a history; one locks nothing")
    historic = BOOT + " --history history"
    left(BOOT, disk(CREATE), b"", tree([("/x", b"")], 10, WRITTEN), [])
    # the write is past the end of the file, so its range has none; the lock of the read ends with the process
    left(historic, disk(RECORD, size=70), b"", tree([("/x", b"abcd")], 9, WRITTEN),
         ["P 2 2 0:000004 00000000 -------- 61626364", "G 2 2 0:000004 00000000 00000004 61626364",
          "D 2 2 0:000004 00000000 00000004 -"])
    left(historic, disk(HELLO, size=70), LINE, tree([], 11), [])


def sessions():
    title("a terminal whose hundredth call would fail, and one whose key is not taken")
    session(DEBUG + " --script script", "to 1\nback 1", terminals="TERM 100")
    session(DEBUG + " --script script", "back 1", terminals="TERM 1")
    title("the order of causes: the files are read, then the texts are refused, and then the modules")
    words = DEBUG + " --script script"
    for host, name in enumerate(["script", "slices", "commands", "modules"], 1):
        session(words, "regs\nback 257", BROKEN, "0", "x", 2, err=f"os9: cannot read {name}", host=host)
    session(words, "regs\nback 257", BROKEN, "0", "x", 7, err="os9: script: line 1")
    session(words, "regs\nback 257", BROKEN, "0", "", 7, err="os9: slices: line 1")
    session(words, "regs\nback 257", BROKEN, "1", "", 7, err="os9: commands: line 2")
    session(words, "regs", BROKEN, "1", "", 8, err="os9: boot module 205 at 0")
    title("the output fails: the registers of position 0 are out, and those of position 1 are not")
    session(DEBUG, "regs\nto 1\nregs", status=3, out=[START], err="os9: cannot write output", host=5)


if __name__ == "__main__":
    {"programs": programs, "trees": trees, "sessions": sessions}[sys.argv[1]]()
