#!/usr/bin/env python3
"""Makes rows of the stdin of this crate: command lines, read or refused, and texts of slices and of keys. What is
expected is worked out by hand from docs/texts.md. src/row.rt has the fields of a row.

Words that are a command line are shown by the first file that the command then cannot read or write, or by what a
program writes."""

from call_rows import KEYED, RUN, TIME, run
from image_rows import LINE
from terminal_rows import title

REFUSED = [
    "", "run h --slices", "run h --slices ", "run h --slices -", "run -h --slices s", "run h --slices=",
    "run --slices -- h", "run h s --slices s", "run h --slices s --script", "run h --slices s --script -t",
    "run h --slices s --script=", "run h --script t", "run h --slices s --script t --script t",
    "boot --script t --slices s", "boot e --slices s", "boot e --script t", "boot e --script t --slices s --history",
    "boot e --script t --slices s --history=", "boot e --script t --slices s --history h --history h",
    "run h --slices s --history h", "debug h --slices s --commands c --history h",
    "boot a b c d e --script t --slices s", "run h --slices s --slices s", "run h --slices s --blocks",
    "run h --slices s --blocks x", "run h --slices s --blocks 7", "run h --slices s --blocks 257",
    "run h --slices s --blocks 18446744073709551624", "run h --slices s --blocks=", "run h --slices s --blocks +8",
    "run h --slices s --blocks 8 --blocks 8",
    "run h --slices=s --time=1990-01-01T00:00:00 --time=1990-01-01T00:00:00", "run h --slices=s --time",
    "run h --slices=s --time=", "check --time=1990-01-01T00:00:00 a", "stress", "stress 1 2", "stress 2147483648",
    "stress -1", "stress +1", "stress x", "stress --seed 1", "stress 1 --time=1990-01-01T00:00:00", "check",
    "check -x", "check a b", "check --slices=s a", "Check a", "run h", "asm", "asm s", "asm s m n",
    "asm s m --time 1990-01-01T00:00:00", "asm --out=m s", "debug h --slices s", "debug h --commands c",
    "debug h i --slices s --commands c", "debug h --slices s --commands c --commands c",
    "debug h --slices s --commands c --blocks 7", "run h --slices s --commands c", "Asm s m",
    "run h --slices s --time 1899-12-31T23:59:59", "run h --slices s --time 2156-01-01T00:00:00",
    "run h --slices s --time 1900-02-29T00:00:00", "run h --slices s --time 1990-01-01",
    "run h --slices s --time 1990-1-1T00:00:00", "run h --slices s --time ",
    "boot e --script t --slices s --time 1899-12-31T23:59:59",
    "boot e --script t --slices s --time 2156-01-01T00:00:00",
    "boot e --script t --slices s --time 1900-02-29T00:00:00", "boot e --script t --slices s --time 1990-01-01",
    "boot e --script t --slices s --time 1990-1-1T00:00:00", "boot e --script t --slices s --time ",
    "run h --slices s --blocks 4294967304", "run h --slices s --blocks=-8", "run h --slices s --blocks 1f",
    "run h --slices s --time 1992-02-29T23:59:5", "run h --slices s --time 1992-02-29t23:59:58",
    "run h --slices s --time 1992-02-30T23:59:58",
]
REFUSED_TOOLS = [
    "vol", "vol put", "vol Put i A f", "vol put i A", "vol put i A f g", "vol put i A f --cluster 1",
    "vol put i A f --time 1990-01-01", "vol dir i", "vol repair i A", "vol repair i --slices s", "vol format i",
    "vol format i 15", "vol format i 524281", "vol format i 630 1", "vol format i 630 --cluster 0",
    "vol format i 630 --cluster 3", "vol format i 630 --cluster 128", "vol format i 630 --cluster 1 --cluster 1",
]
# No file has a name of one letter, of none, or one that begins with a dash. The files of a row are read in the order
# of docs/texts.md.
UNREAD = [
    ("run --script=-t modules --slices=slices --blocks=9", "-t"),
    ("boot a --script script --slices slices", "a"),
    ("boot --history=-h --slices=slices --blocks 9 --script=script a", "a"),
    ("boot a b a d --slices=slices --script=script --blocks=8", "a"),
    ("check e", "e"), ("check -", "-"), ("check ", ""), ("check help", "help"), ("check -- --slices", "--slices"),
    ("vol put i A f", "i"), ("vol get i a g", "i"), ("vol --time=1990-01-01T00:00:00 mkdir i B", "i"),
    ("vol delete -- i -x", "i"), ("vol dir i /", "i"), ("vol repair i", "i"),
    ("asm s m", "s"), ("asm s s", "s"), ("asm -- -s --time", "-s"), ("asm - ", "-"),
    ("debug h --slices slices --commands script", "h"),
    ("debug --commands=-c --blocks 8 --script script --slices slices --time 2000-02-29T01:02:03 -- -h", "-c"),
]
# The output of these commands is their first call of the host, and fails.
UNWRITTEN = [
    ("vol format i 630", "i"), ("vol format i 16 --cluster 64", "i"), ("vol --cluster=008 format i 00524280", "i"),
    ("stress 0", "output"), ("stress 2147483647", "output"), ("stress 000000000000000000001", "output"),
]
# Texts of slices, and the first line that breaks a rule.
BAD_SLICES = [
    ("5*0", 1), ("1\n\n1000001", 3), ("1\n2\n18446744073709551617\n", 3), (" 7", 1), ("7 ", 1), ("7\n   \n", 2),
    ("7\t8", 1), ("7\r\n", 1), ("1*2*3", 1), ("1*", 1), ("*1", 1), ("# 1", 1), ("1*1000000\n1", 2),
    ("1*1000000 1", 1), ("1000000*10\n1", 2), ("1000000*11", 1), ("1000000*1000000 1000000*1000000", 1),
]
SLICES = ["100\n", "\n\n0001000000\n1*2   7\n", "1*1000000", "1000000*10"]
KEYS = ["", "4 T1 41", "# 4 T1\n\n0 TERM 1b 0D\n", "1 TERM 61\n1 T1 61\n1 T2 61\n1 T3 61\n"]


def words():
    title("words: no command lines")
    for refused in REFUSED + REFUSED_TOOLS:
        run(refused or "-", status=1, err="os9: words")
    title("words: command lines whose first file is missing, and those whose first write fails")
    for read, name in UNREAD:
        run(read, status=2, err=f"os9: cannot read {name}")
    for read, name in UNWRITTEN:
        run(read, status=3, err=f"os9: cannot write {name}", host=1)
    title("words: runs, in other orders, with other numbers of blocks and other times")
    for read in ["run modules --slices slices --blocks 8", "run modules --slices slices --blocks 0000256",
                 "run --blocks=9 --slices=slices modules", "run --slices slices -- modules"]:
        run(read, out=LINE)
    for time, packet in [("1992-02-29T23:59:58", [92, 2, 29, 23, 59, 58]), ("1900-01-01T00:00:00", [0, 1, 1, 0, 0, 0]),
                         ("2155-12-31T23:59:59", [255, 12, 31, 23, 59, 59])]:
        run(f"{RUN} --time {time}", TIME, out=bytes(packet))


def texts():
    title("texts: slices that are refused, and slices and keys that are not")
    for slices, line in BAD_SLICES:
        run(RUN, slices=slices, status=7, err=f"os9: slices: line {line}")
    for slices in SLICES:
        run(RUN, slices=slices, out=LINE)
    for slices in ["", "\n"]:
        run(RUN, slices=slices, status=5)
    for keys in KEYS:
        run(KEYED, script=keys, out=LINE)


def main():
    words()
    texts()


if __name__ == "__main__":
    main()
