#!/usr/bin/env python3
"""Makes rows of the stdin of this crate that are worked out by hand: a program with its module, the same broken in two
ways, and labels whose values double. src/row.rt has the fields of a row."""

HELLO = """ mod SysGo,$11,$81,200
start leax <text,pcr
 ldy #80
 lda #1
 os9 $8c
 clrb
 os9 6
text fcc "Hello"
 fcb $0d
 emod
"""
MODULE = "87cd002b000d118103001200c853797347ef308c0d108e00508601103f8c5f103f0648656c6c6f0d8492d7"
RANGE = 4


def doubled(word, first):
    """A module of a word, and labels from `l0` on, each twice the one above it."""
    above = "".join(f"l{n} equ l{n - 1}+l{n - 1}\n" for n in range(1, 100))
    return f" mod a,$21,0,0\n fdb {word}\nl0 equ {first}\n{above} emod\n"


def row(name, outcome, source):
    print("source", name, outcome, source.encode().hex(), sep="\t")


def main():
    row("hello", MODULE, HELLO)
    row("hello-unnamed", "line 2 error 2", HELLO.replace("\ntext fcc", "\n fcc"))
    row("hello-range", "line 7 error 4", HELLO.replace(" os9 6\n", " ldb #256\n os9 6\n"))
    # From 1 on `l16` is 65,536. From 65,535 on `l47` is less than the 63rd power of two and `l48` is not, so the value
    # of `l48` is not known: the line of `l1` is then the first that breaks a rule.
    for word, first, line in [("0", 1, 19), ("0", 65535, 4), ("l16", 1, 2), ("l47", 65535, 2), ("l48", 65535, 4),
                              ("l99", 65535, 4)]:
        row(f"doubled-{word}-{first}", f"line {line} error {RANGE}", doubled(word, first))


if __name__ == "__main__":
    main()
