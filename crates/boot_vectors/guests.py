"""Guest programs in assembler that show words on TERM, and the rows of those that use no disk."""

import routines
from assemble import assemble

SHOW = routines.SHOW.replace("PATH", "1")

FORK = """
        leax    <child,pcr
        lda     #$11
        clrb
        os9     $03
"""
CHILD = """
child   fcs     "Child"
"""


def program(name, source, storage=200):
    """The module of a program that shows words."""
    return assemble(f"        mod {name},$11,$81,{storage}\n{source}{SHOW}        emod\n")


def lines(words):
    """The lines of words of four digits."""
    return b"".join(word.encode() + b"\r\n" for word in words.split())


def row(name, modules, slices, status, shown, blocks=64, script="-"):
    """A row by its name: the words shown are the lines of four digits that are written, or these are its bytes."""
    out = shown if isinstance(shown, bytes) else lines(shown)
    words = f"run modules --slices slices --blocks {blocks}" + (" --script script" if script != "-" else "")
    keys = script if script == "-" else script.encode().hex()
    print("#", name)
    print(words, modules.hex(), 0, slices.encode().hex(), keys, status, out.hex() or "-", "-", sep="\t")
