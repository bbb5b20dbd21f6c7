"""The sources of bench/asm.sh, each with its answer.

The answer is the line and the number of the error if the source is refused. Otherwise it is the module that
crates/boot_vectors/assemble.py makes of it, an assembler that shares nothing with os9."""

import os
import sys

sys.path.append(os.path.join(os.path.dirname(os.path.abspath(__file__)), "..", "crates", "boot_vectors"))

from assemble import assemble

SYNTAX, RANGE = 1, 4
MILLION = 1_000_000

# Each form of an operand, and words of each kind; NEAR is a label of the same routine, FAR one of another.
INSTRUCTIONS = [
    "leax  <NEAR,pcr", "ldy   #80", "lda   #$0D", "clrb", "bcs   NEAR", "tfr   x,u", "exg   a,dp", "leay  d,x",
    "sty   <64", "std   >$0040", "lda   ,x+", "ldd   ,y++", "sta   ,-u", "stx   ,--s", "lda   ,x", "ldb   a,x",
    "stb   b,y", "lda   5,x", "lda   -17,y", "lda   200,u", "lda   <7,s", "lda   >7,s", "ldx   FAR,y", "lda   [,x]",
    "lda   [,y++]", "jsr   [d,x]", "lda   [20,x]", "lda   [300,u]", "jmp   [FAR]", "leau  FAR,pcr", "lda   [FAR,pcr]",
    "pshs  cc,a,b,dp,x,y,u,pc", "puls  a,b", "pshu  #$34", "lbsr  FAR", "lbne  FAR", "bra   NEAR", "swi2",
    "orcc  #$50", "ANDCC #$AF", "cmpx  #FAR", "cmpu  #FAR", "subd  ,s++", "lda   $10", "neg   <NEAR-NEAR+8", "nop",
    "mul", "daa", "rts", "bsr   *",
]
OF_A_ROUTINE = 6  # as many instructions of them, so that 100,000 lines make no module that is too long


def routine(i, count):
    """Forty lines: comments, the offsets of a record, labels, instructions, a text and a list."""
    near, far = f"again_{i}", f"again_{(i * 7919 + 13) % count}"
    first = i * OF_A_ROUTINE
    words = [INSTRUCTIONS[(first + n) % len(INSTRUCTIONS)] for n in range(OF_A_ROUTINE)]
    code = [word.replace("NEAR", near).replace("FAR", far) for word in words]
    yield "*" * 60
    yield f"* Routine {i}. It reads a record of the table, and goes on at the next one."
    yield from (f"* Register {register} has what the caller passed, and is as it was." for register in "ABXYUS")
    yield from ("*", "")
    yield f"first_{i} equ     0"
    yield from (f"field_{i}_{n} equ {f'field_{i}_{n - 1}+2' if n else f'first_{i}'}  the field at {2 * n}" for n in range(9))
    yield f"enter_{i}"
    yield f"{near}  {code[0]}     the first of the record"
    yield from (f"        {word}" for word in code[1:-1])
    yield f"leave_{i} {code[-1]}"
    yield from ("", f"* The text of routine {i}, and its length.", "*")
    yield f'text_{i} fcs "{i % 10}!"'
    yield f"size_{i} equ  *-text_{i}"
    yield f"        fcb     size_{i},$0D"
    yield f"        fdb     {far}"
    yield from (f"* Note {n} on routine {i}." for n in range(1, 7))


def program(lines):
    """A source of as many lines, all of routines but the last ones, which are comments."""
    count = (lines - 2) // 40
    body = [line for i in range(count) for line in routine(i, count)]
    filled = body + ["* The end."] * (lines - 2 - len(body))
    return module(*filled)


def module(*lines):
    return "\n".join([" mod Long,$21,$81,0", *lines, " emod", ""])


# Each source by its name, with the line and the error if it is refused.
SOURCES = {
    "1,000 lines": (lambda: program(1_000), None),
    "10,000 lines": (lambda: program(10_000), None),
    "100,000 lines": (lambda: program(100_000), None),
    # Its labels pass 65,535, and line 75 is the first that names such a one in 16 bits.
    "a million lines, too long a module": (lambda: program(MILLION), (75, RANGE)),
    "a sum of a million bytes": (lambda: module(" fdb 1" + "+1-1" * (MILLION // 4)), None),
    "a list of a million bytes": (lambda: module(" fcb " + ",".join(["1".zfill(19)] * (MILLION // 20))), None),
    "a label of a million bytes": (lambda: module("l" * MILLION + " nop"), (2, SYNTAX)),
    "a comment of a million bytes": (lambda: module(" nop " + "c" * MILLION), None),
}


def source_and_answer(name):
    """The source of this name, and its module in bytes or its line and error."""
    make, refused = SOURCES[name]
    text = make()
    return text, refused or assemble(text)
