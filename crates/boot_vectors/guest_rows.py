#!/usr/bin/env python3
"""Makes rows of the stdin of this crate: guest programs whose answers are worked out by hand from the
manuals (docs/calls.md and docs/machine.md). src/row.rt has the fields of a row."""

import routines
from assemble import assemble
from guests import CHILD, FORK, program, row

# A child loads A from an address in an unnamed slot: it ends with 228, which its parent is given.
row("an unnamed slot", program("SysGo", f"""
start   ldy     #0
        ldu     #0
{FORK}
        os9     $04
        bsr     show
        clrb
        os9     $06
{CHILD}""") + program("Child", "start   lda     $4000\n"), "1000*9", 0, "03E4")

# The registers at the start: D, X, Y, U, S, then DP and CC.
STARTED = """
start   std     $20
        stx     $22
        sty     $24
        stu     $26
        sts     <$28
        tfr     cc,b
        andb    #$AF
        tfr     dp,a
        std     $2A
        ldd     <$20
        bsr     show
        ldd     <$22
        bsr     show
        ldd     <$24
        bsr     show
        ldd     <$26
        bsr     show
        ldd     <$28
        bsr     show
        ldd     <$2A
        bsr     show
"""
row("a fork without parameters", program("SysGo", f"""
start   ldy     #0
        ldu     #0
{FORK}
        os9     $04
        clrb
        os9     $06
{CHILD}""") + program("Child", f"""{STARTED}
        clrb
        os9     $06
"""), "1000*9", 0, "0000 0100 0100 0000 0100 0000")

# Five bytes from 1FFE on, over the edge of a slot: the parameters are the last bytes of the child's data area.
row("a fork with parameters", program("SysGo", f"""
start   ldd     #$4000
        os9     $07
        ldd     #$1122
        std     $1FFE
        ldd     #$3344
        std     $2000
        lda     #$55
        sta     $2002
        ldy     #5
        ldu     #$1FFE
{FORK}
        os9     $04
        clrb
        os9     $06
{CHILD}""") + program("Child", f"""{STARTED}
        ldx     <$22
        ldd     >0,x
        bsr     show
        ldd     >2,x
        bsr     show
        lda     >4,x
        clrb
        bsr     show
        os9     $06
"""), "1000*9", 0, "0005 00FB 0100 0000 00FB 0000 1122 3344 5500")
row("a fork with parameters that are not there", program("SysGo", f"""
start   ldy     #5
        ldu     #$1FFE
{FORK}
        bcs     refused
        clrb
refused bsr     show
        clrb
        os9     $06
{CHILD}""") + program("Child", "start   os9     $06\n"), "1000*9", 0, "11D2")

# Processes 3 and 4 link one module: what one stores the other reads. Before and after, all blocks but those of the
# boot file are the parent's to take.
LINK = """
        leax    <shared,pcr
        clra
        os9     $00
"""
SHARED = """
shared  fcs     "Shared"
"""
row("a shared module", program("SysGo", """
start   bsr     most
        leax    <writer,pcr
        bsr     fork
        leax    <reader,pcr
        bsr     fork
        os9     $04
        os9     $04
        bsr     most
        clrb
        os9     $06
fork    ldy     #0
        ldu     #0
        lda     #$11
        clrb
        os9     $03
        rts
most    ldd     #$E000
        os9     $07
        bsr     show
        ldd     #$0100
        os9     $07
        bsr     show
        rts
writer  fcs     "Writer"
reader  fcs     "Reader"
""") + program("Writer", f"""
start   nop
{LINK}
        lda     #$77
        sta     >15,u
        ldx     #5
        os9     $0A
        clrb
        os9     $06
{SHARED}""") + program("Reader", f"""
start   ldx     #2
        os9     $0A
{LINK}
        lda     >15,u
        clrb
        bsr     show
        os9     $06
{SHARED}""") + assemble("""        mod Shared,$40,$81,0
        fcb     1,2,3
        emod
"""), "1000*30", 0, "E000 0100 7700 E000 0100", blocks=8)


def limits(most):
    """The parent forks children that sleep for ever, until one is refused: A is the child's number, or is kept, with
    the number of the refusal in B. Then X has moved from the name by nothing, and Y and U are as before."""
    return program("SysGo", f"""
start   ldy     #0
        ldu     #$1234
again   leax    <child,pcr
        lda     #$11
        clrb
        os9     $03
        bcs     refused
        bsr     show
        bra     again
refused lbsr    show
        stx     <$30
        leax    <child,pcr
        tfr     x,d
        subd    <$30
        lbsr    show
        tfr     y,d
        lbsr    show
        tfr     u,d
        lbsr    show
        ldd     #{most}
        os9     $07
        lbsr    show
        clrb
        os9     $06
child   fcs     "Child"
""")


SLEEPER = program("Child", """
start   ldx     #0
        os9     $0A
""")
children = [f"{number:02X}00" for number in range(3, 33)]
row("a fork of more processes than there may be", limits("$E000") + SLEEPER, "1000*90", 5,
    " ".join(children) + " 11E5 0000 0000 1234 E000")
row("a fork without blocks", limits("$2001") + SLEEPER, "1000*90", 5,
    " ".join(children[:6]) + " 11ED 0000 0000 1234 20ED", blocks=8)

# Process 3 sleeps for 5 ticks at tick 10, process 4 wakes it at tick 11, and at tick 12 three are left. Each has one
# instruction of every other slice before that.
PARENT = program("SysGo", """
start   leax    <first,pcr
        bsr     fork
        leax    <second,pcr
        bsr     fork
        ldx     #0
        os9     $0A
fork    ldy     #0
        ldu     #0
        lda     #$11
        clrb
        os9     $03
        rts
first   fcs     "First"
second  fcs     "Second"
""")
row("a sleep that a signal ends", PARENT + program("First", """
start   nop
        nop
        nop
        nop
        ldx     #5
        os9     $0A
        tfr     cc,b
        andb    #1
        clra
        bsr     show
        tfr     x,d
        bsr     show
        clrb
        os9     $06
""") + program("Second", """
start   nop
        nop
        nop
        nop
        lda     #3
        ldb     #1
        os9     $08
        nop
        clrb
        os9     $06
"""), "1000 1*8 9 4 1000", 5, "0000 0003")

# Two signals before process 3 is chosen: the second is refused. Its routine has the signal in B, its area in U and S
# 12 less; RTI gives all registers back, but E is set in CC.
row("a signal with a routine", PARENT + program("First", """
start   leax    <routine,pcr
        ldu     #$80
        os9     $09
        sts     <$30
        ldd     #$0123
        ldx     #$4567
        ldy     #$89AB
        ldu     #$CDEF
        andcc   #0
loop    tst     <$32
        beq     loop
        pshs    cc
        std     <$34
        puls    b
        andb    #$80
        clra
        lbsr    show
        ldd     <$34
        lbsr    show
        tfr     x,d
        lbsr    show
        tfr     y,d
        lbsr    show
        tfr     u,d
        lbsr    show
        clrb
        os9     $06
routine sts     <$36
        lda     #1
        sta     <$32
        clra
        bsr     show
        ldd     <$30
        subd    <$36
        bsr     show
        tfr     u,d
        bsr     show
        rti
""") + program("Second", """
start   lda     #3
        ldb     #7
        os9     $08
        bsr     show
        ldb     #7
        os9     $08
        bsr     show
        clrb
        os9     $06
"""), "1000 50 1000 1000", 5, "0307 03E9 0007 000C 0080 0080 0123 4567 89AB CDEF")

# The six instructions of a program that writes a line and exits: what a slice leaves over is executed in the next one,
# and an attempt comes only while instructions are left.
HELLO = assemble("""        mod     SysGo,$11,$81,200
start   leax    <text,pcr
        ldy     #80
        lda     #1
        os9     $8C
        clrb
        os9     $06
text    fcc     "0123"
        fcb     $0D
        emod
""")
for text, status, shown in [("1*3", 5, ""), ("4", 5, ""), ("6", 5, "0123"), ("7", 0, "0123"), ("1*6", 5, "0123"),
                            ("1*7", 0, "0123"), ("3 2*2", 0, "0123")]:
    row(f"slices {text}", HELLO, text, status, shown)

# What a module stores over its next instruction it executes there, INCB in the place of NOP; and so does a second
# process of the module, which was started before.
row("a module that stores over its own instructions", program("SysGo", """
start   bsr     fork
        bsr     fork
        os9     $04
        os9     $04
        clrb
        os9     $06
fork    leax    <child,pcr
        ldy     #0
        ldu     #0
        lda     #$11
        clrb
        os9     $03
        rts
child   fcs     "Child"
""") + program("Child", """
start   clrb
first   nop
        lda     #$5C
        sta     <first,pcr
        sta     <next,pcr
next    nop
        clra
        bsr     show
        clrb
        os9     $06
"""), "1000*9", 0, "0001 0002")


def delivery(name, stack, shown):
    """A signal reaches a child whose S is this. Slots 0 and 7 are named, of its data area and of the boot file."""
    row(name, program("SysGo", f"""
start   ldy     #0
        ldu     #0
{FORK}
        ldx     #2
        os9     $0A
        lda     #3
        ldb     #7
        os9     $08
        os9     $04
        bsr     show
        clrb
        os9     $06
{CHILD}""") + program("Child", f"""
start   leax    <routine,pcr
        ldu     #$80
        os9     $09
        ldd     #{stack}
        tfr     d,s
loop    bra     loop
routine clra
        bsr     show
        tfr     s,d
        bsr     show
        clrb
        os9     $06
"""), "1000*9", 0, shown)


# A frame from FFF9 on would end at 0004. One that ends at FFFF has its place.
delivery("a signal where the frame would go round", "$0005", "03E4")
delivery("a signal where the frame ends at FFFF", "$0000", "0007 FFF4 0300")
delivery("a signal where S is in an unnamed slot", "$6000", "03E4")

# All slots are named, so it is the address alone that is bad.
row("a read of 65,535 bytes from 8000", program("SysGo", f"""
start   ldd     #$E000
        os9     $07
        lbsr    show
        ldx     #$8000
        ldy     #65535
        clra
        clrb
        os9     $89
        bsr     answer
        tfr     x,d
        bsr     show
        tfr     y,d
        bsr     show
        clrb
        os9     $06
{routines.ANSWER}"""), "1000*9", 0, "E000 01D2 8000 FFFF")

# A pipe has 41, and then 42. The byte at FFFF is read; two bytes from there are refused, and byte and pipe stay.
row("a read of the byte at FFFF, and of two bytes there", program("SysGo", f"""
start   leax    <pipe,pcr
        lda     #3
        os9     $84
        ldd     #$4142
        std     $30
        ldx     #$30
        bsr     write
        ldx     #$FFFF
        ldy     #1
        bsr     read
        bsr     last
        ldx     #$31
        bsr     write
        ldx     #$FFFF
        ldy     #2
        bsr     read
        bsr     last
        ldx     #$30
        ldy     #1
        bsr     read
        clra
        ldb     <$30
        lbsr    show
        clrb
        os9     $06
write   ldy     #1
        lda     #3
        os9     $8A
        rts
read    lda     #3
        clrb
        os9     $89
        bsr     answer
        tfr     y,d
        bsr     show
        rts
last    ldx     #$FFFF
        clra
        ldb     >0,x
        bsr     show
        rts
pipe    fcs     "/PIPE"
{routines.ANSWER}"""), "1000*9", 0, "0000 0001 0041 01D2 0002 0041 0000 0001 0042")

# RTI from twelve bytes at 0040, with E set in their CC: S is behind them, less the byte of CC that is then pushed.
row("an RTI from a frame that the program wrote", program("SysGo", """
start   ldd     #$8512
        std     $40
        ldd     #$3401
        std     $42
        ldd     #$5678
        std     $44
        ldd     #$9ABC
        std     $46
        ldd     #$DEF0
        std     $48
        leax    <back,pcr
        stx     $4A
        ldd     #$0040
        tfr     d,s
        rti
back    pshs    cc
        std     $34
        sts     $36
        puls    b
        clra
        bsr     show
        tfr     x,d
        bsr     show
        tfr     y,d
        bsr     show
        tfr     u,d
        bsr     show
        tfr     dp,a
        clrb
        bsr     show
        ldx     #$34
        ldd     >0,x
        bsr     show
        ldd     >2,x
        bsr     show
        clrb
        os9     $06
""", 600), "1000*9", 0, "0085 5678 9ABC DEF0 0100 1234 004B")
