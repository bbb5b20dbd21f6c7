#!/usr/bin/env python3
"""Makes rows of the stdin of this crate: guest programs for single calls on processes, modules, memory and the time,
and for single instructions. What the words of a row say is worked out by hand from the manuals (docs/calls.md and
docs/machine.md). src/row.rt has the fields of a row."""

import guests
from assemble import assemble
from guests import CHILD, FORK, row
from routines import ANSWER
from terminal_rows import EXIT

SHOW_D = "        lbsr    show\n"
SHOW_X, SHOW_Y, SHOW_U = (f"        tfr     {register},d\n{SHOW_D}" for register in "xyu")
TOLD = "        lbsr    answer\n"
NO_PARAMETERS = """
        ldy     #0
        ldu     #0
"""
SHORT, LONG = "1000*9", "1000*40"


def program(name, source, storage=200):
    """The module of a program that shows words and answers."""
    return guests.program(name, source + ANSWER, storage)


def held(at, data):
    """Instructions that store bytes from an address on, two at a time."""
    padded = data + bytes(len(data) % 2)
    return "".join(f"        ldd     #${padded[n]:02X}{padded[n + 1]:02X}\n        std     ${at + n:X}\n"
                   for n in range(0, len(padded), 2))


def names():
    """F$PrsNam and F$CmpNam: A, B, X and Y, or the refusal."""
    read = f"        os9     $10\n{SHOW_D}{SHOW_X}{SHOW_Y}"
    refused = f"        clrb\n        os9     $10\n{TOLD}"
    pairs = [("$50", 3), ("$50", 2), ("$50", 0), ("$4000", 3), ("$4000", 0)]
    compared = "".join(f"""
        ldx     #{first}
        ldy     #$53
        ldb     #{count}
        os9     $11
{TOLD}""" for first, count in pairs)
    row("names that are read, and compared", program("SysGo", f"""
start   nop
{held(0x40, b"/D0/CMDS" + bytes([13]))}{held(0x50, b"abcAB" + bytes([0xC3]))}
        ldx     #$40
{read}
        ldx     #$41
{read}
        ldx     #$48
{refused}{compared}{EXIT}"""), SHORT, 0, "2F02 0041 0043 2F02 0041 0043 01EB 0003 01EB 01EB 01D2 01EB")
    row("the longest name, one that is too long, and one that ends with bit 7", program("SysGo", f"""
start   leax    long,pcr
        os9     $10
{SHOW_D}
        leax    longer,pcr
{refused}
        leax    marked,pcr
        os9     $10
{SHOW_D}{EXIT}
long    fcc     "abcdefghijklmnopqrstuvwxyz012"
        fcb     13
longer  fcc     "abcdefghijklmnopqrstuvwxyz0123"
        fcb     13
marked  fcs     "SysGo"
        fcb     $77
"""), SHORT, 0, "0D1D 01EB 7705")
    row("a module that is linked by its name in another case, and unlinked", program("SysGo", f"""
start   leax    name,pcr
        stx     $30
        clra
        os9     $00
{SHOW_D}
        tfr     x,d
        subd    $30
{SHOW_D}{SHOW_Y}{SHOW_U}
        clrb
        os9     $02
{TOLD}
        ldu     #0
        os9     $02
{TOLD}
        leax    name,pcr
        lda     #$21
        os9     $00
{TOLD}{EXIT}
name    fcs     "sYSgO"
"""), SHORT, 0, "1181 0005 E012 E000 0000 01DD 01DD")


def memory_of(size):
    return f"        ldd     #${size:X}\n        os9     $07\n"


def memory():
    """F$Mem: of eight blocks the boot file has one. Data areas are in whole blocks."""
    row("data areas of two processes that want all blocks", program("SysGo", f"""
start   nop
{memory_of(0x6000)}{SHOW_D}{memory_of(0xE001)}{TOLD}{NO_PARAMETERS}{FORK}
        ldx     #4
        os9     $0A
{memory_of(0x4000)}{SHOW_D}
        os9     $04
{memory_of(0xE000)}{SHOW_D}{EXIT}{CHILD}""") + program("Child", f"""
start   nop
{memory_of(0xA000)}{TOLD}{memory_of(0x8000)}{SHOW_D}
        ldx     #9
        os9     $0A
{memory_of(0xA000)}{SHOW_D}{EXIT}"""), LONG, 0, "6000 01CF 01ED 8000 4000 A000 E000", blocks=8)
    # The only free block is the one that was given back; it was full of 5A.
    row("a block that is given back and taken again is zero", program("SysGo", f"""
start   nop
{memory_of(0xE000)}{SHOW_D}
        ldx     #$C000
        ldd     #$5A5A
fill    std     ,x++
        cmpx    #$E000
        bne     fill
{NO_PARAMETERS}{FORK}{TOLD}{memory_of(0xC000)}{SHOW_D}{memory_of(0xE000)}{SHOW_D}
        ldx     #$C000
zeros   ldd     ,x++
        bne     found
        cmpx    #$E000
        bne     zeros
found   nop
{SHOW_X}{EXIT}{CHILD}""") + program("Child", EXIT.replace("        clrb", "start   clrb", 1)),
        "40000*4", 0, "E000 01ED C000 E000 E000", blocks=8)
    written = "".join(f"""
        ldx     #${at:X}
        ldy     #{count}
        lda     #1
        clrb
        os9     $8C
{TOLD}{SHOW_Y}""" for at, count in [(0x1FFC, 12), (0x1FFC, 3), (0x3FFC, 5), (0x3FFC, 4)])
    told = [("over\r\n", "0000 0005"), ("ove", "0000 0003"), ("", "01D2 0005"), ("\0\0\0\0", "0000 0004")]
    row("a word and a line over two slots, and the end of the area", program("SysGo", f"""
start   nop
{memory_of(0x4000)}
        ldd     #$0102
        std     $1FFF
        lda     $2000
        ldb     $1FFF
{SHOW_D}{held(0x1FFC, b"over" + bytes([13]) + b"two")}{written}{EXIT}"""), SHORT, 0,
        b"0201\r\n" + b"".join(text.encode() + guests.lines(words) for text, words in told))


def children():
    """A child sleeps for some ticks and exits with a status; these two bytes are its parameters."""
    child = program("Child", """
start   lda     >1,x
        sta     $40
        ldb     >0,x
        clra
        tfr     d,x
        os9     $0A
        ldb     $40
        os9     $06
""")

    def made(ticks, status):
        return f"        ldd     #${ticks:02X}{status:02X}\n        lbsr    make\n"

    make = """
make    std     $30
        leax    child,pcr
        ldy     #2
        ldu     #$30
        lda     #$11
        clrb
        os9     $03
        tfr     a,b
        clra
        lbsr    show
        rts
"""
    wait = f"        os9     $04\n{SHOW_D}"
    row("children that end in another order, and a number that is used again", program("SysGo", f"""
start   clrb
        os9     $04
{TOLD}{made(30, 7)}{made(4, 2)}{made(2, 1)}
        ldx     #12
        os9     $0A
{wait}{wait}{made(1, 9)}{wait}{wait}
        os9     $04
{TOLD}{EXIT}{make}{CHILD}""") + child, "1000*60", 0, "01E2 0003 0004 0005 0402 0501 0004 0409 0307 01E2")
    # Process 4 lives on when process 3 has ended, and is no child of process 2.
    row("a child whose parent has ended", program("SysGo", f"""
start   nop
{NO_PARAMETERS}
        leax    parent,pcr
        lda     #$11
        clrb
        os9     $03
{wait}
        os9     $04
{TOLD}
        lda     #4
        ldb     #1
        os9     $08
{TOLD}{made(1, 9)}{EXIT}{make}{CHILD}
parent  fcs     "Parent"
""") + program("Parent", f"""
start   nop
{made(20, 1)}
        ldb     #5
        os9     $06
{make}{CHILD}""") + child, LONG, 0, "0004 0305 01E2 0001 0003")


def users():
    """F$ID, F$SUser, F$SPrior and F$Send: process 3 has the user of its parent, 5. Then it and process 4 are of users 7
    and 8, and then both of user 8. Process 4 has taken its intercept away, so its signal ends it."""
    identity = f"        clrb\n        os9     $0C\n{SHOW_D}{SHOW_Y}"

    def user(number):
        return f"        ldy     #{number}\n        os9     $1C\n"

    def of(code, process, value):
        return f"        lda     #{process}\n        ldb     #{value}\n        os9     ${code:02X}\n{TOLD}"

    row("users, priorities and signals that are refused", program("SysGo", f"""
start   nop
{identity}{user(5)}{NO_PARAMETERS}
        leax    first,pcr
        lda     #$11
        clrb
        os9     $03
        leax    second,pcr
        lda     #$11
        clrb
        os9     $03
        os9     $04
{SHOW_D}
        os9     $04
{SHOW_D}{EXIT}
first   fcs     "First"
second  fcs     "Second"
""") + program("First", f"""
start   nop
{identity}{user(7)}{identity}
        ldx     #4
        os9     $0A
{of(0x08, 4, 3)}{of(0x0D, 4, 200)}{of(0x08, 9, 3)}{user(8)}{of(0x0D, 4, 200)}{of(0x08, 4, 3)}{of(0x08, 4, 0)}
        ldb     #6
        os9     $06
""") + program("Second", f"""
start   nop
{user(8)}
        leax    routine,pcr
        os9     $09
        ldx     #0
        os9     $09
        os9     $0A
routine rti
"""), "2000*20", 0, "0200 0000 0300 0005 0300 0007 01E0 01E0 01E0 00C8 0003 01E9 0306 0403")


def refused_programs():
    """F$Fork, F$Chain and F$Load without drives. What is no name of an entered module that matches A is the path list
    of a file."""
    texts = {"other": "Other", "sub": "Sub", "child": "Child", "held": "Held", "pipe": "/pipe", "term": "/term",
             "drive": "/d0/prog", "none": "/x", "list": "child/x"}

    def call(code, a, text, parameters=0, at="0"):
        name = f"leax    {text},pcr" if text in texts else f"ldx     #{text}"
        return f"""
        {name}
        lda     #{a}
        ldy     #{parameters}
        ldu     #{at}
        clrb
        os9     ${code:02X}
{TOLD}"""

    forks = [("$11", "$4000"), ("$21", "child"), ("$21", "child", 1, "$4000"), ("$11", "child", 1, "$4000"),
             ("$11", "other"), ("$11", "sub"), ("$10", "sub"), ("0", "held"), ("$11", "pipe"), ("$11", "term"),
             ("$11", "drive"), ("$11", "none"), ("$11", "list")]
    others = [(0x05, "$21", "child"), (0x05, "$11", "other"), (0x01, "0", "$4000"), (0x01, "0", "other"),
              (0x01, "0", "child"), (0x01, "0", "pipe"), (0x01, "0", "drive")]
    calls = "".join(call(0x03, *fork) for fork in forks) + "".join(call(*other) for other in others)
    listed = "".join(f'{label:8}fcc     "{text}"\n        fcb     13\n' for label, text in texts.items())
    row("programs that are not started, without drives", program("SysGo", f"""
start   nop
{calls}{EXIT}{listed}""") + program("Child", EXIT.replace("        clrb", "start   clrb", 1))
        + assemble("        mod Sub,$12,$81,0\nstart   nop\n        emod\n")
        + assemble("        mod Held,$40,$81,0\n        fcb 1\n        emod\n"), SHORT, 0,
        "01D2 01EA 01D2 01D2 01D8 01D8 01EA 01EA 01D6 01D6 01DD 01DD 01D8 01EA 01D8 01D2 01D8 01D8 01D6 01DD")


def chain():
    """225 pages are too many beside the boot file, and the intercept stays; 224 are all seven slots and blocks that are
    left. The new program has its parameters at the end of its area, zeros before them, and no intercept."""
    row("a chain that is refused, and one with all blocks", program("SysGo", f"""
start   leax    routine,pcr
        ldu     #$80
        os9     $09
{held(0x40, b"12345")}
        ldb     #225
        lbsr    go
{TOLD}
        lda     #2
        ldb     #7
        os9     $08
        ldx     #2
        os9     $0A
        ldb     #224
go      leax    child,pcr
        lda     #$11
        ldy     #5
        ldu     #$40
        os9     $05
        rts
routine clra
{SHOW_D}
        rti
{CHILD}""") + program("Child", f"""
start   std     $20
        tfr     s,d
        std     $22
        ldd     $20
{SHOW_D}{SHOW_X}{SHOW_Y}{SHOW_U}
        ldd     $22
{SHOW_D}
        ldd     >0,x
{SHOW_D}
        ldd     >2,x
{SHOW_D}
        ldd     >3,x
{SHOW_D}
        ldd     $40
{SHOW_D}
        lda     #2
        ldb     #9
        os9     $08
        ldx     #1
        os9     $0A
{SHOW_D}{EXIT}"""), SHORT, 0, "01CF 0007 0005 DFFB E000 0000 DFFB 3132 3334 3435 0000", blocks=8)


def checksums():
    """F$CRC with an accumulator at 0050. The CRC of bytes is what it then holds, complemented."""
    begin = "        ldd     #$FFFF\n        std     $50\n        sta     $52\n        ldu     #$50\n"
    complement = "        com     $50\n        com     $51\n        com     $52\n"
    shown = f"        ldd     $50\n{SHOW_D}        lda     $52\n        clrb\n{SHOW_D}"

    def of(count):
        return f"{begin}        ldx     #$40\n        ldy     #{count}\n        os9     $17\n{complement}{shown}"

    row("the CRC of 123456789, of no byte, and of a module with its CRC", program("SysGo", f"""
start   nop
{held(0x40, b"123456789")}{of(9)}{of(0)}
        leax    name,pcr
        clra
        os9     $00
        tfr     u,x
        ldy     >2,u
{begin}
        os9     $17
{shown}
        ldx     #$4000
        ldy     #1
        clrb
        os9     $17
{TOLD}{EXIT}
name    fcs     "SysGo"
"""), SHORT, 0, "200F A500 0000 0000 800F E300 01D2")


def times():
    """F$STime and F$Time. A packet has the year less 1900, the month, the day, the hour, the minute and the second."""
    packets = [
        ((90, 1, 1, 0, 0, 0), True), ((0, 2, 28, 23, 59, 59), True), ((0, 2, 29, 0, 0, 0), False),
        ((100, 2, 29, 0, 0, 0), True), ((92, 2, 29, 0, 0, 0), True), ((200, 2, 29, 0, 0, 0), False),
        ((255, 12, 31, 23, 59, 59), True), ((90, 0, 1, 0, 0, 0), False), ((90, 13, 1, 0, 0, 0), False),
        ((90, 4, 31, 0, 0, 0), False), ((90, 1, 0, 0, 0, 0), False), ((90, 1, 1, 24, 0, 0), False),
        ((90, 1, 1, 0, 60, 0), False), ((90, 1, 1, 0, 0, 60), False),
    ]
    listed = "".join(f"        fcb     {','.join(map(str, packet))}\n" for packet, _ in packets)
    unnamed = "".join(f"        ldx     #$4000\n        clrb\n        os9     ${code}\n{TOLD}" for code in (15, 16))
    row("times that are set, and those that are none", program("SysGo", f"""
start   nop
{unnamed}
        leax    packets,pcr
        lda     #{len(packets)}
        sta     $30
again   clrb
        os9     $16
{TOLD}
        leax    6,x
        dec     $30
        bne     again
{EXIT}
packets equ     *
{listed}"""), SHORT, 0, "01D2 01D2 " + " ".join("0000" if is_time else "01E1" for _, is_time in packets))
    # 59 ticks later the second is the same, and after one more it is the next one.
    before_and_after = [
        ((92, 2, 28, 23, 59, 59), (92, 2, 29, 0, 0, 0)), ((92, 2, 29, 23, 59, 59), (92, 3, 1, 0, 0, 0)),
        ((0, 2, 28, 23, 59, 59), (0, 3, 1, 0, 0, 0)), ((255, 12, 31, 23, 59, 59), (0, 1, 1, 0, 0, 0)),
    ]
    listed = "".join(f"        fcb     {','.join(map(str, before))}\n" for before, _ in before_and_after)

    def later(ticks):
        return f"        ldx     #{ticks}\n        os9     $0A\n        lbsr    tell\n"

    def told(packet):
        return "".join(f"{packet[n]:02X}{packet[n + 1]:02X} " for n in range(0, 6, 2))

    row("a second after times at the end of a month and of the last year", program("SysGo", f"""
start   leax    packets,pcr
        stx     $40
        lda     #{len(before_and_after)}
        sta     $42
again   ldx     $40
        os9     $16
        leax    6,x
        stx     $40
{later(59)}{later(1)}
        dec     $42
        bne     again
{EXIT}
tell    ldx     #$30
        os9     $15
        ldd     $30
{SHOW_D}
        ldd     $32
{SHOW_D}
        ldd     $34
{SHOW_D}
        rts
packets equ     *
{listed}"""), "1000*300", 0, "".join(told(before) + told(after) for before, after in before_and_after))


def instructions():
    """A or B, and flags of CC after it: H at 20, N at 8, Z at 4, V at 2, C at 1."""
    def after(lines, mask):
        code = "".join(f"        {line}\n" for line in lines.split("; "))
        return f"{code}        tfr     cc,b\n        andb    #${mask:02X}\n{SHOW_D}"

    row("flags of arithmetic", program("SysGo", f"""
start   nop
{after("lda #$80; nega", 0x0F)}{after("lda #$7F; adda #1", 0x2F)}{after("lda #$99; adda #1; daa", 0x0D)}
{after("ldb #0; subb #1; tfr b,a", 0x0F)}{after("ldb #$80; subb #1; tfr b,a", 0x0F)}{EXIT}"""), SHORT, 0,
        "800B 802A 0005 FF09 7F02")
    # The last one is LEAX 16,PCR at FFF8, with Z set before it, and a jump back behind it.
    row("indexed addresses", program("SysGo", f"""
start   nop
{memory_of(0x4000)}
        ldd     #$2000
        std     $1234
        lda     #$5A
        sta     $2000
        clrb
        lda     [$1234]
{SHOW_D}
        lda     #$77
        sta     $FFFF
        ldy     #1
        lda     ,--y
        clrb
{SHOW_D}{SHOW_Y}
        leax    back,pcr
        stx     $FFFC
        lda     #$7E
        sta     $FFFB
        ldd     #$308C
        std     $FFF8
        lda     #$10
        sta     $FFFA
        orcc    #4
        jmp     $FFF8
back    tfr     cc,b
        andb    #4
        clra
{SHOW_D}{SHOW_X}{EXIT}"""), SHORT, 0, "5A00 7700 FFFF 0000 000B")


def main():
    names()
    memory()
    children()
    users()
    refused_programs()
    chain()
    checksums()
    times()
    instructions()


if __name__ == "__main__":
    main()
