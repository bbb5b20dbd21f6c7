#!/usr/bin/env python3
"""Makes rows of boots whose programs load modules from files of their disk, for the stdin of this crate: a group that
leaves memory with its last link, a program that is chained to itself, files without modules; and a path that is used
again.

What is expected is worked out by hand from docs/calls.md; worked_rows.py lays out the disks. src/row.rt has the fields
of a row."""

from terminal_rows import EXIT
from worked_rows import (BOOT_SECTORS, MORE, boot_disk, data_module, directory_line, file_line, lines, needed, program,
                         tree)

BLOCKS = 8  # the boot file has one of them, and the first process's data area another
WHOLE = f"""
        ldd     #$E000
        os9     $07
"""


def row(name, shown, modules, files, history=()):
    """A row by its name: files with their names, from sector 16 on, which stay as they are."""
    placed = [(label, MORE + 2 * place, 7, held, [(MORE + 2 * place + 1, needed(held))] if held else [])
              for place, (label, held) in enumerate(files)]
    disk = boot_disk(modules, files=placed)
    described = [directory_line("/", ["OS9Boot"] + [label for label, _ in files]), file_line("/OS9Boot", 3, modules)]
    described += [file_line(f"/{label}", 7, held) for label, held in files]
    used = BOOT_SECTORS + needed(modules) + sum(1 + needed(held) for _, held in files)
    print("#", name)
    words = f"boot d0.img --slices slices --script script --blocks {BLOCKS}" + (" --history history" if history else "")
    print(words, "-", 0, b"1000*30".hex(), "-", 0, lines(shown).hex(), "-", disk.field(), tree(described, 64 - used),
          "-", "-", *(["-", ";".join(history)] if history else []), sep="\t")


def last_link():
    """Two links: one unlink leaves the module in its slot, a second one takes it out of memory."""
    module = data_module("Mat", "$40", "$81", [17])
    unlink = """
        ldu     #$C000
        clrb
        os9     $02
        lbsr    answer
"""
    modules = program("SysGo", f"""
start   leax    file,pcr
        os9     $01
        lbsr    show
        tfr     u,d
        lbsr    show
        lbsr    link
        tfr     u,d
        lbsr    show
{WHOLE}
        lbsr    answer
        ldd     #$C000
        os9     $07
        lbsr    show
        ldd     #$0100
        os9     $07
{unlink}
        clra
        ldb     $C00C
        lbsr    show
{unlink}{unlink}
        lbsr    link
        lbsr    answer
{WHOLE}
        lbsr    show
{EXIT}
link    leax    name,pcr
        lda     #$40
        os9     $00
        rts
file    fcs     "/D0/Mat"
name    fcs     "Mat"
""")
    row("a module that leaves memory with its last link", "4081 C000 C000 01CF C000 0000 0011 0000 01DD 01DD E000",
        modules, [("Mat", module)])


def chained_to_itself():
    """The program has as many parameters as it shows, and is chained to itself with one less. It has one link, so no
    block is left of it when it has ended."""
    again = program("Again", f"""
start   nop
        lbsr    show
        tstb
        beq     over
        decb
        clra
        tfr     d,y
        ldu     #0
        leax    name,pcr
        lda     #$11
        clrb
        os9     $05
        lbsr    answer
over    nop
{EXIT}
name    fcs     "Again"
""")
    modules = program("SysGo", f"""
start   leax    file,pcr
        ldy     #2
        ldu     #0
        lda     #$11
        clrb
        os9     $03
        os9     $04
        lbsr    show
        leax    name,pcr
        clra
        os9     $00
        lbsr    answer
{WHOLE}
        lbsr    show
{EXIT}
file    fcs     "/D0/Again"
name    fcs     "Again"
""")
    row("a loaded program that is chained to itself twice", "0002 0001 0000 0300 01DD E000", modules,
        [("Again", again)])


def no_modules():
    """F$Load and F$Fork of each file, and then nothing is left of them."""
    files = [("Empty", b""), ("Zeros", bytes(4)), ("Odd", bytes([0, 0x12]))]
    calls = "".join(f"""
        leax    {label},pcr
        os9     $01
        lbsr    answer
        leax    {label},pcr
        ldy     #0
        ldu     #0
        lda     #$11
        clrb
        os9     $03
        lbsr    answer
""" for label, _ in files)
    listed = "".join(f'{label:8}fcs     "/D0/{label}"\n' for label, _ in files)
    modules = program("SysGo", f"""
start   nop
{calls}{WHOLE}
        lbsr    show
{EXIT}{listed}""")
    row("files without modules are loaded", "01CD " * 6 + "E000", modules, files)


def free_path():
    """System path 1 is TERM. A file is opened as paths 2 and 3, the first is closed, and the next one is path 2 again:
    the history of its read for update has that number."""
    opened = """
        leax    name,pcr
        lda     #3
        os9     $84
        tfr     a,b
        clra
        lbsr    show
"""
    modules = program("SysGo", f"""
start   nop
{opened}{opened}
        lda     #3
        os9     $8F
{opened}
        lda     #3
        ldx     #$30
        ldy     #1
        os9     $89
{EXIT}
name    fcs     "/D0/A"
""")
    place = f"2 2 0:{MORE:06x} 00000000 00000001"
    row("a system path that is used again", "0003 0004 0003", modules, [("A", b"abcd")],
        [f"G {place} 61", f"D {place} -"])


def main():
    last_link()
    chained_to_itself()
    no_modules()
    free_path()


if __name__ == "__main__":
    main()
