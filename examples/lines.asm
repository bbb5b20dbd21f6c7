* lines.asm: the program Lines of pipe.mod writes two lines on its standard output.
        mod     Lines,$11,$81,200   name, type and language, attributes and revision, storage
start   leax    <first,pcr          X: a line
        bsr     write
        leax    <second,pcr         and the other
        bsr     write
        clrb                        B: the status
        os9     $06                 F$Exit
write   ldy     #80                 Y: the most bytes of it
        lda     #1                  A: standard output
        os9     $8C                 I$WritLn
        rts
first   fcc     "one"
        fcb     $0D
second  fcc     "two"
        fcb     $0D
        emod                        the CRC, 3 bytes
