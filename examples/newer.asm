* newer.asm: revision 2 of SysGo, which starts in revisions.mod.
        mod     SysGo,$11,$82,200   name, type and language, attributes and revision, storage
start   leax    <text,pcr           X: the line
        ldy     #80                 Y: the most bytes of it
        lda     #1                  A: standard output
        os9     $8C                 I$WritLn
        clrb                        B: the status
        os9     $06                 F$Exit
text    fcc     "Newer"
        fcb     $0D
        emod                        the CRC, 3 bytes
