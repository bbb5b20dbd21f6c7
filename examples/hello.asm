* hello.asm: writes Hello on standard output, and exits with status 0.
* The module header, 13 bytes: sync, size, offset of the name, type 1 and language 1,
* attributes 8 (re-entrant) and revision 1, parity, execution offset, permanent storage.
        mod     SysGo,$11,$81,200   name, type and language, attributes and revision, storage
start   leax    <text,pcr           X: the line
        ldy     #80                 Y: the most bytes of it
        lda     #1                  A: standard output
        os9     $8C                 I$WritLn
        clrb                        B: the status
        os9     $06                 F$Exit
text    fcc     "Hello"
        fcb     $0D
        emod                        the CRC, 3 bytes
