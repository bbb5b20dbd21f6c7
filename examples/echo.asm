* echo.asm: SysGo reads lines from standard input and writes each on standard output, until the end of the file.
        mod     SysGo,$11,$81,200   name, type and language, attributes and revision, storage
start   ldx     #0                  X: the line, at the front of the data area
        ldy     #80                 Y: the most bytes of it
        clra                        A: standard input
        os9     $8B                 I$ReadLn: Y the bytes that were read
        bcs     over
        lda     #1                  A: standard output
        os9     $8C                 I$WritLn
        bcc     start
over    cmpb    #211                the end of the file?
        bne     exit                an error is the status
        clrb                        B: the status
exit    os9     $06                 F$Exit
        emod                        the CRC, 3 bytes
