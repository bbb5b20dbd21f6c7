* greet.asm: the program Hello writes Hello on standard output.
        mod     Hello,$11,$81,200   name, type and language, attributes and revision, storage
start   leax    <text,pcr           X: the line
        ldy     #80                 Y: the most bytes of it
        lda     #1                  A: standard output
        os9     $8C                 I$WritLn
        bcs     exit                an error is the status
        clrb                        B: the status
exit    os9     $06                 F$Exit
text    fcc     "Hello"
        fcb     $0D
        emod                        the CRC, 3 bytes
