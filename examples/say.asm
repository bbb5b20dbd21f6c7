* say.asm: the program Say writes its parameters on standard output, without the blanks in front of them.
        mod     Say,$11,$81,200     name, type and language, attributes and revision, storage
start   lda     ,x+                 X: the parameters
        cmpa    #$20
        beq     start               a blank is passed over
        leax    -1,x                X: the first byte that is none
        ldy     #80                 Y: the most bytes of the line
        lda     #1                  A: standard output
        os9     $8C                 I$WritLn
        bcs     exit                an error is the status
        clrb                        B: the status
exit    os9     $06                 F$Exit
        emod                        the CRC, 3 bytes
