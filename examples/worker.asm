* worker.asm: the program Worker of workers.mod writes its parameters three times.
        mod     Worker,$11,$81,200  name, type and language, attributes and revision, storage
start   ldb     #3                  X: the parameters, a line
again   ldy     #80                 Y: the most bytes of it
        lda     #1                  A: standard output
        os9     $8C                 I$WritLn
        decb
        bne     again
        os9     $06                 F$Exit: B is 0
        emod                        the CRC, 3 bytes
