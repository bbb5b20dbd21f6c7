* deposit.asm: Deposit adds 1 to the four digits of the file account, three times. What it reads for update is its own until it has written it.
        mod     Deposit,$11,$81,200 name, type and language, attributes and revision, storage
start   leax    <file,pcr           X: the path list
        lda     #3                  A: read and write, which is update
        os9     $84                 I$Open: A the path
        bcs     exit
        sta     0
        lda     #3                  the deposits that are left
        sta     1
again   bsr     front
        bcs     exit
        ldx     #16                 X: the digits, in the data area
        ldy     #4                  Y: so many
        os9     $89                 I$Read: waits while another has the record
        bcs     exit
        ldx     #19                 the last digit
carry   inc     ,x
        lda     ,x
        cmpa    #$3A                behind 9?
        bne     put
        lda     #$30
        sta     ,x
        leax    -1,x
        bra     carry
put     bsr     front
        bcs     exit
        ldx     #16
        ldy     #4
        os9     $8A                 I$Write, which gives the record up
        bcs     exit
        dec     1
        bne     again
        clrb                        B: the status
exit    os9     $06                 F$Exit, which closes the path
front   lda     0
        ldx     #0                  X and U: the position
        ldu     #0
        os9     $88                 I$Seek
        lda     0                   A: the path, for the next call
        rts
file    fcc     "account"
        fcb     $0D
        emod                        the CRC, 3 bytes
