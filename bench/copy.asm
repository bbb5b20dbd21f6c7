        mod     SysGo,$11,$81,1000
* BIG is on path 3 and COPY on path 4: a path gets the least free number.
start   leax    <from,pcr
        lda     #1
        os9     $84
        bcs     exit
        leax    <to,pcr
        lda     #2
        ldb     #3
        os9     $83
        bcs     exit
        deca
        ldx     #256
        ldy     #256
again   os9     $89
        bcs     over
        inca
        os9     $8A
        deca
        bcc     again
        bra     exit
over    cmpb    #211
        bne     exit
        clrb
exit    os9     $06
from    fcc     "BIG"
        fcb     $0D
to      fcc     "COPY"
        fcb     $0D
        emod
