"""Routines of guest programs, in assembler."""

# writes D as four hexadecimal digits and 0D on the path PATH; changes no register but CC
SHOW = """
show    pshs    a,b,x,y
        ldx     #$10
        bsr     pair
        tfr     b,a
        bsr     pair
        lda     #$0D
        sta     >0,x
        ldx     #$10
        ldy     #5
        lda     #PATH
        os9     $8C
        puls    a,b,x,y,pc
pair    pshs    a
        lsra
        lsra
        lsra
        lsra
        bsr     digit
        puls    a
        anda    #15
digit   adda    #$30
        cmpa    #$3A
        bcs     store
        adda    #7
store   sta     ,x+
        rts
"""

# shows carry and B, as a line of four digits; changes no register
ANSWER = """
answer  pshs    cc,a,b,x,y
        tfr     cc,a
        anda    #1
        lbsr    show
        puls    cc,a,b,x,y,pc
"""
