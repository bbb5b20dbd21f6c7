* keep.asm: the program Keep puts its parameters at the end of the file note, as a line, without the blanks in front of
* them. It makes the file if there is none.
        mod     Keep,$11,$81,200    name, type and language, attributes and revision, storage
path    equ     0                   the path of the file, one byte
text    equ     path+1              where the line begins, two bytes
start   lda     ,x+                 X: the parameters
        cmpa    #$20
        beq     start               a blank is passed over
        leax    -1,x                X: the first byte that is none
        stx     <text
        leax    <name,pcr           X: the path list, from the data directory, which is the root of D0
        lda     #3                  A: read and write
        os9     $84                 I$Open: A the path
        bcc     opened
        cmpb    #216                is there no such file?
        bne     exit                an error is the status
        leax    <name,pcr
        lda     #3
        ldb     #3                  B: the owner may read and write it
        os9     $83                 I$Create
        bcs     exit
opened  sta     <path
        ldb     #2                  B: SS.Size
        os9     $8D                 I$GetStt: X and U the size
        bcs     exit
        lda     <path
        os9     $88                 I$Seek, to the end
        bcs     exit
        lda     <path
        ldx     <text
        ldy     #80                 Y: the most bytes of a line
        os9     $8C                 I$WritLn
        bcs     exit
        clrb                        B: the status
exit    os9     $06                 F$Exit, which closes the path
name    fcc     "note"
        fcb     $0D
        emod                        the CRC, 3 bytes
