* list.asm: the program List writes the lines of files on standard output. Its parameters are path lists with blanks
* between them: it passes over the blanks itself, since the calls do not.
        mod     List,$11,$81,400    name, type and language, attributes and revision, storage
path    equ     0                   the path of a file, one byte
rest    equ     path+1              the parameters that are left, two bytes
line    equ     16                  a line, 80 bytes
most    equ     80
start   lda     ,x+                 X: the parameters
        cmpa    #$20
        beq     start               a blank is passed over
        cmpa    #$0D
        beq     done                the end of the parameters
        leax    -1,x                X: a path list
        lda     #1                  A: read
        os9     $84                 I$Open: A the path, X behind the path list
        bcs     exit                an error is the status
        sta     <path
        stx     <rest
next    lda     <path
        ldx     #line
        ldy     #most
        os9     $8B                 I$ReadLn: Y the bytes that were read
        bcs     over
        lda     #1                  A: standard output
        os9     $8C                 I$WritLn
        bcc     next
        bra     exit
over    cmpb    #211                the end of the file?
        bne     exit
        lda     <path
        os9     $8F                 I$Close
        bcs     exit
        ldx     <rest
        bra     start
done    clrb                        B: the status
exit    os9     $06                 F$Exit, which closes the path
        emod                        the CRC, 3 bytes
