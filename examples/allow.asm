* allow.asm: the program Allow gives files execute permission, without which no program of a file starts. Its
* parameters are path lists with blanks between them.
        mod     Allow,$11,$81,200   name, type and language, attributes and revision, storage
rest    equ     0                   the parameters that are left, two bytes
may     equ     $2F                 the owner may read, write and execute the file, others read and execute it
start   lda     ,x+                 X: the parameters
        cmpa    #$20
        beq     start               a blank is passed over
        cmpa    #$0D
        beq     done                the end of the parameters
        leax    -1,x                X: a path list
        lda     #1                  A: read
        os9     $84                 I$Open: A the path, X behind the path list
        bcs     exit                an error is the status
        stx     <rest
        ldx     #may                X: the attributes
        ldb     #$1C                B: SS.Attr
        os9     $8E                 I$SetStt
        bcs     exit
        os9     $8F                 I$Close
        bcs     exit
        ldx     <rest
        bra     start
done    clrb                        B: the status
exit    os9     $06                 F$Exit
        emod                        the CRC, 3 bytes
