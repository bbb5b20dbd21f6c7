* log.asm: SysGo puts a line at the end of the file log, which it makes where there is none, and shows the whole file.
        mod     SysGo,$11,$81,200   name, type and language, attributes and revision, storage
start   leax    <name,pcr           X: the path list, from the data directory, which is the root of D0
        lda     #3                  A: read and write
        os9     $84                 I$Open: A the path
        bcc     opened
        cmpb    #216                is there no such file?
        bne     exit                an error is the status
        leax    <name,pcr
        lda     #3
        ldb     #3                  B: the owner may read and write it
        os9     $83                 I$Create
        bcs     exit
opened  sta     0                   the path, at the front of the data area
        ldb     #2                  B: SS.Size
        os9     $8D                 I$GetStt: X and U the size
        bcs     exit
        lda     0
        os9     $88                 I$Seek, to the end
        bcs     exit
        lda     0
        leax    <line,pcr
        ldy     #80                 Y: the most bytes of a line
        os9     $8C                 I$WritLn
        bcs     exit
        lda     0
        ldx     #0
        ldu     #0
        os9     $88                 I$Seek, to the front
        bcs     exit
next    lda     0
        ldx     #16                 X: the line, in the data area
        ldy     #80
        os9     $8B                 I$ReadLn: Y the bytes that were read
        bcs     over
        lda     #1                  A: standard output
        os9     $8C                 I$WritLn
        bcc     next
over    cmpb    #211                the end of the file?
        bne     exit
        clrb                        B: the status
exit    os9     $06                 F$Exit, which closes the path
name    fcc     "log"
        fcb     $0D
line    fcc     "booted"
        fcb     $0D
        emod                        the CRC, 3 bytes
