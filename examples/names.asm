* names.asm: SysGo asks for a name, puts it at the end of the file NAMES on D0, which it makes if there is none, and
* lists the file.
        mod     SysGo,$11,$81,200   name, type and language, attributes and revision, storage
path    equ     0                   the path of the file, one byte
count   equ     path+1              how many bytes the name has, two bytes
line    equ     16                  a line, 80 bytes
most    equ     80
start   leax    <ask,pcr            X: the question
        ldy     #asked              Y: its size
        lda     #1                  A: standard output
        os9     $8A                 I$Write
        bcs     exit                an error is the status
        ldx     #line
        ldy     #most
        clra                        A: standard input
        os9     $8B                 I$ReadLn: Y the bytes that were read
        bcs     exit
        sty     <count
        leax    <file,pcr           X: the path list
        lda     #3                  A: read and write
        os9     $84                 I$Open: A the path
        bcc     opened
        cmpb    #216                is there no such file?
        bne     exit
        leax    <file,pcr
        lda     #3
        ldb     #3                  B: the owner may read and write it
        os9     $83                 I$Create
        bcs     exit
opened  sta     <path
        ldb     #2                  B: SS.Size
        os9     $8D                 I$GetStt: X and U the size
        bcs     exit
        os9     $88                 I$Seek, to the end
        bcs     exit
        ldx     #line
        ldy     <count
        os9     $8C                 I$WritLn
        bcs     exit
        ldx     #0
        ldu     #0
        os9     $88                 I$Seek, to the front
        bcs     exit
next    lda     <path
        ldx     #line
        ldy     #most
        os9     $8B                 I$ReadLn
        bcs     over
        lda     #1                  A: standard output
        os9     $8C                 I$WritLn
        bcc     next
over    cmpb    #211                the end of the file?
        bne     exit
        clrb                        B: the status
exit    os9     $06                 F$Exit, which closes the path
ask     fcc     "Your name? "
asked   equ     *-ask
file    fcc     "/D0/NAMES"
        fcb     $0D
        emod                        the CRC, 3 bytes
