* account.asm: SysGo starts Deposit twice, waits for both, and shows the file account.
        mod     SysGo,$11,$81,200   name, type and language, attributes and revision, storage
start   lda     #2                  the programs to start
        sta     0
fork    lda     #$11                A: type and language
        ldb     #0                  B: pages for data, at least
        leax    <name,pcr           X: the name of the module
        ldy     #0                  Y: no parameters
        os9     $03                 F$Fork
        bcs     exit
        dec     0
        bne     fork
        os9     $04                 F$Wait, for the one
        bcs     exit
        os9     $04                 and for the other
        bcs     exit
        leax    <file,pcr           X: the path list
        lda     #1                  A: read
        os9     $84                 I$Open: A the path
        bcs     exit
        ldx     #16                 X: the line, in the data area
        ldy     #80                 Y: the most bytes of it
        os9     $8B                 I$ReadLn
        bcs     exit
        lda     #1                  A: standard output
        os9     $8C                 I$WritLn
        bcs     exit
        clrb                        B: the status
exit    os9     $06                 F$Exit
name    fcc     "Deposit"
        fcb     $0D
file    fcc     "account"
        fcb     $0D
        emod                        the CRC, 3 bytes
