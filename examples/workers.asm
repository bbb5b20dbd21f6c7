* workers.asm: SysGo of workers.mod forks two workers, which write a word three times each, waits for both and exits
* with 0.
        mod     SysGo,$11,$81,200   name, type and language, attributes and revision, storage
start   leau    <first,pcr          U: the parameters of the first worker
        bsr     fork
        leau    <second,pcr         and of the second
        bsr     fork
        os9     $04                 F$Wait: for one of them
        os9     $04                 and for the other
        clrb                        B: the status
        os9     $06                 F$Exit
fork    leax    <name,pcr           X: the name of the program
        ldy     #5                  Y: the size of the parameters
        lda     #$11                A: its type and language
        clrb                        B: the pages of its data area, as its module says
        os9     $03                 F$Fork
        rts
name    fcs     "Worker"            bit 7 on the last character
first   fcc     "tick"
        fcb     $0D
second  fcc     "tock"
        fcb     $0D
        emod                        the CRC, 3 bytes
