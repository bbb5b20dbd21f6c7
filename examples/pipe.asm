* pipe.asm: SysGo of pipe.mod makes a pipe its standard output and forks Lines, which writes two lines there. SysGo
* reads them from the pipe and writes each on the screen, until Lines has ended.
        mod     SysGo,$11,$81,200   name, type and language, attributes and revision, storage
start   lda     #1                  A: standard output
        os9     $82                 I$Dup: 3 is an image of its path, the screen
        lda     #1
        os9     $8F                 I$Close: 1 is the least free number
        lda     #3                  A: read and write
        leax    <device,pcr         X: the path list
        os9     $84                 I$Open: 1 is a path on a new pipe
        leax    <name,pcr           X: the name of the program
        ldy     #0                  Y: no parameters
        lda     #$11                A: its type and language
        clrb                        B: the pages of its data area, as its module says
        os9     $03                 F$Fork: the child has images of paths 0, 1 and 2
again   ldx     #0                  X: the line, at the front of the data area
        ldy     #80                 Y: the most bytes of it
        lda     #1                  A: the pipe
        os9     $8B                 I$ReadLn: waits while the child may write
        bcs     over                the end of the file: the child has ended
        lda     #3                  A: the screen
        os9     $8C                 I$WritLn
        bra     again
over    os9     $04                 F$Wait
        clrb                        B: the status
        os9     $06                 F$Exit
device  fcc     "/PIPE"
        fcb     $0D
name    fcs     "Lines"             bit 7 on the last character
        emod                        the CRC, 3 bytes
