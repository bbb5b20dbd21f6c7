* stray.asm: clears its memory, does not stop at its end, and so ends with error 228.
        mod     SysGo,$11,$81,200   name, type and language, attributes and revision, storage
start   ldx     #0                  X: the first byte of its memory
clear   clr     ,x+
        bra     clear
        emod                        the CRC, 3 bytes
