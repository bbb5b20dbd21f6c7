* loop.asm: counts in B for ever.
        mod     SysGo,$11,$81,200   name, type and language, attributes and revision, storage
start   incb
        bne     start
        bra     start
        emod                        the CRC, 3 bytes
