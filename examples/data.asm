* data.asm: the module Data of revisions.mod. The header of a module of data has 9 bytes, and no storage.
        mod     Data,$40,$81,0      type 4 and language 0
        fcb     1,2,3,4,5
        emod                        the CRC, 3 bytes
