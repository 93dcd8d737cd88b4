; Frees its environment, calls interrupt 60h, and ends with 7.
        cpu     8086
        org     100h
        mov     es, [2Ch]
        mov     ah, 49h
        int     21h
        int     60h
        mov     ax, 4C07h
        int     21h
