; Starts the program CHILD.COM twice, reads its exit code, and keeps a handler of interrupt 60h, which the child calls.
        cpu     8086
        org     100h
        mov     sp, 800h
        mov     ah, 4Ah
        mov     bx, 80h
        int     21h
        mov     ax, 2560h
        mov     dx, handler
        int     21h
        mov     [block + 4], cs
        mov     [block + 8], cs
        mov     [block + 12], cs
        mov     cx, 2
again:  push    cx
        mov     ax, 4B00h
        mov     dx, name
        mov     bx, block
        push    ds
        pop     es
        int     21h
        jc      failed
        mov     ah, 4Dh
        int     21h
        cmp     al, 7
        jne     failed
        pop     cx
        loop    again
        cmp     word [calls], 2
        jne     failed
        mov     ax, 4C00h
        int     21h
failed: mov     ax, 4C01h
        int     21h
handler:
        inc     word [cs:calls]
        iret
name:   db 'CHILD.COM', 0
block:  dw 0, 80h, 0, 5Ch, 0, 6Ch, 0
calls:  dw 0
