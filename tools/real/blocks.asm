; An EXE file that NASM writes byte by byte: it keeps what it needs, allocates, resizes and frees blocks, and walks the
; block list.
        cpu 8086
        bits 16
        org 0
header: dw 5A4Dh
        dw (end - header) % 512
        dw (end - header + 511) / 512
        dw 0, 2, 20h, 20h               ; no relocations, a header of two paragraphs, 20h paragraphs behind the image
        dw (end - code + 15) / 16       ; SS
        dw 200h, 0, 0, 0, 1Eh, 0        ; SP, checksum, IP, CS
        times 20h - ($ - header) db 0
code:
        mov     bx, ss                  ; keeps the program up to its stack's end
        mov     ax, es
        sub     bx, ax
        add     bx, 20h
        mov     ah, 4Ah
        int     21h
        jc      failed
        mov     cx, 8
        xor     di, di
get:    mov     ah, 48h
        mov     bx, cx
        int     21h
        jc      failed
        push    ax                      ; fills the block
        mov     es, ax
        push    cx
        mov     dx, cx
        mov     cl, 4
        shl     dx, cl
        mov     cx, dx
        xor     di, di
        mov     al, 0AAh
        rep stosb
        pop     cx
        loop    get
        mov     bp, sp
        mov     es, [ss:bp]             ; the last block grows and is filled again
        mov     ah, 4Ah
        mov     bx, 10h
        int     21h
        jc      failed
        mov     cx, 80h
        xor     di, di
        xor     ax, ax
        rep stosw
        mov     ah, 52h                 ; no such function here
        mov     cx, 8
put:    pop     es
        mov     ah, 49h
        int     21h
        jc      failed
        loop    put
        mov     ah, 51h                 ; walks the list from the program's block
        int     21h
        dec     bx
walk:   mov     es, bx
        cmp     byte [es:0], 'M'
        jne     over
        add     bx, [es:3]
        inc     bx
        jmp     walk
over:   mov     ax, 4C00h
        int     21h
failed: mov     ax, 4C01h
        int     21h
        times (16 - ($ - code) % 16) % 16 db 0
end:
