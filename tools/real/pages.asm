; Copies a block of DOS memory to four pages of expanded memory and back. NASM assembles it to a COM program, as it is,
; or with one of five bugs: `-D BUG=N` plants bug N, and the line that `dm check` must name has the mark `;@N`.
%ifndef BUG
%assign BUG 0
%endif
        cpu     8086
        org     100h

start:
%if BUG != 5
        mov     sp, 1000h               ; the stack ends with the block that the program keeps
%endif
        mov     ah, 4Ah                 ; keeps 100h paragraphs
        mov     bx, 100h
        int     21h                     ;@5
        jc      failed
        mov     ah, 48h                 ; two blocks of four paragraphs
        mov     bx, 4
        int     21h
        jc      failed
        mov     [first], ax
        mov     ah, 48h
        mov     bx, 4
        int     21h
        jc      failed
        mov     [second], ax
        mov     es, [first]             ; fills the first
        xor     di, di
%if BUG == 3
        mov     cx, 65
%else
        mov     cx, 64
%endif
        mov     al, 'e'
        cld
        rep stosb                       ;@3
        mov     ah, 43h                 ; four pages
        mov     bx, 4
        int     67h
        or      ah, ah
        jnz     failed
        mov     [handle], dx
        mov     ah, 41h
        int     67h
        mov     [frame], bx
        mov     bp, 0
each:   mov     bx, bp
        mov     ax, 4400h
        mov     dx, [handle]
        int     67h
        or      ah, ah
        jnz     failed
        mov     es, [frame]             ; the first block to the page
        xor     si, si
        xor     di, di
        mov     cx, 64
        push    ds
        mov     ds, [first]
        rep movsb
        pop     ds
        mov     es, [second]            ; the page to the second block
        xor     si, si
        xor     di, di
        mov     cx, 32
        push    ds
        mov     ds, [frame]
        rep movsw
        pop     ds
        inc     bp
        cmp     bp, 4
        jb      each
        mov     ax, 4400h               ; unmaps the window
        mov     bx, 0FFFFh
        mov     dx, [handle]
        int     67h
%if BUG == 2
        mov     es, [frame]
        mov     byte [es:20h], 1        ;@2
%endif
        mov     es, [second]
        mov     ah, 49h
        int     21h
%if BUG == 4
        mov     word [es:10h], 1234h    ;@4
%endif
        mov     es, [first]
        mov     ah, 49h
        int     21h
        mov     ah, 45h
        mov     dx, [handle]
        int     67h
%if BUG == 1
        mov     ah, 45h
        mov     dx, [handle]
        int     67h                     ;@1
%endif
        mov     ax, 4C00h
        int     21h
failed: mov     ax, 4C01h
        int     21h

first:  dw 0
second: dw 0
handle: dw 0
frame:  dw 0
