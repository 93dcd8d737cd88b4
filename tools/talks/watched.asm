; Counts in a loop, copies two bytes, reads two bytes of input over the copy, and ends with code 0.
bits 16
section .text
start:
    mov cx, 3
again:
    inc word [count]
    loop again
    mov si, text
    mov di, copy
    mov cx, 2
    rep movsb
    mov ah, 3fh
    xor bx, bx
    mov cx, 2
    mov dx, copy
    int 21h
    mov ax, 4c00h
    int 21h
count: dw 0
text: db 'ab'
copy: db '..'
