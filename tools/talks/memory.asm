; Fills a buffer, adds up a list of words, and ends with code 0.
bits 16
section .text
start:
    mov di, buffer
    mov cx, 4
    mov al, '*'
    rep stosb
    mov si, numbers
    mov cx, 4
    xor bx, bx
next:
    lodsw
    add bx, ax
    loop next
    mov [total], bx
    mov ax, 4c00h
    int 21h
numbers: dw 1, 2, 3, 4
total: dw 0
buffer: db 0, 0, 0, 0, '$'
