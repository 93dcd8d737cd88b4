; Sets interrupt 60h to a handler of its own, and calls it.
section .text
start:
    mov ax, 2560h
    mov dx, handler
    int 21h
    mov bx, 1
    int 60h
    mov ax, 4c00h
    int 21h
handler:
    inc bx
    iret
