; Adds up two numbers by a procedure, and ends with the sum as its code.
section .text
start:
    mov ax, 2
    mov bx, 3
    call sum_up
    mov ah, 4ch
    int 21h
sum_up:
    push bx
    add ax, bx
    pop bx
    ret
