; Comes to one linear address by two pairs of CS and IP, and ends with code 0.
bits 16
section .text
start:
    mov bx, 2
next:
    dec bx
    jz done
    mov ax, cs
    sub ax, 10h
    push ax
    mov ax, next + 100h
    push ax
    retf
done:
    mov ax, 4c00h
    int 21h
