; Copies its input to its output, with a star behind each letter, until an input of Q.
bits 16
section .text
start:
    mov ah, 8
    int 21h
    cmp al, 'Q'
    je done
    mov dl, al
    call put
    mov dl, '*'
    call put
    jmp start
put:
    mov ah, 2
    int 21h
    ret
done:
    mov ax, 4c00h
    int 21h
