; Calls a procedure, repeats a loop three times, prints text, and ends with code 7.
bits 16
section .text
start:
    mov ax, 1
    call twice
    mov cx, 3
again:
    add bx, cx
    loop again
    mov ah, 9
    mov dx, text
    int 21h
    mov ax, 4c07h
    int 21h
twice:
    add ax, ax
    mov [doubled], ax
    ret
text: db 'hi$'
doubled: dw 0
