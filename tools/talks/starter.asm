; Starts started.com, and ends with its code.
section .text
start:
    mov bx, 40h
    mov ah, 4ah
    int 21h
    mov [parameters + 4], cs
    mov [parameters + 8], cs
    mov [parameters + 12], cs
    mov ax, 4b00h
    mov dx, name
    mov bx, parameters
    int 21h
    mov ah, 4dh
    int 21h
    mov ah, 4ch
    int 21h
name: db 'STARTED.COM', 0
tail: db 0, 13
parameters: dw 0, tail, 0, 5ch, 0, 6ch, 0
