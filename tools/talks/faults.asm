; The letter in the command tail chooses how the program stops.
bits 16
section .text
start:
    mov al, [82h]
    cmp al, 'h'
    je halt
    cmp al, 'u'
    je unlisted
    cmp al, 'r'
    je read
    cmp al, 'd'
    je destroy
    cmp al, '0'
    je divide
    mov ax, 4c00h
    int 21h
halt:
    cli
    hlt
unlisted:
    db 0fh, 0ffh
read:
    mov ah, 1
    int 21h
    jmp read
destroy:
    mov ax, 102h
    mov es, ax
    mov byte [es:0], 'Q'
    mov ax, 4c00h
    int 21h
divide:
    xor dx, dx
    xor cx, cx
    div cx
    jmp divide
