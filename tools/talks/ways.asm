; Calls a procedure in each other way, with and without a return, and ends with code 0.
section .text
start:
    mov [away + 2], cs
    mov [chained + 2], cs
    call [listed]
    mov bx, takes
    mov ax, 7
    push ax
    call bx
    push cs
    call returns_far
    call far [away]
    pushf
    call far [chained]
    call digits
    call lasts
by_table:
    push bx
    mov bx, 1
    pop bx
    ret
takes:
    push bp
    mov bp, sp
    mov ax, [bp + 4]
    pop bp
    ret 2
returns_far:
    nop
    retf
returns_flags:
    nop
    iret
digits:
    mov ax, 120
    mov bx, 10
    xor cx, cx
rest:
    xor dx, dx
    div bx
    push dx
    inc cx
    test ax, ax
    jnz rest
each:
    pop dx
    add dl, '0'
    mov ah, 2
    int 21h
    loop each
    ret
lasts:
    push ax
    mov ax, 4c00h
    int 21h
listed: dw by_table
away: dw returns_far, 0
chained: dw returns_flags, 0
