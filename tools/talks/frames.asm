; Calls a procedure that calls far, which calls an interrupt with a handler of its own, which divides by zero: another
; handler. Each pushes registers or makes room for locals, in which stands what looks like a return address.
section .text
start:
    mov ax, 2560h
    mov dx, served
    int 21h
    mov ax, 2500h
    mov dx, divided
    int 21h
    mov [direct + 3], cs
    mov bp, 1234h
    mov si, 5678h
    call near_one
behind:
    mov ax, 4c00h
    int 21h
near_one:
    push bp
    mov bp, sp
    sub sp, 10
    mov word [bp - 4], behind
    push si
    mov si, 1
direct:
    db 9ah
    dw far_one, 0
    pop si
    mov sp, bp
    pop bp
    ret
far_one:
    push si
    inc si
    int 60h
    pop si
    retf
served:
    push dx
    push ax
    xor dx, dx
    xor bx, bx
    div bx
    pop ax
    pop dx
    iret
divided:
    push bp
    mov bp, sp
    inc cx
    pop bp
    iret
