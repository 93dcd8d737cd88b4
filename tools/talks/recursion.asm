; Adds up 3 + 2 + 1 by a procedure that calls itself.
section .text
start:
    mov cx, 3
    xor ax, ax
    nop
    call sum
    mov [total], ax
    mov ax, 4c00h
    int 21h
sum:
    jcxz done
    add ax, cx
    dec cx
    call sum
done:
    ret
total: dw 0
