; An EXE file by FASM, with three segments and relocations: sorts a table on its stack segment and prints it.
format MZ
entry code:start
stack 200h

segment code
start:  mov     ax, stored
        mov     ds, ax
        mov     es, ax
        mov     cx, 9
pass:   mov     si, table
        push    cx
        mov     cx, 9
next:   mov     al, [si]
        cmp     al, [si + 1]
        jbe     right
        xchg    al, [si + 1]
        mov     [si], al
right:  inc     si
        loop    next
        pop     cx
        loop    pass
        mov     dx, table
        mov     ah, 9
        int     21h
        call    other:done

segment stored
table   db      'gbiacjhfde$'

segment other
done:   mov     ax, 4C00h
        int     21h
