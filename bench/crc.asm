; CRC-16/CCITT over 4096 bytes, bit by bit, many times over: shifts, short jumps, LOOP.
; Prints it in hexadecimal and ends with code 0.
;
; Build: nasm -f bin -o CRC.COM crc.asm

        cpu     8086
        org     100h

ROUNDS  equ     300
LENGTH  equ     4096
data    equ     2000h

        mov     di,data         ; the data: the high bytes of words, each 3 times the one before, plus 17h
        mov     cx,LENGTH
        mov     ax,1234h
fill:   mov     bx,ax
        shl     ax,1
        add     ax,bx
        add     ax,17h
        mov     [di],ah
        inc     di
        loop    fill
        mov     word [rounds],ROUNDS
        mov     ax,0FFFFh
again:  mov     si,data
        mov     dx,LENGTH
next:   xor     ah,[si]
        inc     si
        mov     cx,8
bit:    shl     ax,1
        jnc     shifted
        xor     ax,1021h
shifted:
        loop    bit
        dec     dx
        jnz     next
        dec     word [rounds]
        jnz     again
        jmp     finish

finish: push    ax              ; four hexadecimal digits of AX
        mov     dx,text
        mov     ah,9
        int     21h
        pop     ax
        mov     cx,4
digit:  push    cx
        mov     cl,4
        rol     ax,cl
        push    ax
        and     al,0Fh
        add     al,'0'
        cmp     al,'9'+1
        jb      put
        add     al,'A'-'9'-1
put:    mov     dl,al
        mov     ah,2
        int     21h
        pop     ax
        pop     cx
        loop    digit
        mov     dl,13
        mov     ah,2
        int     21h
        mov     dl,10
        mov     ah,2
        int     21h
        mov     ax,4C00h
        int     21h

text:   db      'crc $'
rounds: dw      0
