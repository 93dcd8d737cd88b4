; Fletcher's checksum of 16 bits over 8192 bytes, many times over: byte reads, sums with carries, short jumps.
; Prints the checksum in hexadecimal and ends with code 0.
;
; Build: nasm -O0 -f bin -o CHECKSUM.COM checksum.asm

        cpu     8086
        org     100h

ROUNDS  equ     200
LENGTH  equ     8192
data    equ     4000h

        mov     di,data         ; the data: each byte is 5 times the one before, plus 3
        mov     cx,LENGTH
        mov     al,7
        cld
fill:   stosb
        mov     ah,al
        add     al,al
        add     al,al
        add     al,ah
        add     al,3
        loop    fill

        mov     bp,ROUNDS
round:  mov     si,data
        mov     cx,LENGTH
        xor     bx,bx           ; BL: the sum, BH: the sum of sums, both modulo 255
next:   lodsb
        add     bl,al
        adc     bl,0
        add     bh,bl
        adc     bh,0
        loop    next
        dec     bp
        jnz     round

        mov     di,text         ; four hexadecimal digits of BX
        mov     dl,4
digit:  mov     cl,4
        rol     bx,cl
        mov     al,bl
        and     al,0Fh
        add     al,'0'
        cmp     al,'9'
        jbe     put
        add     al,'A'-'9'-1
put:    stosb
        dec     dl
        jnz     digit
        mov     dx,text
        mov     ah,9
        int     21h
        mov     ax,4C00h
        int     21h

text:   db      '....',13,10,'$'
