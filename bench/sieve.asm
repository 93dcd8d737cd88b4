; Sieve of Eratosthenes over 8191 odd numbers, a byte each, many times over: byte compares and writes by index, sums,
; short jumps. Prints the sum that it makes of the primes in hexadecimal, and ends with code 0.
;
; Build: nasm -f bin -o SIEVE.COM sieve.asm

        cpu     8086
        org     100h

ROUNDS  equ     250
COUNT   equ     8191
flags   equ     2000h

        mov     word [rounds],ROUNDS
        xor     bp,bp
again:  mov     di,flags        ; each number may be prime
        mov     cx,COUNT
        mov     al,1
fill:   mov     [di],al
        inc     di
        loop    fill
        xor     dx,dx           ; how many primes
        xor     si,si           ; number 2 * SI + 3
next:   cmp     byte [flags+si],0
        je      passed
        mov     ax,si
        add     ax,si
        add     ax,3
        mov     bx,si
        add     bx,ax
strike: cmp     bx,COUNT-1      ; its multiples are not
        ja      counted
        mov     byte [flags+bx],0
        add     bx,ax
        jmp     short strike
counted:
        inc     dx
        add     bp,ax
passed: inc     si
        cmp     si,COUNT
        jb      next
        xor     bp,dx
        dec     word [rounds]
        jnz     again
        mov     ax,bp
        jmp     finish

finish: push    ax              ; four hexadecimal digits of AX
        mov     dx,text
        mov     ah,9
        int     21h
        pop     ax
        mov     cx,4
digit:  push    cx
        mov     cl,4
        rol     ax,cl
        push    ax
        and     al,0Fh
        add     al,'0'
        cmp     al,'9'+1
        jb      put
        add     al,'A'-'9'-1
put:    mov     dl,al
        mov     ah,2
        int     21h
        pop     ax
        pop     cx
        loop    digit
        mov     dl,13
        mov     ah,2
        int     21h
        mov     dl,10
        mov     ah,2
        int     21h
        mov     ax,4C00h
        int     21h

text:   db      'sieve $'
rounds: dw      0
