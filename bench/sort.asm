; Insertion sort of 512 words, which are filled in anew each time: word reads and writes by base and index, compares,
; near calls, the stack. Prints `sorted` and ends with code 0, or prints nothing and ends with code 1 if they are not
; sorted.
;
; Build: nasm -O0 -f bin -o SORT.COM sort.asm

        cpu     8086
        org     100h

ROUNDS  equ     20
COUNT   equ     512
words   equ     4000h

        mov     bp,ROUNDS
        mov     ax,1
round:  push    bp
        call    fill
        push    ax
        call    sort
        call    test_order
        pop     ax
        pop     bp
        dec     bp
        jnz     round
        mov     dx,text
        mov     ah,9
        int     21h
        mov     ax,4C00h
        int     21h

; COUNT words, each 25173 times the one before, plus 13849; AX: the last one before and the last one after
fill:   mov     di,words
        mov     cx,COUNT
        cld
.next:  mov     dx,25173
        mul     dx
        add     ax,13849
        stosw
        loop    .next
        ret

; into ascending order; DI is the offset of the word that is put into its place
sort:   mov     di,2
.next:  mov     ax,[words+di]
        mov     bx,di
.shift: cmp     ax,[words+bx-2]
        jae     .place
        mov     dx,[words+bx-2]
        mov     [words+bx],dx
        sub     bx,2
        jnz     .shift
.place: mov     [words+bx],ax
        add     di,2
        cmp     di,2*COUNT
        jb      .next
        ret

; ends the program with code 1 if a word is below the one before
test_order:
        mov     si,words+2
        mov     cx,COUNT-1
.next:  mov     ax,[si]
        cmp     ax,[si-2]
        jb      .wrong
        add     si,2
        loop    .next
        ret
.wrong: mov     ax,4C01h
        int     21h

text:   db      'sorted',13,10,'$'
