; Allocates, frees and splits blocks of conventional memory by functions 48h, 49h and 4Ah of INT 21h, and
; prints the block list: a line for each header, with its segment, signature, owner and size.
        MOV AH,4Ah              ; the program keeps 1000h paragraphs: ES is its PSP
        MOV BX,1000h
        INT 21h
        MOV AH,48h              ; a block of 10h paragraphs
        MOV BX,10h
        INT 21h
        MOV [first],AX
        MOV AH,48h              ; and one of 20h after it
        MOV BX,20h
        INT 21h
        MOV ES,WORD [first]     ; frees the first one
        MOV AH,49h
        INT 21h
        MOV AH,48h              ; and splits it: allocates 4 of its paragraphs
        MOV BX,4
        INT 21h
        MOV BX,100h             ; the first header
next:   MOV ES,BX
        MOV AX,BX
        CALL number
        ES MOV AL,[0]           ; M, or Z in the last header
        CALL letter
        ES MOV AX,[1]           ; the owner, 0 for a free block
        CALL number
        ES MOV AX,[3]           ; the size in paragraphs
        CALL number
        MOV AL,10
        CALL put
        ES CMP BYTE [0],5Ah
        JZ done
        ES ADD BX,[3]
        INC BX
        JMP next
done:   MOV AX,4C00h
        INT 21h

put:    MOV DL,AL               ; writes AL
        MOV AH,2
        INT 21h
        RET

letter: CALL put                ; writes AL and a space
        MOV AL,20h
        JMP put

number: MOV CX,4                ; writes AX as four digits, and a space
digit:  ROL AX,1
        ROL AX,1
        ROL AX,1
        ROL AX,1
        PUSH AX
        AND AL,0Fh
        ADD AL,30h
        CMP AL,3Ah
        JB low
        ADD AL,7
low:    CALL put
        POP AX
        LOOP digit
        MOV AL,20h
        JMP put

first:  DW 0
