; Allocates sixteen blocks of growing size, frees every second one, and cannot get a large block then, although enough
; is free.
        MOV SP,400h
        MOV AH,4Ah              ; the program keeps 40h paragraphs
        MOV BX,40h
        INT 21h
        MOV DI,table
        MOV CX,16
take:   MOV AH,48h              ; blocks of 900h, 910h, .. paragraphs
        MOV BX,CX
        SHL BX,1
        SHL BX,1
        SHL BX,1
        SHL BX,1
        ADD BX,900h
        INT 21h
        MOV [DI],AX
        ADD DI,2
        LOOP take
        MOV SI,table
        MOV CX,8
drop:   MOV ES,WORD [SI]        ; every second one is free
        MOV AH,49h
        INT 21h
        ADD SI,4
        LOOP drop
        MOV AH,48h              ; more than any piece has: refused
        MOV BX,2000h
        INT 21h
        MOV AH,48h              ; small ones go into the first piece
        MOV BX,100h
        INT 21h
        MOV ES,AX
        MOV AH,4Ah              ; and grow there
        MOV BX,200h
        INT 21h
        MOV AH,49h
        INT 21h
        MOV AX,4C00h
        INT 21h
table:  DW 0,0,0,0,0,0,0,0,0,0,0,0,0,0,0,0
