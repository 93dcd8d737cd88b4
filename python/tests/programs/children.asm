; Starts CHILD.COM twice, which starts LEAF.COM: three processes at a time.
        MOV SP,400h
        MOV AH,4Ah
        MOV BX,50h
        INT 21h
        MOV WORD [block+4],CS
        MOV WORD [block+8],CS
        MOV WORD [block+12],CS
        MOV BP,2
again:  MOV AX,CS
        MOV ES,AX
        MOV BX,block
        MOV DX,name
        MOV AX,4B00h
        INT 21h
        DEC BP
        JNZ again
        MOV AX,4C00h
        INT 21h
name:   DB 'CHILD.COM',0
block:  DW 0,80h,0,5Ch,0,6Ch,0
