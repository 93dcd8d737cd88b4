; In each of forty turns allocates a buffer and a record, works, and frees the buffer alone: the records leak.
        MOV SP,400h
        MOV AH,4Ah
        MOV BX,40h
        INT 21h
        MOV BP,40
turn:   MOV AH,48h              ; the buffer
        MOV BX,30h
        INT 21h
        MOV SI,AX
        MOV AH,48h              ; the record, which nobody frees
        MOV BX,8
        INT 21h
        MOV CX,200
work:   LOOP work
        MOV ES,SI
        MOV AH,49h
        INT 21h
        DEC BP
        JNZ turn
        MOV AX,4C00h
        INT 21h
