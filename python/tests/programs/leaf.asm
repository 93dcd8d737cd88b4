; Allocates a block, and ends without freeing it.
        MOV AH,4Ah
        MOV BX,20h
        INT 21h
        MOV AH,48h
        MOV BX,100h
        INT 21h
        MOV AX,4C05h
        INT 21h
