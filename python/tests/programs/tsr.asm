; Takes a block of 20h paragraphs for its data, and stays resident with 20h paragraphs.
        MOV AH,48h
        MOV BX,20h
        INT 21h
        MOV DX,20h
        MOV AX,3100h
        INT 21h
