; Allocates two blocks of one paragraph and writes 17 bytes into the first: the last one overwrites the header of the
; second. The next call detects it and returns error code 7; `dm check` reports the step that does it.
        MOV SP,400h             ; puts the stack into the block that the program keeps
        MOV AH,4Ah              ; the program keeps 40h paragraphs
        MOV BX,40h
        INT 21h
        MOV AH,48h
        MOV BX,1
        INT 21h
        MOV ES,AX               ; the first block
        MOV AH,48h
        MOV BX,1
        INT 21h
        XOR DI,DI
        MOV AL,2Ah
        MOV CX,17
        REP STOSB
        MOV AH,49h              ; frees the first block
        INT 21h
        MOV AX,4C00h
        INT 21h
