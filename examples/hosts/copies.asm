; Allocates two blocks of two paragraphs and copies a line of input into the first: up to 40 bytes, though the block has
; room for 32. A longer line overwrites the header of the second block.
        MOV SP,400h             ; the stack stays in the block that is kept
        MOV AH,4Ah              ; the program keeps 40h paragraphs
        MOV BX,40h
        INT 21h
        MOV AH,48h
        MOV BX,2
        INT 21h
        MOV ES,AX               ; the first block
        MOV AH,48h
        MOV BX,2
        INT 21h
        XOR DI,DI
        MOV CX,40               ; the mistake: the block has 32 bytes
next:   MOV AH,8                ; reads a byte of input
        INT 21h
        CMP AL,2Eh              ; a full stop ends the line
        JE done
        STOSB
        LOOP next
done:   MOV AX,4C00h
        INT 21h
