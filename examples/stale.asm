; Three mistakes in three kinds of memory: it writes into a block that it has freed, frees the block again, and ends
; without giving back two pages of expanded memory. `dm check` reports each, with the line's address.
        MOV SP,400h             ; puts the stack into the block that the program keeps
        MOV AH,4Ah              ; the program keeps 40h paragraphs
        MOV BX,40h
        INT 21h
        MOV AH,48h
        MOV BX,4
        INT 21h
        MOV ES,AX               ; a block of 64 bytes
        ES MOV BYTE [0],41h
        MOV AH,49h              ; frees it
        INT 21h
        ES MOV BYTE [2],42h     ; the first mistake
        MOV AH,49h              ; the second
        INT 21h
        MOV AH,43h              ; two pages of expanded memory, which nothing gives back: the third
        MOV BX,2
        INT 67h
        MOV AX,4C00h
        INT 21h
