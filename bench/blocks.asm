; Moves of extended memory, 262,144 bytes a turn of 13 steps: from one block to another, within one over itself, and
; from conventional memory to a block.
        MOV AX,4310h            ; the driver's address
        INT 2Fh
        MOV [entry],BX
        MOV WORD [entry+2],ES
        MOV AH,9                ; two blocks of 128 KiB, handles 1 and 2
        MOV DX,80h
        CALL FAR [entry]
        MOV AH,9
        MOV DX,80h
        CALL FAR [entry]

again:  MOV SI,apart
        MOV AH,0Bh
        CALL FAR [entry]
        MOV SI,over
        MOV AH,0Bh
        CALL FAR [entry]
        MOV SI,plain
        MOV AH,0Bh
        CALL FAR [entry]
        JMP SHORT again

entry:  DW 0,0
; The length, a double word; then a handle and an offset, a double word, for the source and for the destination.
apart:  DW 0,2,1,0,0,2,0,0
over:   DW 0,1,1,0,0,1,2,0
plain:  DW 0,1,0,0,2000h,2,0,0
