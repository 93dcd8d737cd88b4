; Looks for the EMS driver as programs do, allocates four pages, maps each in the window of its number,
; writes a letter into each window and reads all four; then maps the last page in the first window too and reads them
; again.
        MOV AX,3567h            ; the segment of vector 67h
        INT 21h
        MOV DI,0Ah              ; the driver's name is there at offset 0Ah
        MOV SI,name
        MOV CX,8
        CLD
        REPE CMPSB
        JNE absent
        MOV AH,41h              ; the frame's segment
        INT 67h
        MOV ES,BX
        MOV AH,43h              ; four pages for a new handle, in DX
        MOV BX,4
        INT 67h
        OR AH,AH
        JNE absent
        XOR BX,BX
map:    MOV AL,BL               ; page BX in window AL
        MOV AH,44h
        INT 67h
        INC BX
        CMP BX,4
        JB map
        XOR DI,DI
        MOV AL,41h
write:  ES MOV [DI],AL          ; a letter into each window
        INC AX
        ADD DI,4000h
        JNZ write
        CALL tell
        MOV AX,4400h            ; the last page in window 0
        MOV BX,3
        INT 67h
        CALL tell
        MOV AH,45h              ; frees the pages
        INT 67h
        MOV AX,4C00h
        INT 21h
absent: MOV AX,4C01h
        INT 21h

tell:   PUSH DX                 ; writes the letters and a line end
next:   ES MOV DL,[DI]
        MOV AH,2
        INT 21h
        ADD DI,4000h
        JNZ next
        MOV DL,0Ah
        MOV AH,2
        INT 21h
        POP DX
        RET

name:   DB 'EMMXXXX0'
