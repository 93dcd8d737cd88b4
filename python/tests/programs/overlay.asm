; Keeps six pages of expanded memory under two handles, and calls one after the other in the windows, as a program with
; overlays does.
        MOV AH,43h
        MOV BX,4
        INT 67h
        MOV [first],DX
        MOV AH,43h
        MOV BX,2
        INT 67h
        MOV [second],DX
        XOR BX,BX
show:   MOV DX,[first]          ; pages 0 to 3 in window 0, one after the other
        MOV AX,4400h
        INT 67h
        MOV CX,300
run:    LOOP run
        MOV DX,[second]         ; and a page of the second handle in window 2
        PUSH BX
        AND BX,1
        MOV AX,4402h
        INT 67h
        POP BX
        INC BX
        CMP BX,4
        JB show
        MOV DX,[first]          ; five pages from now on
        MOV BX,5
        MOV AH,51h
        INT 67h
        MOV BX,0FFFFh           ; the windows show nothing
        MOV AX,4400h
        INT 67h
        MOV AX,4402h
        INT 67h
        MOV DX,[first]
        MOV AH,45h
        INT 67h
        MOV DX,[second]
        MOV AH,45h
        INT 67h
        MOV AX,4C00h
        INT 21h
first:  DW 0
second: DW 0
