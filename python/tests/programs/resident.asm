; Starts TSR.COM, which moves itself to upper memory and stays resident there; then allocates in both parts of memory.
; For --upper.
        MOV SP,400h
        MOV AH,4Ah
        MOV BX,50h
        INT 21h
        MOV WORD [block+4],CS   ; the command tail and both file control blocks are those of this program
        MOV WORD [block+8],CS
        MOV WORD [block+12],CS
        MOV AX,5803h            ; upper memory is linked
        MOV BX,1
        INT 21h
        MOV AX,5801h            ; and looked at first
        MOV BX,80h
        INT 21h
        MOV AX,CS
        MOV ES,AX
        MOV BX,block
        MOV DX,name
        MOV AX,4B00h
        INT 21h
        MOV AX,5801h
        MOV BX,0
        INT 21h
        MOV AH,48h
        MOV BX,80h
        INT 21h
        MOV ES,AX
        MOV AH,49h
        INT 21h
        MOV AX,4C00h
        INT 21h
name:   DB 'TSR.COM',0
block:  DW 0,80h,0,5Ch,0,6Ch,0
