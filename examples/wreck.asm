; Overwrites the signature of the header of its own block and requests a block: the block list is destroyed,
; so the call returns error code 7, which the program prints. Then it restores the header and ends.
        MOV AX,DS
        DEC AX                  ; the header is one paragraph below the PSP
        MOV ES,AX
        ES MOV BYTE [0],0
        MOV AH,48h
        MOV BX,1
        INT 21h
        JNC back
        ADD AL,30h              ; the error's digit
        MOV DL,AL
        MOV AH,2
        INT 21h
back:   ES MOV BYTE [0],5Ah
        MOV AX,4C00h
        INT 21h
