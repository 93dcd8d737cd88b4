; Writes the longest block list: 57,088 headers of size 0, from 0100h to BFFFh and from D000h to EFFFh, over four pages
; in the four windows. It asks for the last block (step 399,925), then, with window 3 on window 0's page, for 0
; paragraphs (step 399,934), which fails. It runs below the list, at 0050:0000.

        MOV     AH,43h          ; four pages
        MOV     BX,4
        INT     67h
        MOV     BX,0
maps:   MOV     AL,BL           ; one in each window
        MOV     AH,44h
        INT     67h
        INC     BX
        CMP     BX,4
        JNZ     maps
        MOV     BP,DX
        MOV     AX,50h
        MOV     ES,AX
        MOV     SI,list
        MOV     DI,0
        MOV     CX,100h
        REP     MOVSB
        JMP     FAR 50h:0
list:   MOV     AX,50h
        MOV     SS,AX
        MOV     SP,800h
        MOV     AX,100h
low:    MOV     DS,AX
        MOV     BYTE [0],4Dh
        MOV     WORD [1],7
        MOV     WORD [3],0
        INC     AX
        CMP     AX,0C000h
        JNZ     low
        MOV     WORD [3],1000h  ; over C000h to CFFFh, where there is no memory
        MOV     AX,0D000h
high:   MOV     DS,AX
        MOV     BYTE [0],4Dh
        MOV     WORD [1],7
        MOV     WORD [3],0
        INC     AX
        CMP     AX,0F000h
        JNZ     high
        MOV     BYTE [0],5Ah    ; the last block is free
        MOV     WORD [1],0
        MOV     WORD [3],0FFFh
        MOV     AH,48h
        MOV     BX,0FFFh
        INT     21h
        MOV     DX,BP           ; window 3 on window 0's page
        MOV     AX,4403h
        MOV     BX,0
        INT     67h
        MOV     AH,48h
        MOV     BX,0
        INT     21h
        HLT
