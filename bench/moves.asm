; Moves 64 KiB from conventional memory to four pages of expanded memory and back, over and over: ten steps a turn.
; Runs forever.

        MOV     AH,43h
        MOV     BX,4
        INT     67h
        MOV     [there_handle],DX
        MOV     [back_handle],DX
again:  MOV     AX,5700h
        MOV     SI,there
        INT     67h
        MOV     AX,5700h
        MOV     SI,back
        INT     67h
        NOP
        JMP     SHORT again

; A region move: the length, then the source and the destination, each a type, a handle, an offset and a segment or a
; page.
there:  DW      0,1
        DB      0
        DW      0,0,2000h
        DB      1
there_handle: DW 0
        DW      0,0
back:   DW      0,1
        DB      1
back_handle: DW 0
        DW      0,0
        DB      0
        DW      0,0,3000h
