; Gets the address of the XMS driver, allocates a block of 16 KiB, copies a line into it and back to another
; place, frees the block and prints the copy.
        MOV AX,4310h            ; the driver's address
        INT 2Fh
        MOV [driver],BX
        MOV WORD [driver+2],ES
        MOV AH,9                ; a block of 16 KiB, with its handle in DX
        MOV DX,16
        CALL FAR [driver]
        MOV WORD [there+8],DS
        MOV [there+10],DX
        MOV [back+4],DX
        MOV WORD [back+14],DS
        MOV SI,there            ; the line into the block
        MOV AH,0Bh
        CALL FAR [driver]
moved:  MOV SI,back             ; and back, to another place
        MOV AH,0Bh
        CALL FAR [driver]
        MOV DX,[back+4]
        MOV AH,0Ah              ; frees the block
        CALL FAR [driver]
        MOV AH,9
        MOV DX,room
        INT 21h
        MOV AX,4C00h
        INT 21h

driver: DW 0,0
there:  DW 14,0,0,line,0,0,0,0  ; length, then handle and offset of source and destination
back:   DW 14,0,0,0,0,0,room,0
line:   DB 'far and back',10,'$'
room:   DB '              '
