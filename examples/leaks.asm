; Allocates something of each kind and ends without freeing it: pages of expanded memory, one of which stays mapped, a
; saved map, a locked block of extended memory, an upper memory block, the high memory area, and address line A20.
        MOV AH,43h              ; two pages, with their handle in DX
        MOV BX,2
        INT 67h
        MOV AX,4400h            ; the first one in window 0
        MOV BX,0
        INT 67h
        MOV AH,47h              ; saves the map
        INT 67h
        MOV AX,4310h            ; the XMS driver's address
        INT 2Fh
        MOV [driver],BX
        MOV WORD [driver+2],ES
        MOV AH,9                ; a block of 16 KiB, with its handle in DX
        MOV DX,16
        CALL FAR [driver]
        MOV AH,0Ch              ; locks it
        CALL FAR [driver]
        MOV AH,10h              ; an upper memory block of 8 paragraphs
        MOV DX,8
        CALL FAR [driver]
        MOV AH,1                ; the high memory area
        MOV DX,0FFFFh
        CALL FAR [driver]
        MOV AH,3                ; A20 on
        CALL FAR [driver]
        MOV AX,4C00h
        INT 21h

driver: DW 0,0
