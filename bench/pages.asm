; Allocates a page of expanded memory and frees it, over and over, with 510 others allocated: eight steps a turn.
; Runs forever, with --ems 512.

        MOV     AH,43h
        MOV     BX,510
        INT     67h
again:  MOV     AH,43h          ; a page for a new handle
        MOV     BX,1
        INT     67h
        MOV     AH,45h          ; frees the handle
        INT     67h
        JMP     SHORT again
