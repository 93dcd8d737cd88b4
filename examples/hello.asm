; Prints a line by function 09h of INT 21h, and ends with code 0.
        MOV AH,9
        MOV DX,text
        INT 21h
        MOV AX,4C00h
        INT 21h
text:   DB 'hello, world',10,'$'
