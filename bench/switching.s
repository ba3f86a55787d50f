; Two contexts switch to each other without end. Each closes the descriptor of the other one that it no longer needs.
.entry 0
LI r2, 0
SYS 16                  ; slot 2: the other one, which begins after this call
LI r8, 2
EQ r9, r0, r8
JZ r9, other
loop: LI r1, 2
SYS 17                  ; comes back with the slot of the other one's descriptor in r1
SYS 2
JMP loop
other: MOV r11, r1      ; the slot of the first one's descriptor
SYS 17
MOV r12, r1
MOV r1, r11
SYS 2
MOV r1, r12
JMP other
