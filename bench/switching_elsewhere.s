; Two contexts switch to each other without end. 31 more contexts live, 30 of which only the first of them has descriptors of.
.entry 0
LI r2, 0
SYS 16                  ; slot 2: the one that makes the 30, which begins after this call
LI r8, 2
EQ r9, r0, r8
JZ r9, maker
LI r1, 2
SYS 17                  ; it makes them
SYS 2
LI r2, 0
SYS 16                  ; slot 3: the other one, which begins after this call
LI r8, 3
EQ r9, r0, r8
JZ r9, other
loop: LI r1, 3
SYS 17                  ; comes back with the slot of the other one's descriptor in r1
SYS 2
JMP loop
other: MOV r11, r1      ; the slot of the first one's descriptor
SYS 17
MOV r12, r1
MOV r1, r11
SYS 2
MOV r1, r12
JMP other
maker: MOV r11, r1      ; the slot of the first one's descriptor
LI r12, 0
more: LI r2, 0
SYS 16
ADDI r12, r12, 1
LI r13, 30
LTU r13, r12, r13
JNZ r13, more
MOV r1, r11
SYS 17                  ; back
