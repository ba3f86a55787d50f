; Makes a context and closes its descriptor, without end. 31 more contexts live, 30 of which only the first of them has descriptors of.
.entry 0
LI r2, 0
SYS 16                  ; slot 2: the other one, which begins after this call
LI r8, 2
EQ r9, r0, r8
JZ r9, other
LI r1, 2
SYS 17                  ; the other one makes the 30
loop: LI r2, 0
SYS 16
MOV r1, r0
SYS 2                   ; nothing reaches the new context any more
JMP loop
other: MOV r11, r1      ; the slot of the first one's descriptor
LI r12, 0
more: LI r2, 0
SYS 16
ADDI r12, r12, 1
LI r13, 30
LTU r13, r12, r13
JNZ r13, more
MOV r1, r11
SYS 17                  ; back
