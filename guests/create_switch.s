; makes a context, stores, and switches to it: the copy still has zeros
.entry 0
.page 0 -
SYS 16
LI r5, 1
STW r5, r4, 0
LI r6, 2
EQ r6, r0, r6
JZ r6, end
MOV r1, r0
LI r2, 9
SYS 17
end: HALT
