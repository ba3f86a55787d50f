; two contexts that name each other live until the first context forgets both
.entry 0
.page 0 -
SYS 16
LI r8, 2
EQ r9, r0, r8
JZ r9, ina
MOV r1, r0
SYS 17
SYS 2
LI r1, 2
SYS 2
HALT
ina: LI r2, 0
SYS 16
LI r8, 3
EQ r9, r0, r8
JZ r9, inb
MOV r1, r0
SYS 17
HALT
inb: STW r8, r4, 0
LI r1, 2
SYS 17
HALT
