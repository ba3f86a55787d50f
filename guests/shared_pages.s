; shares page 0 with one new context and copies it into another: what the first one stores, the second one does not see
.entry 0
.page 0 05
.page 1 00000000010000000000000001000000
LI r1, 4096
LI r2, 1
SYS 16
LI r8, 2
EQ r9, r0, r8
JZ r9, ina
LI r2, 0
SYS 16
LI r8, 3
EQ r9, r0, r8
JZ r9, inb
LI r1, 2
SYS 17
LI r1, 3
SYS 17
HALT
ina: LI r5, 6
STB r5, r4, 0
SYS 17
HALT
inb: LDB r7, r4, 0
HALT
