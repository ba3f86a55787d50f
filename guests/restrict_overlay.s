; takes keys from a capability, after which only the pages 3 and 4 can be taken over
.entry 0
.page 0 0000000000000000030000000500000000000000000000000300000006000000
.page 3 -
.page 4 -
.page 5 -
SYS 16
MOV r1, r0
SYS 3
LI r1, 2
LI r2, 0
LI r3, 1
SYS 18
LI r2, 16
SYS 19
MOV r10, r0
LI r2, 0
SYS 19
MOV r11, r0
LI r1, 3
LI r2, 16
SYS 19
HALT
