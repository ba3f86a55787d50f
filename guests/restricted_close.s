; closes a slot of another context on its behalf, and is refused once the capability lacks a slot
.entry 0
.page 0 0100000000000000000000003f000000
.file 0 1 aa
.slot 2 0
SYS 16
LI r1, 3
LI r2, 2
LI r3, 2
LI r4, 2
SYS 20
MOV r10, r0
LI r2, 0
LI r3, 1
SYS 18
LI r2, 2
LI r3, 3
LI r4, 0
SYS 20
HALT
