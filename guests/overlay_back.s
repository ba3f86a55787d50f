; takes a slot over from a context that it came back from
.entry 0
.page 0 01000000000000000200000003000000
SYS 16
LI r8, 2
EQ r9, r0, r8
JZ r9, child
MOV r1, r0
SYS 17
LI r1, 2
LI r2, 0
LI r3, 1
SYS 19
LI r1, 2
LI r2, 7
SYS 17
HALT
child: SYS 17
HALT
