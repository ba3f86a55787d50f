; Enters its copy, which tries to take over a page of its caller through the descriptor that the switch left: refused.
.entry 0
.page 0 00000000000000000000000001000000
SYS 16
LI r8, 2
EQ r9, r0, r8
JZ r9, child
MOV r1, r0
SYS 17
HALT
child: LI r2, 0
LI r3, 1
SYS 19
HALT
