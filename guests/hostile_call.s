; Enters its copy, which tries to close a slot of its caller through the descriptor that the switch left: refused.
.entry 0
.page 0 -
SYS 16
LI r8, 2
EQ r9, r0, r8
JZ r9, child
MOV r1, r0
SYS 17
HALT
child: LI r2, 2
LI r3, 2
LI r4, 2
SYS 20
HALT
