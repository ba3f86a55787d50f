; Enters its copy, which closes its descriptor of its caller by a call on itself: the caller dies, and nothing else.
.entry 0
.page 0 -
SYS 16
LI r8, 2
EQ r9, r0, r8
JZ r9, child
MOV r1, r0
SYS 17
HALT
child: LI r2, 0
LI r3, 2
LI r4, 2
SYS 20
HALT
