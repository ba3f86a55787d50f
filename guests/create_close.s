; makes a context and closes its descriptor, which drops it: one frame is enough (run it with --frames 1)
.entry 0
.page 0 -
SYS 16
MOV r1, r0
SYS 2
LI r5, 1
STW r5, r4, 0
HALT
