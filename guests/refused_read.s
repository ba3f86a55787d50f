; a read over a border of pages is refused whole if a frame is missing: run it with --frames 3, and with --frames 4
.entry 0
.page 0 -
.page 1 -
.file 0 1 0a0b0c0d
.slot 2 0
SYS 16
LI r1, 2
LI r2, 4094
LI r3, 4
SYS 4
MOV r6, r0
LI r1, 3
SYS 2
LI r1, 2
SYS 4
LDB r7, r2, 3
HALT
