; opens files and changes the uid, as far as its uid allows; the context that it makes has no uid
.entry 0
.uid 7
.file 9 0 aa
.page 0 02000000020000000000000001000000
SYS 1
MOV r10, r0
LI r1, 1
SYS 1
MOV r11, r0
LI r1, 0
SYS 9
MOV r12, r0
LI r2, 1
SYS 16
HALT
