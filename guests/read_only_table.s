; A table that a library may read and not write. The library is a context that gets the table, page 0, by a
; copy that it may only read, and page 1, for its answer, in common with the caller. First it is asked for the
; sum of two words of the table, and gets the sum back as an argument (r2 is 7). Then it tries to store to the
; table: fault 6, and the caller's table stays.
.page 0 03000000000000000400000000000000
.page 1 -
.page 2 0000000003000000000000000100000000000000010000000100000002000000
.entry top
top: LI r1, 8192
LI r2, 2
SYS 16
LI r8, 2
EQ r9, r0, r8
JZ r9, library
MOV r10, r0
MOV r1, r0
LI r2, 0
SYS 17
LDW r2, r4, 4096
MOV r1, r10
SYS 17
HALT
library: JNZ r2, spoil
LDW r5, r4, 0
LDW r6, r4, 8
ADD r5, r5, r6
STW r5, r4, 4096
LI r2, 0
SYS 17
JMP library
spoil: LI r5, 9
STW r5, r4, 0
HALT
