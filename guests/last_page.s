; An image of form 2: stores to its last page, makes a context and stores there again. The context still loads the first value.
.form 2
.entry 0
.page 16383 -
LI r5, 67108856
LI r6, 7
STW r6, r5, 0
SYS 16
LI r8, 2
EQ r9, r0, r8
JZ r9, copy
LI r6, 8
STW r6, r5, 0
MOV r1, r0
SYS 17
HALT
copy: LDW r7, r5, 0
HALT
