; loads without end: each step is one load
.entry 0
LDW r1, r0, 0
JMP 0
.page 0 -
