; stores without end: each step is one store
.entry 0
STW r1, r0, 0
ADDI r1, r1, 1
JMP 0
.page 0 -
