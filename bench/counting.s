; counts without end by private instructions alone: each step is 256 of them
.entry 0
ADDI r1, r1, 1
JMP 0
