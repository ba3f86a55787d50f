; calls that are refused without end: each step is one call of a number that names none
.entry 0
SYS 11
JMP 0
.page 0 -
