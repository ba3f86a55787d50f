; division by zero, a signed addend, and a shift by more than 64: private instructions alone
.entry 0
LI r1, 5
DIVU r2, r1, r0
REMU r3, r1, r0
ADDI r4, r0, -1
SHL r5, r1, r4
HALT
