; Jumps to 2^64 - 1: fault 1, and no instruction is read there.
.entry 0
ADDI r1, r0, -1
JR r1
