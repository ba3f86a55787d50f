; The handler of `gen N`. With the 300 pages of `gen` it replies to the word x with x + p, where p = 2 + (x mod 298), and with 1.
.entry 0
LI r2, 4096
LI r3, 8
SYS 4
LDW r4, r2, 0
LI r5, 298
REMU r5, r4, r5
ADDI r5, r5, 2
LI r6, 4096
MUL r5, r5, r6
LDW r7, r5, 0
ADD r7, r7, r4
STW r7, r5, 0
LDW r8, r9, 0
ADDI r8, r8, 1
STW r8, r9, 0
LI r1, 1
MOV r2, r5
SYS 5
LI r2, 0
SYS 5
HALT
