; 32 pages are shared, every other one, which would make 65 ranges: refused
.entry 0
LI r1, 0
LI r2, 65
SYS 6
LI r5, 0
LI r6, 0
LIH r7, 1
LI r8, 1
loop: STW r7, r6, 0
ADDI r9, r8, 1
LI r10, 32
SHL r9, r9, r10
ADD r9, r9, r8
STW r9, r6, 8
ADDI r6, r6, 16
ADDI r8, r8, 2
ADDI r5, r5, 1
LI r10, 32
LTU r10, r5, r10
JNZ r10, loop
LI r1, 0
LI r2, 32
SYS 16
HALT
