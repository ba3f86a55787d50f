; maps a page of zeros, which takes a frame only when it is stored to
.entry 0
LI r1, 0
LI r2, 1
SYS 6
LDW r3, r4, 0
STW r2, r4, 0
HALT
