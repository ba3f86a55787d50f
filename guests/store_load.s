; stores 7 in the first word of page 0, loads it again, and halts
.entry 0
LI r1, 7
STW r1, r0, 0
LDW r2, r0, 0
HALT
.page 0 -
