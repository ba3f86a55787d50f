; Restricts a capability twice, the second time to other pages: the keys that went do not come back, and the overlay is refused.
.entry 0
.page 0 0000000000000000030000000500000000000000000000000300000006000000
.page 3 -
.page 4 -
.page 5 -
SYS 16
MOV r1, r0
LI r2, 0
LI r3, 1
SYS 18
LI r2, 16
SYS 18
SYS 19
HALT
