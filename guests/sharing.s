; makes a context that shares page 1: the item at address 0 is kind 0 (pages), mode 1 (share), from 1, to 2
.entry 0
.page 0 00000000010000000100000002000000
.page 1 -
LI r2, 1
SYS 16
LI r5, 7
LI r6, 4096
STW r5, r6, 0
HALT
