; the handler of a server: each request gets the home's pages, counts there to 1, and replies with the count
.entry 0
.page 0 -
LI r2, 8
LI r3, 1
SYS 4
LDB r5, r4, 8
JNZ r5, bad
LDW r6, r4, 0
ADDI r6, r6, 1
STW r6, r4, 0
LI r1, 1
LI r2, 0
LI r3, 1
SYS 5
HALT
bad: LDW r6, r4, 1
