; the first thread stores 7 in page 0, the second loads it: what the second sees is up to the schedule
.entry 0
.entry 3
LI r5, 7
STW r5, r4, 0
HALT
LDW r6, r4, 0
HALT
.page 0 -
