; Takes a snapshot, counts in memory, writes the count, and goes back to the snapshot: three rounds.
.entry 0
.page 0 -
top: LI r2, 0
SYS 16
LI r8, 0
ADDI r8, r8, -1
EQ r9, r0, r8
JZ r9, work
MOV r10, r2
SYS 2
JMP top
work: MOV r11, r0
LDW r5, r4, 0
ADDI r5, r5, 1
STW r5, r4, 0
LI r1, 1
LI r2, 0
LI r3, 8
SYS 5
ADDI r10, r10, 1
LI r8, 3
LTU r9, r10, r8
JZ r9, end
MOV r1, r11
MOV r2, r10
SYS 17
end: HALT
