; two plugins, one step each in turn; r14 is the sum of the numbers that they exit with
.entry 0
.page 0 01000000020000000000000040000000
LI r2, 1
SYS 16
LI r8, -1
LIH r8, -1
EQ r9, r0, r8
JNZ r9, plugin
MOV r10, r0
LI r1, 0
LI r2, 1
SYS 16
EQ r9, r0, r8
JNZ r9, plugin
MOV r11, r0
MOV r1, r10
SYS 21
MOV r1, r11
SYS 21
; fuel for one step; the thread comes back with r1 to r4, and the slot in r1 is closed
turn: MOV r1, r10
LI r2, 1
SYS 24
SYS 17
SYS 2
LI r9, 0
LIH r9, 1
EQ r9, r2, r9
JZ r9, ended
MOV r9, r10
MOV r10, r11
MOV r11, r9
JMP turn
; any other reason, also a call, ends it: the other one has all turns now
ended: ADD r14, r14, r4
MOV r10, r11
ADDI r12, r12, 1
LI r9, 2
EQ r9, r12, r9
JZ r9, turn
HALT
plugin: LI r6, 300
w: ADDI r5, r5, 1
EQ r7, r5, r6
JZ r7, w
MOV r1, r5
SYS 10
