; a monitor lets a plugin read its file and write the console, refuses all else, and counts both: run it by `monitor`
; in the end r12 has the number of calls that were made for the plugin, and r13 that of the others
.entry 0
.page 0 -
.file 0 1 68656c6c6f0a
.slot 2 0
; the plugin's context is a copy with slots of its own, and slot 3 gets a descriptor of it with every key
SYS 16
LI r8, 3
EQ r9, r0, r8
JZ r9, plugin
LI r1, 3
SYS 21
LI r14, 0
JMP resume
; a call of the plugin comes here: r1 is the slot of the descriptor that it left, r2 the call, r3 to r5 its arguments
seen: MOV r10, r2
MOV r11, r3
MOV r6, r5
MOV r5, r4
MOV r4, r3
SYS 2
JZ r10, ended
; a read of slot 2 or a write of slot 1 is made for the plugin, over its memory and its slots
LI r8, 4
EQ r9, r10, r8
LI r8, 2
EQ r7, r11, r8
AND r9, r9, r7
JNZ r9, made
LI r8, 5
EQ r9, r10, r8
LI r8, 1
EQ r7, r11, r8
AND r9, r9, r7
JNZ r9, written
ADDI r13, r13, 1
LI r14, -1
JMP close
made: LI r3, 4
JMP call
written: LI r3, 5
call: ADDI r12, r12, 1
LI r1, 3
LI r2, 3
SYS 20
MOV r14, r0
; the descriptor of the monitor that the last switch left in slot 3 of the plugin is closed for it
close: LI r1, 3
LI r2, 2
LI r3, 2
LI r4, 3
SYS 20
; and the plugin goes on, with the answer as the argument
resume: LI r1, 3
MOV r2, r14
SYS 17
JMP seen
ended: HALT
; the plugin finds each answer in r2: it reads six bytes of the file and writes them
plugin: LI r1, 2
LI r2, 64
LI r3, 6
SYS 4
LI r1, 1
MOV r3, r2
LI r2, 64
SYS 5
; and it tries to get round the monitor: another slot, a second descriptor, the monitor's memory, a call on its behalf, a
; context of its own, and to trap the monitor
LI r1, 0
SYS 4
LI r1, 2
SYS 3
LI r1, 3
LI r2, 0
LI r3, 0
SYS 19
LI r1, 3
LI r2, 2
LI r3, 2
LI r4, 0
SYS 20
LI r1, 0
LI r2, 0
SYS 16
LI r1, 3
SYS 21
; it says that it has ended by a call that is none
SYS 0
HALT
