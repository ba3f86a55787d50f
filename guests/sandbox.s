; a sandbox: a plugin in a closed context, which shares page 1 with its caller and tries what it can; use its schedule, by replay or monitor
; in the end the caller's word is as before, which thread 1 loads into r7, and so are its slots and its uid; run needs --budget 100000, since thread 1 waits
; a file of uid 0 that is not public
.file 0 0 6b6579
.entry caller
.entry looks
; items for the plugin: leave out all slots, the uid and page 0, share page 1; and behind them a word of the caller's own
.page 0 010000000200000000000000400000000200000002000000000000000100000000000000020000000000000001000000000000000100000001000000020000002a
; the page in common, with an item of page 0 that the plugin will use
.page 1 0000000000000000000000000000000000000000000000000000000001000000
caller: LI r2, 4
SYS 16
LI r8, 0
ADDI r8, r8, -1
EQ r9, r0, r8
JNZ r9, plugin
MOV r1, r0
SYS 17
HALT
; the plugin has one descriptor, in slot 0: that of its caller, which the switch left there without a key
; it tries to take over the caller's page 0, to close the caller's slot 1, and to take keys from the descriptor
plugin: LI r2, 4112
LI r3, 1
SYS 19
MOV r10, r0
LI r2, 2
LI r3, 2
LI r4, 1
SYS 20
MOV r11, r0
LI r2, 4112
LI r3, 1
SYS 18
MOV r12, r0
; it maps page 0, which is its own now, and stores where the caller's word is
LI r1, 0
LI r2, 1
SYS 6
MOV r13, r0
LI r5, 7
STB r5, r1, 64
; it makes a copy of itself, tries to become another uid and to open a file that only uid 0 may open, and writes to slot 1, where the caller has the console
LI r2, 0
SYS 16
MOV r14, r0
LI r1, 5
SYS 9
LI r1, 0
SYS 1
MOV r8, r0
LI r1, 1
LI r2, 4096
LI r3, 1
SYS 5
MOV r15, r0
; it says by the page in common that it is done, closes the descriptor of its caller, and stores past its pages
LI r6, 4096
STB r5, r6, 0
LI r1, 0
SYS 2
STB r5, r6, 4096
; another thread of the caller waits for that, loads the caller's word, asks for its uid and writes the word to slot 1
looks: LI r6, 4096
wait: LDB r5, r6, 0
JZ r5, wait
LDW r7, r4, 64
SYS 8
LI r1, 1
LI r2, 64
LI r3, 1
SYS 5
HALT
