; a host runs 20 hostile plugins in one thread and goes on after each, under `guard`
; it prints why each came back: a fault's number, 0 for no fuel, 7 for HALT, 8 for exit, c for a call
.entry 0
; a plugin has no slot, not page 0, and page 1 read-only
.page 0 010000000200000000000000400000000000000002000000000000000100000000000000030000000100000002000000
.page 1 -
next: LI r1, 0
LI r2, 3
SYS 16
LI r8, -1
LIH r8, -1
EQ r9, r0, r8
JNZ r9, plugin
; it is trapped, and gets fuel for five steps
MOV r10, r0
MOV r1, r10
SYS 21
LI r2, 5
SYS 24
SYS 17
; the thread is back: the slot in r1 is closed, and r2 says why
SYS 2
LI r9, 0
LIH r9, 1
SUB r11, r2, r9
LI r8, 9
LTU r9, r11, r8
JNZ r9, told
LI r11, 51
told: ADDI r11, r11, 48
STB r11, r0, 64
LI r1, 1
LI r2, 64
LI r3, 1
SYS 5
; the plugin's context is dropped
MOV r1, r10
SYS 2
ADDI r12, r12, 1
LI r9, 20
EQ r9, r12, r9
JZ r9, next
HALT
; the plugins, four instructions each; r12 is the number of this one
plugin: JAL r8, go
; it halts
HALT
HALT
HALT
HALT
; it exits
LI r1, 7
SYS 10
HALT
HALT
; it loads for ever
loads: LDB r5, r7, 4096
JMP loads
HALT
HALT
; it loads from a page that is not there
LDB r5, r7, 20000
HALT
HALT
HALT
; it stores to one
STB r5, r7, 20000
HALT
HALT
HALT
; it loads a word at no multiple of 8
LDW r5, r7, 4097
HALT
HALT
HALT
; it stores one there
STW r5, r7, 4097
HALT
HALT
HALT
; it jumps to 2^64 - 1
JR r0
HALT
HALT
HALT
; it jumps behind the text
LI r5, 65536
JR r5
HALT
HALT
; it computes for ever
spins: JMP spins
HALT
HALT
HALT
; it stores to its read-only page
STB r5, r7, 4096
HALT
HALT
HALT
; it makes call 99 for ever, and each goes to the host
calls: SYS 99
JMP calls
HALT
HALT
; it closes a slot
LI r1, 0
SYS 2
HALT
HALT
; it traps the host
LI r1, 0
SYS 21
HALT
HALT
; it gives itself fuel
LI r2, 1000
SYS 24
HALT
HALT
; it makes a context
LI r2, 0
SYS 16
HALT
HALT
; it switches to the host
LI r1, 0
SYS 17
HALT
HALT
; it exits with -1
ADDI r1, r7, -1
SYS 10
HALT
HALT
; it loads at 2^64 - 1
LDB r5, r0, 0
HALT
HALT
HALT
; it maps pages
LI r2, 100
SYS 6
HALT
HALT
go: LI r9, 4
MUL r9, r12, r9
ADD r9, r9, r8
JR r9
