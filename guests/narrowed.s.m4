include(`lwc.m4')dnl
; A library with narrowed rights, by items of several modes: it may read the caller's table, page 0, and not store to
; it. Page 1 is common with the caller, for the answer. Page 2, a secret of the caller, is left out, and so are all
; slots and the uid. The library adds up the table and answers in page 1. Then it tries to write the console, which is
; refused with WrongKind (r11 is 1), since its slot 1 has a descriptor of the caller. At last it loads from page 2:
; fault 2.
.entry top
.page 0 word(3)word(4)word(5)
.page 1 -
.page 2 text(`secret')
.page 3 pages(read_only, 0, 1)pages(share, 1, 2)pages(leave_out, 2, 4)closed()
top: LI r1, page(3)
LI r2, 5
SYS call(create)
LI r4, 0
ADDI r5, r4, -1
EQ r5, r0, r5            ; in the new context r0 is 2^64 - 1
JNZ r5, library
MOV r1, r0
LI r2, 0
SYS call(switch)
LI r5, page(1)
LDW r6, r5, 0            ; the answer
MOV r2, r6
SYS call(switch)         ; r1 is the slot of a descriptor of the library
HALT
library: LI r4, 0
LDW r6, r4, 0
LDW r7, r4, size(word)
ADD r6, r6, r7
LDW r7, r4, eval(2 * size(word))
ADD r6, r6, r7
LI r5, page(1)
STW r6, r5, 0
MOV r8, r1
SYS call(switch)         ; r1 is the slot of a descriptor of the caller
LI r1, 1
LI r2, page(1)
LI r3, 8
SYS call(write)
ADDI r11, r4, refusal(WrongKind)
EQ r11, r0, r11
LI r5, page(2)
LDW r9, r5, 0
HALT
