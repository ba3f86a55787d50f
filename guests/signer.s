; a signer: a vault keeps a key of 16 bytes, and answers each message by its check value: run it by `vault`
; in the end r9 and r10 are the check values of the messages 7 and 8, and r11 is 1: that of 7 is confirmed
.entry asking
.page 0 00000000000000000000000001000000
; the vault is entered here, at instruction 0, with r0 = 0: r1 is the slot of a descriptor of the caller, r2 the message
sign: LDW r4, r0, 0
LDW r5, r0, 8
; the message is mixed with both words of the key: anybody who has the key can do the same
LI r6, 1540483477
LI r7, 29
XOR r2, r2, r4
MUL r2, r2, r6
SHR r8, r2, r7
XOR r2, r2, r8
XOR r2, r2, r5
MUL r2, r2, r6
SHR r8, r2, r7
XOR r2, r2, r8
; no register keeps a word of the key
LI r4, 0
LI r5, 0
MOV r3, r1
SYS 17
; entered again: the descriptor of the last caller, in the slot of r3, is closed, and the next one is answered
MOV r6, r1
MOV r1, r3
SYS 2
MOV r1, r6
JMP sign
; who asks has a descriptor of the vault without a key in slot 63; each answer comes with one more, which is closed
asking: LI r1, 63
LI r2, 7
SYS 17
MOV r9, r2
SYS 2
LI r1, 63
LI r2, 8
SYS 17
MOV r10, r2
SYS 2
LI r1, 63
LI r2, 7
SYS 17
EQ r11, r2, r9
SYS 2
; and it tries to get at the key: to take over page 0, by a copy and by a share, and to write it on the vault's behalf
LI r1, 63
LI r2, 0
LI r3, 1
SYS 19
MOV r12, r0
LI r8, 1
STB r8, r2, 4
SYS 19
MOV r13, r0
LI r2, 1
LI r3, 5
LI r4, 1
LI r5, 0
LI r6, 16
SYS 20
MOV r14, r0
HALT
