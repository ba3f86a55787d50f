include(`lwc.m4')dnl
; The handler of a server that greets: the reply to a name of up to 100 bytes is `hello, NAME!' and a line feed. A
; longer request gets the code 1 and no bytes. Slot 0 is the request, slot 1 the reply.
.entry top
.page 0 text(`hello, ')
.page 1 text(`!')byte(10)
.page 2 zeros(101)
top: LI r1, 0
LI r2, page(2)
LI r3, 101
SYS call(read)
MOV r6, r0               ; the length of the name
LI r7, 101
LTU r7, r6, r7
JZ r7, failed
LI r1, 1
LI r2, page(0)
LI r3, 7
SYS call(write)
LI r2, page(2)
MOV r3, r6
SYS call(write)
LI r2, page(1)
LI r3, 2
SYS call(write)
HALT
failed: LI r1, 1
SYS call(exit)
