; Makes contexts without end: the 33rd is refused, as are all after it.
.entry 0
loop: LI r2, 0
SYS 16
JMP loop
