; jumps to itself: the budget ends it
.entry 0
JMP 0
