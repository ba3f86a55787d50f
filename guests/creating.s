; makes a context, whose page 0 is a copy, and stores: only then the page takes a frame of its own
.entry 0
.page 0 -
SYS 16
LI r5, 1
STW r5, r4, 0
HALT
