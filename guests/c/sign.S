# The code of a vault with a key of 16 bytes in page 0. It is entered with all registers 0 but a0, the slot of a descriptor
# of the caller, and a1, the message; it needs no stack, and leaves no word of the key in a register.
        .section .text.kept, "ax"
        .globl sign
        .type sign, @function
sign:   ld a3, 0(zero)
        ld a4, 8(zero)
        li a5, 1540483477
        xor a1, a1, a3
        mul a1, a1, a5
        srli t0, a1, 29
        xor a1, a1, t0
        xor a1, a1, a4
        mul a1, a1, a5
        srli t0, a1, 29
        xor a1, a1, t0
        li a3, 0
        li a4, 0
        mv a2, a0
        .insn i 0x0b, 0, zero, zero, 17         # switch back, with the check value
        mv a5, a0                               # entered again: the last caller's descriptor is closed
        mv a0, a2
        .insn i 0x0b, 0, zero, zero, 2
        mv a0, a5
        j sign
