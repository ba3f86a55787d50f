"""Instructions of RISC-V: their fields, and which register of the guest each of their registers is."""

from __future__ import annotations

from dataclasses import dataclass

# The guest's registers: a0 to a5 are r1 to r6, where calls take their arguments. Code for no system uses neither gp
# nor tp, and x0 needs no register of its own as long as nothing else is kept in r15. So three are free for sequences.
REGISTERS = {0: 15, 1: 7, 2: 8, 5: 9, 6: 10, 7: 11, 8: 12, 9: 13, **{10 + i: 1 + i for i in range(6)}}
# Two scratch registers, and one that is 0 between instructions of RISC-V.
SCRATCH, SECOND, ZERO = 0, 14, 15
STACK, ARGUMENT = REGISTERS[2], REGISTERS[10]
NAMES = "zero ra sp gp tp t0 t1 t2 s0 s1 a0 a1 a2 a3 a4 a5 a6 a7 s2 s3 s4 s5 s6 s7 s8 s9 s10 s11 t3 t4 t5 t6".split()
WORD = (1 << 64) - 1

# The opcodes, by the names of the manual.
LOAD, MISC_MEM, OP_IMM, AUIPC, OP_IMM_32, STORE = 0x03, 0x0F, 0x13, 0x17, 0x1B, 0x23
OP, LUI, OP_32, BRANCH, JALR, JAL, SYSTEM, CUSTOM = 0x33, 0x37, 0x3B, 0x63, 0x67, 0x6F, 0x73, 0x0B
ATOMIC, FLOATING = 0x2F, (0x07, 0x27, 0x43, 0x47, 0x4B, 0x4F, 0x53)
# Kinds of relocations.
PLAIN_32, PLAIN_64, HIGH, LOW, LOW_STORE, PCREL_HIGH, PCREL_LOW, PCREL_LOW_STORE = 1, 2, 26, 27, 28, 23, 24, 25
BRANCHES = (16, 17, 18, 19)
THREAD_LOCALS = (21, 22, 29, 30, 31, 32)
# Those that leave nothing to do: a hint for the linker, padding, and differences between labels.
HINTS = (43, 51, *range(33, 41), *range(52, 58), 61)


def signed(value: int, bits: int) -> int:
    """The low bits of a number, read with their sign."""
    value &= (1 << bits) - 1
    return value - (1 << bits) if value >> (bits - 1) else value


@dataclass(frozen=True)
class Instruction:
    """An instruction: its address and its 32 bits."""

    address: int
    word: int

    @property
    def opcode(self) -> int:
        return self.word & 127

    @property
    def rd(self) -> int:
        return self.word >> 7 & 31

    @property
    def f3(self) -> int:
        return self.word >> 12 & 7

    @property
    def rs1(self) -> int:
        return self.word >> 15 & 31

    @property
    def rs2(self) -> int:
        return self.word >> 20 & 31

    @property
    def f7(self) -> int:
        return self.word >> 25

    @property
    def imm(self) -> int:
        """The immediate of a load, a jump by a register, and arithmetic."""
        return signed(self.word >> 20, 12)

    @property
    def store_imm(self) -> int:
        return signed(self.f7 << 5 | self.rd, 12)

    @property
    def upper(self) -> int:
        """What LUI loads and AUIPC adds."""
        return signed(self.word & 0xFFFFF000, 32)

    @property
    def shift(self) -> int:
        return self.word >> 20 & 63

    @property
    def is_arithmetic_shift(self) -> bool:
        return bool(self.word >> 30 & 1)

    @property
    def target(self) -> int | None:
        """Where a branch or a JAL goes."""
        word = self.word
        if self.opcode == BRANCH:
            offset = word >> 31 << 12 | (word >> 7 & 1) << 11 | (word >> 25 & 63) << 5 | (word >> 8 & 15) << 1
            return self.address + signed(offset, 13)
        if self.opcode == JAL:
            offset = word >> 31 << 20 | (word >> 12 & 255) << 12 | (word >> 20 & 1) << 11 | (word >> 21 & 1023) << 1
            return self.address + signed(offset, 21)
        return None

    def target_of_pair(self, following: Instruction | None) -> int | None:
        """Where a call goes that is an AUIPC and a JALR."""
        if self.opcode != AUIPC or following is None or following.opcode != JALR or following.rs1 != self.rd:
            return None
        return self.address + self.upper + following.imm

    def cuts_with(self, following: Instruction | None) -> bool:
        """Whether two shifts by 32 cut a register to its low half: SLLI rd, rs1, 32 and SRLI rd, rd, 32."""
        return (
            following is not None
            and self.word & 0xFFF0707F == 0x02001013
            and following.word & 0xFFF0707F == 0x02005013
            and self.rd == following.rs1 == following.rd != 0
        )
