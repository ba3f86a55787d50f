"""Translates the instructions of a program of RISC-V into those of a guest."""

from __future__ import annotations

from lwcrun_tools.compiling import sequences
from lwcrun_tools.compiling.arithmetic import fold, with_immediate, with_registers
from lwcrun_tools.compiling.demand import not_asked_for
from lwcrun_tools.compiling.guest_text import GuestText, Label
from lwcrun_tools.compiling.memory_access import Place, load, store
from lwcrun_tools.compiling.program_code import ProgramCode
from lwcrun_tools.compiling.riscv import (
    ATOMIC,
    AUIPC,
    BRANCH,
    CUSTOM,
    FLOATING,
    JAL,
    JALR,
    LOAD,
    LUI,
    MISC_MEM,
    OP,
    OP_32,
    OP_IMM,
    OP_IMM_32,
    REGISTERS,
    SCRATCH,
    SECOND,
    STORE,
    SYSTEM,
    ZERO,
    Instruction,
    signed,
)

# Registers that a call of the guest changes, beside the one of its answer.
CHANGED_BY_CALLS = (10, 11, 12, 13, 14)


class Translator:
    """Translates the code of a program, one instruction after another."""

    def __init__(self, code: ProgramCode, text: GuestText, by_words: bool) -> None:
        self.code, self.text, self.by_words = code, text, by_words
        # How many instructions of RISC-V were translated, and of each place in the text how many begin there.
        self.count, self.weights = 0, dict[int, int]()
        # The registers of which the contents are known, up to the next label.
        self.known: dict[int, int] = {}
        # The register that the last instructions set to a constant, and where these begin and end.
        self.last_constant = (0, 0, -1)
        self.low_only: set[int] = set()

    def translate(self) -> None:
        for run in self.code.sections:
            self.low_only = not_asked_for(run, self.code.labels)
            i = 0
            while i < len(run):
                begin = len(self.text.made)
                taken = self._next(run[i], run[i + 1] if i + 1 < len(run) else None)
                self.weights[begin] = self.weights.get(begin, 0) + taken
                i += taken
                self.count += taken

    def _next(self, it: Instruction, following: Instruction | None) -> int:
        """Translates an instruction, or two that belong together. Answers how many it took."""
        self.text.address = it.address
        if it.address in self.code.labels:
            self.known, self.last_constant = {}, (0, 0, -1)
            if it.address in self.code.functions:
                self.text.align()
            self.text.place(self.code.labels[it.address])
        if following and following.address in self.code.labels:
            following = None
        target = it.target_of_pair(following)
        if target is not None and following:
            self._call(following.rd, self.code.label(target))
            return 2
        if it.cuts_with(following):
            source = self._register(it, it.rs1)
            self.known.pop(it.rd, None)
            sequences.cut_word(self.text, self._register(it, it.rd), source)
            return 2
        self._one(it)
        return 1

    def _one(self, it: Instruction) -> None:
        if it.opcode in (OP_IMM, OP_IMM_32, OP, OP_32):
            self._compute(it)
        elif it.opcode == LOAD:
            self._load(it)
        elif it.opcode == STORE:
            value, at = self._register(it, it.rs2), self._place(it, it.store_imm)
            store(self.text, 1 << it.f3, value, at, self.by_words)
        elif it.opcode == BRANCH:
            self._branch(it)
        elif it.opcode in (LUI, AUIPC):
            self._set_constant(it.rd, it.upper + (it.address if it.opcode == AUIPC else 0))
        elif it.opcode == JAL:
            self._call(it.rd, self.code.label(it.target or 0, it))
        elif it.opcode == JALR:
            self._jump_by_register(it)
        elif it.opcode == CUSTOM:
            self._guest_call(it)
        elif it.opcode == SYSTEM or it.word == 0:
            self._trap()
        elif it.opcode != MISC_MEM:
            # A fence takes no instruction: each load and store is one step, in the order of the program.
            self._refuse(it)

    def _trap(self) -> None:
        """EBREAK, ECALL and UNIMP: a jump to where no instruction is, fault 1. It is to 2^64 less the place of the jump,
        by which trace names its line (Image.trap_to)."""
        here = Label()
        self.text.place(here)
        self.text.load_low(SCRATCH, here)
        self.text.three("SUB", SCRATCH, ZERO, SCRATCH)
        self.text.emit("JR", f"r{SCRATCH}")

    def _refuse(self, it: Instruction) -> None:
        why = f"the instruction {it.word:08x}, which no guest has"
        if it.opcode == ATOMIC:
            why = (
                "an atomic read-modify-write, which no guest has: order threads by 8-byte flags that one thread stores"
            )
        elif it.opcode in FLOATING:
            why = "floating point, which no guest has: compute with integers"
        elif it.word & 3 != 3:
            why = "a compressed instruction: compile it with -march=rv64em"
        self.code.refuse(it.address, why)

    def _register(self, it: Instruction, register: int) -> int:
        """The guest's register for one of RISC-V."""
        if register not in REGISTERS:
            self.code.refuse_register(it, register)
        return REGISTERS[register]

    # Constants and pointers.

    def _set_constant(self, rd: int, value: int, source: int | None = None) -> None:
        """Sets a register to a constant. The instructions before it are taken back where they set the same register
        to what this one was made of."""
        if rd == 0:
            return
        register, begin, end = self.last_constant
        if register == rd == source and end == len(self.text.made):
            self.text.take_back(begin)
        begin = len(self.text.made)
        if rd not in REGISTERS:
            self.code.refuse(self.text.address, "a register above x15: compile it with -march=rv64em -mabi=lp64e")
        sequences.constant(self.text, REGISTERS[rd], value)
        self.known[rd] = signed(value, 64)
        self.last_constant = (rd, begin, len(self.text.made))

    def _set_pointer(self, it: Instruction, label: Label) -> None:
        """Sets a register to the number of an instruction."""
        register, begin, end = self.last_constant
        if register == it.rd == it.rs1 and end == len(self.text.made):
            self.text.take_back(begin)
        self.known.pop(it.rd, None)
        self.text.load_low(self._register(it, it.rd), label)

    # Instructions by their kinds.

    def _compute(self, it: Instruction) -> None:
        if it.rd == 0:
            return
        rd, ra = self._register(it, it.rd), self._register(it, it.rs1)
        pointed = self.code.pointed_at(it)
        if pointed is not None:
            self._set_pointer(it, self.code.label(pointed))
            return
        known = 0 if it.rs1 == 0 else self.known.get(it.rs1)
        if it.opcode in (OP_IMM, OP_IMM_32) and known is not None:
            value = fold(it, known)
            if value is not None:
                self._set_constant(it.rd, value, it.rs1)
                return
        self.known.pop(it.rd, None)
        is_low = it.address in self.low_only
        if it.opcode in (OP_IMM, OP_IMM_32):
            is_done = with_immediate(self.text, it, rd, ra, is_low)
        else:
            is_done = with_registers(self.text, it, rd, (ra, self._register(it, it.rs2)), is_low)
        if not is_done:
            self._refuse(it)

    def _place(self, it: Instruction, offset: int) -> Place:
        """Where a load or a store goes: to a constant, if its register is known; the stack is at multiples of 8."""
        if it.rs1 in self.known or it.rs1 == 0:
            address = signed(self.known.get(it.rs1, 0) + offset, 64)
            if signed(address, 32) == address:
                return Place(ZERO, address, address & 7)
        return Place(self._register(it, it.rs1), offset, offset & 7 if it.rs1 == 2 else None)

    def _load(self, it: Instruction) -> None:
        if self.code.pointed_at(it) is not None:
            self.code.refuse(it.address, "a load from code, which is not in the guest's memory")
        if it.f3 == 7:
            self._refuse(it)
        # A load that nobody asks for may still be a fault.
        rd = self._register(it, it.rd) if it.rd else SECOND
        at = self._place(it, it.imm)
        load(self.text, 1 << (it.f3 & 3), it.f3 < 4, rd, at, it.address not in self.low_only)
        self.known.pop(it.rd, None)

    def _branch(self, it: Instruction) -> None:
        a, b, label = self._register(it, it.rs1), self._register(it, it.rs2), self.code.label(it.target or 0, it)
        if it.f3 in (0, 1):
            self._branch_if_equal(a, b, it.f3 == 0, label)
            return
        if it.f3 < 6:
            sequences.less(self.text, SCRATCH, a, b)
        else:
            self.text.three("LTU", SCRATCH, a, b)
        self.text.jump_if(SCRATCH, it.f3 & 1 == 1, label)

    def _branch_if_equal(self, a: int, b: int, is_equal: bool, label: Label) -> None:
        if a == b:
            if is_equal:
                self.text.jump(label)
        elif ZERO in (a, b):
            self.text.jump_if(b if a == ZERO else a, is_equal, label)
        else:
            self.text.three("EQ", SCRATCH, a, b)
            self.text.jump_if(SCRATCH, not is_equal, label)

    def _call(self, link: int, label: Label) -> None:
        """A call, or a jump where no register gets the place behind it."""
        if link:
            self.text.emit("JAL", f"r{REGISTERS[link]}", label)
            self.known.clear()
        else:
            self.text.jump(label)

    def _jump_by_register(self, it: Instruction) -> None:
        if it.imm:
            self.code.refuse(it.address, "a jump to an offset of a pointer, and a pointer to code is a number here")
        target = self._register(it, it.rs1)
        if it.rd == 0:
            self.text.emit("JR", f"r{target}")
        else:
            back = Label()
            if it.rs1 == it.rd:
                self.text.move(SCRATCH, target)
                target = SCRATCH
            self.text.load_low(self._register(it, it.rd), back)
            self.text.emit("JR", f"r{target}")
            self.text.place(back)
        self.known.clear()

    def _guest_call(self, it: Instruction) -> None:
        """`.insn i 0x0b, 0, rd, x0, n` makes call n and has its answer in rd; `.insn i 0x0b, 1, x0, x0, 0` halts."""
        if it.f3 == 1:
            self.text.emit("HALT")
            return
        self.text.emit("SYS", it.imm)
        if it.rd:
            self.text.move(self._register(it, it.rd), SCRATCH)
        self.known = {at: value for at, value in self.known.items() if at not in (*CHANGED_BY_CALLS, it.rd)}
