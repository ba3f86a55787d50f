"""What is known of the slots and pages of a run's contexts after some of its steps.

What the slots of contexts have follows from the calls, and is compared with the number of slots of each context in
each report, and with the contexts that live. What does not follow is not known.
"""

from lwcrun_tools.known_memory import Memory
from lwcrun_tools.known_slots import CONTEXT, NOT_KNOWN, NO_KEYS, Slots, Value
from lwcrun_tools.machine import BEHALF, CLOSE, DUP, MAP, OPEN, OVERLAY, READ, RESTRICT, UNMAP, VAULT_SLOT
from lwcrun_tools.replayed_run import SERVE, VAULT, VAULT_CONTEXT, Run
from lwcrun_tools.run_report import Context, Report
from lwcrun_tools.step_states import Turn


class Known:
    """The slots and pages that are known, and how often a report said otherwise of slots."""

    def __init__(self, run: Run, first: Report) -> None:
        self.run, self.memory, self.slots, self.doubts = run, Memory(run, first), Slots(run.image.most_pages), 0
        self.files = {slot: Value(f"file {file}") for slot, file in run.image.slots.items()}
        console = {} if run.kind == SERVE else {0: Value("console"), 1: Value("console")}
        for name in first.contexts:
            self.slots.add(name, {**console, **self.files})
        if run.kind == VAULT:
            self.slots.add(VAULT_CONTEXT, {})
            self.slots.put("0.0", VAULT_SLOT, Value(CONTEXT + VAULT_CONTEXT, NO_KEYS))
        self.compare(first)

    def begin(self, name: str, request: int) -> None:
        """A request begins in a new context of this name."""
        self.slots.add(name, {**self.files, 0: Value(f"request {request}"), 1: Value(f"reply {request}")})
        self.memory.pages.add(name, self.run.image.pages)

    def lose(self) -> None:
        """Nothing is known any more."""
        self.slots.forget(*list(self.slots.tables))
        self.memory.pages.lose()

    def note(self, name: str, turn: Turn, call: int, regs: list[int]) -> None:
        """Notes what the slots have after a call of this context, and which pages it may have changed."""
        if call == RESTRICT:
            self.slots.restrict(name, regs[1], turn.items)
        elif call == OVERLAY:
            value = self.slots.value(name, regs[1])
            self.memory.pages.overlay(name, value.context if value else "", turn.items)
            self.slots.overlay(name, regs[1], turn.items)
        elif call == BEHALF:
            value = self.slots.value(name, regs[1])
            target = value.context if value else ""
            table, memory = target if regs[2] & 2 else name, target if regs[2] & 1 else name
            if not table and regs[3] in (OPEN, CLOSE, DUP, READ):
                self.slots.forget(*list(self.slots.tables))
            if not memory and regs[3] in (READ, MAP, UNMAP):
                self.memory.pages.lose()
            self.plain(table, memory, regs[3], [0, *regs[4:7]], turn.now.regs[0])
        else:
            self.plain(name, name, call, regs, turn.now.regs[0])

    def plain(self, name: str, memory: str, call: int, regs: list[int], answered: int) -> None:
        """One of the calls 1 to 9 in the slots of one context and the memory of another one."""
        if call == OPEN:
            self.slots.put(name, answered, Value(f"file {regs[1]}"))
        elif call == CLOSE:
            self.slots.put(name, regs[1], None)
        elif call == DUP:
            self.slots.put(name, answered, self.slots.value(name, regs[1]))
        elif call == READ:
            self.memory.read_call(memory, self.slots, name, regs[1], regs[2], answered)
        elif call == MAP:
            self.memory.pages.map(memory, regs[1], regs[2])
        elif call == UNMAP:
            self.memory.pages.unmap(memory, regs[1], regs[2])

    def compare(self, report: Report) -> None:
        """Compares what is told of slots with the report, by their numbers and by what is reached; forgets what
        differs."""
        self.memory.compare(report)
        for name in [name for name in self.slots.tables if name not in report.contexts]:
            del self.slots.tables[name]
        for name, context in report.contexts.items():
            self.count(name, context)
        whole = all(map(self.slots.is_whole, report.contexts))
        reached = self.reached(report)
        if reached - report.contexts.keys() or (whole and reached != report.contexts.keys()):
            self.doubt(*report.contexts)

    def count(self, name: str, context: Context) -> None:
        """Compares what is told of a context's slots with their number. Where all that are in use are told, the others
        are empty."""
        if name not in self.slots.tables:
            self.slots.add(name, dict.fromkeys(range(64), NOT_KNOWN))
        told = len(self.slots.known(name))
        if told > context.slots or (self.slots.is_whole(name) and told != context.slots):
            self.doubt(name)
        elif told == context.slots:
            for cell in self.slots.tables[name]:
                cell.value = None if cell.value is NOT_KNOWN else cell.value

    def doubt(self, *names: str) -> None:
        """Forgets what followed, as the report says otherwise."""
        self.doubts += 1
        self.slots.forget(*names)

    def reached(self, report: Report) -> set[str]:
        """The contexts to which slots lead from those that threads are in, and from homes: a context lives exactly if
        it is one."""
        new = {thread.ctx for thread in report.threads}
        if self.run.kind == SERVE:
            new |= {name for name in report.contexts if name.startswith("0.")}
        reached: set[str] = set()
        while new:
            reached |= new
            new = {
                value.context for name in new for value in self.slots.known(name).values() if value.context
            } - reached
        return reached
