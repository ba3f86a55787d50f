"""What each step of a run did, by the program's answers: reports before and after it, where it came to, and the
registers there.

Nothing here runs an instruction. What does not follow is left out, and said to be.
"""

from dataclasses import dataclass, field

from lwcrun_tools.known_run import Known
from lwcrun_tools.known_slots import CONTEXT, NO_KEYS, Value
from lwcrun_tools.machine import CALLS, CAUSES, CREATE, EXIT, GIVEN_BACK, PAGE_BYTES, SWITCH, TRAP
from lwcrun_tools.machine_words import ITEMS, WORD, answer, arguments, name_of, number, refusal_of, status
from lwcrun_tools.replayed_run import GUARD, Run
from lwcrun_tools.run_report import Report
from lwcrun_tools.step_states import Turn

WORDS = {"LDB": "byte", "STB": "byte", "LDW": "word", "STW": "word"}


@dataclass
class Step:
    """What a step did: in a sentence and in the words of a trace, what else came of it, the place of its instruction,
    its kind, and whether it was a refused call, or ended its thread by a fault."""

    said: str
    line: str = ""
    more: list[str] = field(default_factory=list)
    place: int | None = None
    kind: str = ""
    is_refused: bool = False
    is_fault: bool = False

    def __post_init__(self) -> None:
        self.line = self.line or self.said


def short(text: str) -> str:
    """A text, or the beginning of a long one."""
    return text if len(text) <= 80 else f"{text[:80]}.. ({len(text)} digits)"


class Story:
    """Follows a run from step to step."""

    def __init__(self, run: Run, first: Report) -> None:
        self.image, self.made, self.known = run.image, dict[int, int](), Known(run, first)
        # The threads that guarded contexts hold, which no report says.
        self.held: set[tuple[str, int]] = set()

    def follow(self, turn: Turn) -> Step:
        """What a step did; notes what the slots have then."""
        step = self.begin(turn) if turn.was.status == "idle" else self.instruction(turn)
        if turn.was.status != "idle" and (reply := self.reply(turn)):
            self.end(step, turn, reply)
        elif turn.now.status.startswith("fault"):
            step.is_fault = True
            step.more.append(f"it ends with {self.fault(turn.now.status)}")
            step.line += f": {status(turn.now.status)}"
        elif turn.now.status.startswith("done"):
            step.more.append(f"it ends: {turn.now.status}")
        if turn.before and turn.after:
            step.more += self.changes(step, turn.before, turn.after)
            self.known.compare(turn.after)
        return step

    @staticmethod
    def fault(words: str) -> str:
        """A fault as a sentence has it: fault 3, BadStore."""
        kind, code, name = status(words).split(" ")
        return f"{kind} {code}, {name}"

    # What ended the step.

    def begin(self, turn: Turn) -> Step:
        """The step of an idle worker: it begins a request, or ends as none is left."""
        if turn.now.status != "running":
            return Step("finds no request left, and ends", kind="end")
        name = turn.now.ctx
        request = int(name.split(".")[0]) - 1
        self.known.begin(name, request)
        return Step(
            f"begins request {request} in the new context {name}", f"begins request {request} in {name}", kind="begin"
        )

    @staticmethod
    def reply(turn: Turn) -> tuple[int, str] | None:
        """The request that the step ended, with its reply."""
        if not turn.before or not turn.after:
            return None
        pairs = enumerate(zip(turn.before.replies, turn.after.replies))
        return next(((request, new) for request, (old, new) in pairs if old != new), None)

    def end(self, step: Step, turn: Turn, reply: tuple[int, str]) -> None:
        """The step ended its request."""
        request, text = reply
        if text.startswith("fault"):
            step.is_fault = True
            step.more.insert(0, f"fault {text.split()[1]} is {self.fault(' '.join(text.split()[:2])).split(', ')[1]}")
            step.said += f", and ends request {request}: {short(text)}"
        else:
            step.said = f"ends request {request}: {short(text)}"
        words = text.split(" ")
        step.line += f", ends request {request}: {status(' '.join(words[:2]))} {short(words[2])}"

    def instruction(self, turn: Turn) -> Step:
        """The step of a running thread: a pause, or the shared instruction that ended it."""
        if (cause := self.cause_given_back(turn)) is not None:
            return self.given_back(turn, cause)
        stop = turn.stop
        if stop is None:
            self.known.lose()
            return Step("does what the program cannot be asked: the image is too long", kind="unknown")
        if stop.is_pause:
            return Step("runs 256 private instructions and pauses", kind="pause")
        name, operands = self.image.at(stop.place)
        if not name:
            trap = self.image.trap_to(stop.place)
            return (
                Step(f"finds no instruction {number(stop.place)}", kind="fault")
                if trap is None
                else Step("traps, as a failed assert does", "trap", place=trap, kind="fault")
            )
        if name == "SYS":
            step = self.call(turn, int(operands[0]), stop.regs)
        elif name == "HALT":
            step = Step("halts", "halt", kind="halt")
        else:
            step = self.access(turn, name, operands, stop.regs)
        step.place = stop.place
        return step

    def cause_given_back(self, turn: Turn) -> int | None:
        """Why the step was given back to the monitor of its context, if it was."""
        if self.known.run.kind != GUARD or not turn.before or turn.was.ctx not in turn.before.fuel:
            return None
        cause = turn.now.regs[2] - GIVEN_BACK
        return cause if turn.now.ctx == turn.before.traps[turn.was.ctx] and cause in CAUSES else None

    def given_back(self, turn: Turn, cause: int) -> Step:
        """The step was given back."""
        name, monitor, slot = turn.was.ctx, turn.now.ctx, turn.now.regs[1]
        self.held.add((name, turn.thread))
        self.known.slots.put(monitor, slot, Value(CONTEXT + name, NO_KEYS))
        return Step(
            f"is given back to its monitor {monitor} with cause {cause}, {CAUSES[cause]}: slot {slot} there gets a"
            f" descriptor of {name}",
            f"given back {cause} {CAUSES[cause]} -> its monitor {monitor}, slot {slot} there",
            kind="call",
            place=turn.now.regs[3],
        )

    def access(self, turn: Turn, name: str, operands: list[str], regs: list[int]) -> Step:
        """A load or a store."""
        register, base, offset = int(operands[0][1:]), int(operands[1][1:]), int(operands[2])
        address = (regs[base] + (offset - 2**32 if offset >= 2**31 else offset)) % WORD
        where, what = (
            f"{number(address)} (page {address // PAGE_BYTES})"
            if address < PAGE_BYTES * self.image.most_pages
            else number(address),
            WORDS[name],
        )
        fails = self.failed(turn)
        if name in ("LDB", "LDW"):
            if fails:
                return Step(f"loads the {what} at {where} and fails", f"load {what} at {where}", kind="load")
            value = number(turn.now.regs[register]) if turn.now.status != "idle" else "?"
            return Step(
                f"loads the {what} at {where} into {operands[0]}: {value}",
                f"load {what} at {where} = {value}",
                kind="load",
            )
        value = str(regs[register] % 256) if name == "STB" else number(regs[register])
        if not fails:
            stored = regs[register].to_bytes(8, "little")
            self.known.memory.pages.store(turn.was.ctx, address, stored[:1] if name == "STB" else stored)
        return Step(
            f"stores the {what} {value} at {where}" + (" and fails" if fails else ""),
            f"store {what} {value} at {where}",
            kind="store",
        )

    def failed(self, turn: Turn) -> bool:
        """Whether the step's instruction failed: by any fault but the one at the end of the budget, after which it was
        done."""
        reply = self.reply(turn)
        words = reply[1] if reply else turn.now.status
        return words.startswith("fault") and words.split()[1] != "5"

    # Calls.

    def call(self, turn: Turn, call: int, regs: list[int]) -> Step:
        """A call that was accepted or refused, or that a monitor got."""
        was, now = turn.was, turn.now
        monitor = turn.before.traps.get(was.ctx) if turn.before and call != EXIT else None
        if call in ITEMS and turn.items is None:
            turn.items = self.known.memory.items(turn, call, regs)
        words = arguments(call, regs, turn.items)
        said = f"makes call {call}, {CALLS.get(call, 'which is none')}"
        step = Step(said, f"{name_of(call)}({words})", kind="call")
        if call == EXIT:
            step.said += f" ({words})"
        elif now.status == "idle":
            # A reply for want of budget: what the call answered is not told.
            self.known.slots.forget(was.ctx)
        elif (refusal := refusal_of(now.regs[0])) and now.ctx == was.ctx and not (call == SWITCH and refusal == 0):
            step.is_refused = True
            step.said += (
                f"{f' ({words})' if words else ''}, and is refused: {refusal}, {answer(now.regs[0]).split(' ')[1]}"
            )
            step.line += f" = {answer(now.regs[0])}"
        elif monitor:
            step.said += f"{f' ({words})' if words else ''}, which goes to its monitor {now.ctx}: "
            step.said += f"slot {now.regs[1]} there gets a descriptor of {was.ctx}"
            step.line += f" -> its monitor {now.ctx}, slot {now.regs[1]} there"
            self.known.slots.put(now.ctx, now.regs[1], Value(CONTEXT + was.ctx, NO_KEYS))
        else:
            self.accepted(step, turn, call, regs, words)
        return step

    def accepted(self, step: Step, turn: Turn, call: int, regs: list[int], words: str) -> None:
        """Says what an accepted call did, and notes what it changed."""
        name, answered = turn.was.ctx, turn.now.regs[0]
        if call == SWITCH and self.is_taken_up(turn):
            step.said += f", and is taken up again in {turn.now.ctx}, as it was"
            step.line += f" -> taken up in {turn.now.ctx}"
        elif call == SWITCH:
            there = f"slot {turn.now.regs[1]} there"
            step.said += f", from {name} to {turn.now.ctx} with the argument {number(regs[2])}: "
            step.said += f"{there} gets a descriptor of {name}"
            step.line += f" -> {turn.now.ctx}, {there}"
            self.known.slots.put(turn.now.ctx, turn.now.regs[1], Value(CONTEXT + name, NO_KEYS))
        elif call == CREATE:
            new = self.new_context(turn)
            step.said += f" ({words}): slot {answered} gets a descriptor of {new}"
            step.line += f" = {answered}, {new} is made"
            self.known.slots.create(name, new, answered, turn.items)
            self.known.memory.pages.create(name, new, turn.items)
        elif call == TRAP:
            trapped = self.trapped(turn)
            step.said += f" ({words}): {name} is the monitor of {trapped} from now on"
            step.line += f" = 0, {trapped} is trapped by {name}"
        else:
            step.said += f"{f' ({words})' if words else ''}, which answers {number(answered)}"
            step.line += f" = {number(answered)}"
            self.known.note(name, turn, call, regs)

    def is_taken_up(self, turn: Turn) -> bool:
        """Whether a switch took its thread up again; from then on it is not held."""
        held = (turn.now.ctx, turn.thread)
        if held not in self.held or not turn.before or turn.before.traps.get(turn.now.ctx) != turn.was.ctx:
            return False
        self.held.discard(held)
        return True

    def new_context(self, turn: Turn) -> str:
        """The name of the context that the step made."""
        if turn.before and turn.after:
            return next(name for name in turn.after.contexts if name not in turn.before.contexts)
        made = self.made[turn.thread] = self.made.get(turn.thread, -1) + 1
        return f"{1 + turn.thread}.{made}"

    @staticmethod
    def trapped(turn: Turn) -> str:
        """The context that the step trapped."""
        old, new = (turn.before.traps, turn.after.traps) if turn.before and turn.after else ({}, {})
        return next((name for name in new if name not in old), "?")

    # What is different in the report after it.

    @staticmethod
    def changes(step: Step, before: Report, after: Report) -> list[str]:
        """What else is different after the step."""
        new = [name for name in after.contexts if name not in before.contexts]
        found = [f"{name} is there now" for name in new if name not in step.said]
        found += [f"{name} is dropped" for name in before.contexts if name not in after.contexts]
        for name, context in after.contexts.items():
            for kind in ("pages", "slots", "uid"):
                old, now = getattr(before.contexts.get(name, context), kind), getattr(context, kind)
                if old != now:
                    found.append(f"{kind} of {name}: {old}, then {now}")
        found += [
            f"{name} is trapped no more" for name in before.traps if name not in after.traps and name in after.contexts
        ]
        if before.groups != after.groups:
            found.append(f"groups: {before.groups}, then {after.groups}")
        if before.used != after.used:
            found.append(f"frames in use: {before.used}, then {after.used}")
        if before.console != after.console:
            found.append(f"the console gets {short(after.console[len(before.console):])}")
        return found
