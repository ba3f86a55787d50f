"""Answers to the questions of tools/debug, at any place of a run: the program's, or what follows from the steps."""

from lwcrun_tools.followed_run import Followed, answer_of
from lwcrun_tools.machine import MOST_DEBUGGED_STEPS
from lwcrun_tools.replayed_run import PLAIN, Run
from lwcrun_tools.run_report import Thread


class Debugger:
    """Answers questions about places of a run."""

    def __init__(self, run: Run) -> None:
        self.run = run
        self.is_debug = run.kind == PLAIN and len(run.steps) <= MOST_DEBUGGED_STEPS
        self.followed = Followed(run)

    def answer(self, place: int, words: list[str]) -> list[str]:
        """What a question's words are answered with."""
        if words[0] in ("replies", "traps", "contexts"):
            return self.listed(place, words[0]) or [f"no {words[0]}"]
        if self.is_debug:
            return self.run.at(place, " ".join(words))
        if words[0] in ("page", "slot"):
            return [answer_of(self.followed.story_at(place), words)]
        return self.by_replay(place, words)

    def listed(self, place: int, what: str) -> list[str]:
        """The lines of one kind of the report at a place."""
        kind = {"replies": "reply ", "traps": "trap ", "contexts": "context "}[what]
        return [line for line in self.run.text_at(place).splitlines() if line.startswith(kind)]

    def by_replay(self, place: int, words: list[str]) -> list[str]:
        """The lines of a report that answer a question, as `debug` would."""
        lines = self.run.text_at(place).splitlines()
        head = " ".join(words) + " "
        if words[0] == "thread":
            return [line for line in lines if line.startswith((head, "regs " + head.partition(" ")[2]))] or [
                "no thread"
            ]
        return [line for line in lines if line.startswith(head)] or [f"no {words[0]}"]

    def next_line(self, thread: Thread) -> list[str]:
        """The next instruction of a thread that runs; with its label where the source is given, or its function and
        line."""
        source = self.run.source
        if not source or thread.status != "running":
            return []
        label = source.label(thread.pc)
        return [f"next {thread.pc}{f' <{label}>' if label else ''}: {self.run.image.line(thread.pc)}"]

    def closed(self, place: int, name: str) -> str:
        """Whether a context is closed at a place, in a sentence."""
        if self.is_debug:
            found = self.run.slots(place, name)
            if not any(value.startswith("context ") and value != f"context {name}" for value in found.values()):
                return "closed: no slot has a key of another context"
        story = self.followed.story_at(place)
        if self.is_debug and found != {slot: value.whole for slot, value in story.known.slots.known(name).items()}:
            return "not told: what followed of its slots is not what the program says"
        return story.known.slots.closed(name)
