"""The pages and slots of a run that the program tells of plain runs alone: they follow from its steps."""

from __future__ import annotations

from collections.abc import Iterator

from lwcrun_tools.known_slots import NOT_KNOWN
from lwcrun_tools.machine import SLOTS
from lwcrun_tools.refusals import Refused
from lwcrun_tools.replayed_run import Run
from lwcrun_tools.run_story import Story
from lwcrun_tools.step_states import Turn, turns_of

MOST_STEPS = 20000
STEPS_AT_ONCE = 1000


class Followed:
    """A run whose steps are followed, as far as they are asked for."""

    def __init__(self, run: Run) -> None:
        self.run = run
        self.turns: list[Turn] = []

    def turns_to(self, place: int) -> list[Turn]:
        """The steps up to a place."""
        if place > MOST_STEPS:
            raise Refused(f"pages and slots of {self.run.name} are followed for at most {MOST_STEPS} steps", 1)
        if len(self.turns) < place:
            self.turns = turns_of(self.run, min(len(self.run.steps), max(place, STEPS_AT_ONCE)), False)
        return self.turns[:place]

    def story_at(self, place: int) -> Story:
        """What followed up to a place."""
        story = Story(self.run, self.run.report(0))
        for turn in self.turns_to(place):
            story.follow(turn)
        story.known.compare(self.run.report(place))
        return story

    def answers(self, words: list[str], last: int) -> Iterator[str]:
        """The answer to a question after 0, 1, 2 .. steps."""
        story = Story(self.run, self.run.report(0))
        yield answer_of(story, words)
        for turn in self.turns_to(last):
            story.follow(turn)
            yield answer_of(story, words)


def answer_of(story: Story, words: list[str]) -> str:
    """What `debug` would answer to `page J.K P` or `slot J.K N`, by what followed; or that it is not told."""
    kind, name, number = words[0], words[1], int(words[2])
    if name not in story.known.slots.tables:
        return "no context"
    if kind == "page":
        if number >= story.image.most_pages:
            return "no page"
        if story.known.memory.pages.lost:
            return "not told: what this page has does not follow from the steps"
        data = story.known.memory.pages.page(name, number)
        return f"page {name} {number} {'absent' if data is None else data.hex()}"
    if number >= SLOTS:
        return "no slot"
    value = story.known.slots.value(name, number)
    if value is NOT_KNOWN:
        return "not told: what this slot has does not follow from the steps"
    return f"slot {name} {number} {value.whole if value else 'empty'}"
