"""The options with which a report was made. It does not hold them, so they are found by making its run again."""

from __future__ import annotations

from collections.abc import Iterator

from lwcrun_tools.machine import MOST_BUDGET, MOST_FRAMES
from lwcrun_tools.refusals import Refused
from lwcrun_tools.replayed_run import Run, in_order
from lwcrun_tools.run_report import Report


def found_options(run: Run, written: str, report: Report) -> list[str] | None:
    """The options with which a run makes the report that was written; those of the line stay. None where no others
    do."""
    given = dict(zip(run.options[::2], run.options[1::2]))
    for frames in frames_to_try(given, report):
        tried = {**given, "--frames": frames} if frames else given
        for budget in budgets_to_try(run, tried, report):
            options = words({**tried, "--budget": budget} if budget else tried)
            if text_with(run, options) == in_order(written):
                return options
    return None


def frames_to_try(given: dict[str, str], report: Report) -> list[str | None]:
    """The numbers of frames that may have been given: where they ran short the peak is at them, or one below where a
    read wanted two; else any number from the peak on will do. None stands for those of the line."""
    others = [str(report.peak), str(report.peak + 1), str(MOST_FRAMES)]
    return [None, *([] if "--frames" in given else others)]


def budgets_to_try(run: Run, tried: dict[str, str], report: Report) -> Iterator[str | None]:
    """The budgets that may have been given. With a smaller one threads end earlier, so that fewer of the report's
    steps are kept; with a larger one all are kept, and some thread has not ended. So halving finds it."""
    yield None
    if "--budget" in tried:
        return
    least, most = 1, MOST_BUDGET
    while least <= most:
        budget = (least + most) // 2
        yield str(budget)
        text = text_with(run, words({**tried, "--budget": str(budget)}))
        steps = next((int(line.split()[1]) for line in text if line.startswith("steps ")), 0)
        if steps < report.steps:
            least = budget + 1
        else:
            most = budget - 1


def words(options: dict[str, str]) -> list[str]:
    """The words of options and their values."""
    return [word for pair in options.items() for word in pair]


def text_with(run: Run, options: list[str]) -> list[str]:
    """The lines of the run's report with these options; none where the program does not make it with them."""
    try:
        return in_order(run.with_options(options).text_of(run.files["schedule"].path))
    except Refused:
        return []
