"""Tests of a guest: how counter_handler answers requests. Run by `python3 -m pytest embed/python`."""

import os
import random

import lwcrun
import pytest

GUESTS = os.path.join(lwcrun.TOP, "guests")


def wanted(request):
    """What the handler answers: a first byte other than 0 breaks it, and else it counts to 1 in a fresh home."""
    return "fault 2 -" if request[:1] not in (b"", b"\0") else "done 0 01"


@pytest.fixture(name="handler", scope="module")
def assembled_handler():
    """The image of the handler's source."""
    with open(os.path.join(GUESTS, "counter_handler.s"), encoding="ascii") as file:
        return lwcrun.assemble(file.read())


def random_requests(count):
    """Requests of a few bytes, a third of which begin with a byte that is not 0."""
    chosen = random.Random(count)
    for _ in range(count):
        first = chosen.choice([0, 0, chosen.randrange(1, 256)])
        yield bytes([first, *chosen.randbytes(chosen.randrange(8))])[: chosen.randrange(9)]


@pytest.mark.parametrize("workers", [1, 2, 16])
def test_each_of_200_requests_gets_the_reply_of_a_fresh_home(handler, workers):
    requests = list(random_requests(200))
    report = lwcrun.serve(handler, requests, workers=workers)
    assert report.replies == [wanted(request) for request in requests]
    assert report.groups == 0
    assert report.used == 1


def test_a_step_at_a_time_shows_the_count_in_the_copy_alone(handler):
    with lwcrun.Run(handler, [b"\0"], frames=4, workers=1) as run:
        home = run.thread().context
        copies = []
        while run.totals().work > 0:
            thread = run.step()
            if thread.context != home:
                copies.append(run.page(thread.context, 0)[0])
                assert run.slot(thread.context, 0).startswith("request 0 at ")
            assert run.page(home, 0) == bytes(lwcrun.PAGE_BYTES)
        assert copies[0] == 0 and copies[-1] == 1


def test_errors_have_a_status(handler):
    two_pages = lwcrun.assemble(".entry 0\n.page 0 -\n.page 1 -\nHALT\n")
    with pytest.raises(lwcrun.LwcrunError, match="image has 2 pages, frames are 1") as raised:
        lwcrun.replay(two_pages, "0", frames=1)
    assert raised.value.status == lwcrun.Status.IMAGE_TOO_LARGE
    run = lwcrun.Run(handler, frames=4)
    run.close()
    with pytest.raises(lwcrun.LwcrunError) as raised:
        run.step()
    assert raised.value.status == lwcrun.Status.UNKNOWN_RUN
