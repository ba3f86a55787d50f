"""The same guest, over requests that hypothesis chooses."""

import os

import lwcrun
import pytest

hypothesis = pytest.importorskip("hypothesis")
st = pytest.importorskip("hypothesis.strategies")

with open(os.path.join(lwcrun.TOP, "guests", "counter_handler.lwc"), "rb") as _file:
    HANDLER = _file.read()


@hypothesis.settings(max_examples=50, deadline=None, database=None)
@hypothesis.given(requests=st.lists(st.binary(max_size=16), min_size=1, max_size=8), workers=st.integers(1, 16))
def test_a_reply_depends_on_its_request_alone(requests, workers):
    """Beside others, and by any number of workers, a request gets the reply that it gets by itself."""
    together = lwcrun.serve(HANDLER, requests, workers=workers).replies
    alone = [lwcrun.serve(HANDLER, [request], workers=1).replies[0] for request in requests]
    assert together == alone


@hypothesis.settings(max_examples=50, deadline=None, database=None)
@hypothesis.given(
    words=st.lists(st.sampled_from(["replay", "dis", "image", "steps", "--frames", "4", "-", "--", ""]), max_size=6),
    image=st.binary(max_size=80),
)
def test_every_line_has_a_status(words, image):
    """Whatever the words and the bytes, the library answers, with a message wherever the line did not end well."""
    answer = lwcrun.carry_out(words, {"image": image, "steps": b"0"})
    assert answer.status in range(8)
    assert (answer.message == "") == (answer.status == lwcrun.Status.OK)
