"""What the slots of contexts have, followed from call to call, by the definitions of docs/FORMATS.md."""

from __future__ import annotations

from lwcrun_tools.known_slots import NO_KEYS, Keys, Slots, Value, all_keys
from lwcrun_tools.machine_words import Item

SHARE_0 = Item(1, 1, 0, 1)
LEAVE_ALL = Item(1, 2, 0, 64)


def start() -> Slots:
    """The slots at the start of a run."""
    slots = Slots(1024)
    slots.add("0.0", {0: Value("console"), 1: Value("console")})
    return slots


def texts(slots: Slots, name: str) -> dict[int, str]:
    return {slot: value.text for slot, value in slots.known(name).items()}


def test_a_creation_without_items_copies_all_slots() -> None:
    slots = start()
    slots.create("0.0", "1.0", 2, [])
    assert texts(slots, "1.0") == {0: "console", 1: "console"}
    assert texts(slots, "0.0") == {0: "console", 1: "console", 2: "context 1.0"}
    slots.put("0.0", 0, None)
    assert 0 in slots.known("1.0")


def test_a_shared_slot_is_one() -> None:
    slots = start()
    slots.create("0.0", "1.0", 2, [SHARE_0])
    slots.put("1.0", 0, None)
    assert texts(slots, "0.0") == {1: "console", 2: "context 1.0"}


def test_slots_that_are_left_out_are_empty() -> None:
    slots = start()
    slots.create("0.0", "1.0", 2, [LEAVE_ALL])
    assert slots.known("1.0") == {} and slots.is_whole("1.0")


def test_a_creation_gives_every_key_and_a_switch_none() -> None:
    slots = start()
    slots.create("0.0", "1.0", 2, [LEAVE_ALL])
    slots.put("1.0", 0, Value("context 0.0", NO_KEYS))
    assert slots.closed("0.0") == "not closed: slot 2 opens 1.0 with every key"
    assert slots.closed("1.0") == "closed: no slot has a key of another context"


def test_a_descriptor_of_oneself_opens_no_other_context() -> None:
    slots = start()
    slots.add("1.0", {3: Value("context 1.0", all_keys(1024))})
    assert slots.closed("1.0").startswith("closed")


def test_a_restriction_takes_keys() -> None:
    slots = start()
    slots.create("0.0", "1.0", 2, [])
    slots.restrict("0.0", 2, [Item(0, 0, 3, 5), Item(2, 0, 0, 1)])
    assert slots.closed("0.0") == "not closed: slot 2 opens 1.0 with pages 3 to 5, uid"
    slots.restrict("0.0", 2, [Item(0, 0, 5, 6)])
    assert slots.closed("0.0").startswith("closed")


def test_a_restriction_by_items_that_are_not_known() -> None:
    slots = start()
    slots.create("0.0", "1.0", 2, [])
    slots.restrict("0.0", 2, None)
    assert slots.closed("0.0") == "not told: slot 2 has a descriptor of 1.0 whose keys do not follow"


def test_an_overlay_takes_slots_over() -> None:
    slots = start()
    slots.create("0.0", "1.0", 2, [])
    slots.put("1.0", 5, Value("file 0"))
    slots.overlay("0.0", 2, [Item(1, 0, 5, 6)])
    slots.put("1.0", 5, None)
    assert texts(slots, "0.0")[5] == "file 0"
    slots.overlay("0.0", 2, [Item(1, 1, 5, 6)])
    assert 5 not in slots.known("0.0")
    slots.put("1.0", 5, Value("file 1"))
    assert texts(slots, "0.0")[5] == "file 1"


def test_an_overlay_of_pages_leaves_slots() -> None:
    slots = start()
    slots.create("0.0", "1.0", 2, [])
    slots.overlay("0.0", 2, [Item(0, 1, 0, 3)])
    assert slots.is_whole("0.0")


def test_items_that_are_not_known_leave_slots_untold() -> None:
    slots = start()
    slots.create("0.0", "1.0", 2, None)
    assert not slots.is_whole("1.0") and slots.is_whole("0.0")
    # The two may have slot 0 in common.
    slots.put("1.0", 0, None)
    assert not slots.is_whole("0.0")
    assert slots.closed("1.0") == "not told: what some slots have does not follow"


def test_keys_in_words() -> None:
    assert (all_keys(1024).words(1024), NO_KEYS.words(1024)) == ("every key", "no key")
    assert Keys(0b1011, 1 << 63, False).words(1024) == "pages 0 to 2, page 3, slot 63"
