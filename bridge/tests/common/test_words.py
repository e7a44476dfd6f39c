"""Texts as BOINC's client compares them."""
from bridges import Bridge
from joining import create, look_up, rows


def test_letters_are_made_small_as_the_client_does_it(open_bridge: Bridge) -> None:
    key = create(open_bridge, "É@sums.example")  # the client sends this for É@Sums.example
    assert look_up(open_bridge, "É@sums.example") == key
    assert rows(open_bridge)[0][0] == "É@sums.example"
