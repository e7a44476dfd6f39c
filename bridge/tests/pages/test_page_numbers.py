"""Long lists on several pages."""
import pytest
from bridges import Bridge
from many_people import people
from messages import FIRST, request
from pages_seen import page_of
from twin import Twin


@pytest.mark.parametrize("path", ["users", "computers"])
def test_lists_by_credit(bridge: Bridge, path: str) -> None:
    people(bridge, 230)
    page = page_of(bridge.got(f"/p/{path}"))
    assert "that called: 230." in page.text and "Page 1 of 3." in page.text
    assert "User 229" in page.text and "User 130" in page.text and "User 129" not in page.text
    assert page.links[-1] == f"{path}?page=2"
    page = page_of(bridge.got(f"/p/{path}?page=2"))
    assert "User 129" in page.text and page.links[-2:] == [f"{path}?page=1", f"{path}?page=3"]
    for text in ("0", "-1", "x", "", "٣", "1e1", "4", "99999999", "%00"):
        answer = page_of(bridge.got(f"/p/{path}?page={text}"))
        assert f"Page {3 if text == '4' else 1} of 3." in answer.text
    assert "101User 129" in page_of(bridge.got("/p/users?page=2")).text


def test_many_results_are_on_several_pages(bridge: Bridge, twin: Twin) -> None:
    bridge.call(request())
    head = "result,app,sent,deadline,server_state,outcome,validate_state,credit\n"
    lines = "".join(f"u{number}_0,sum,a,b,5,1,1,1.000\n" for number in range(700))
    twin.statement = f"{head}{lines}total,,,,,,,700.000\n"
    page = page_of(bridge.got(f"/p/computer/{FIRST}"))
    assert "Page 1 of 10." in page.text and "u699_0" in page.text and "u649_0" not in page.text
    assert "u200_0" in page_of(bridge.got(f"/p/computer/{FIRST}?page=10")).text
