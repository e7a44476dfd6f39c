"""What computers say of themselves."""
from pathlib import Path
from typing import Any, cast

import pytest
from bridges import Bridge
from hypothesis import given
from hypothesis import strategies as st
from messages import FIRST, request
from pages_seen import page_of

from bsched_bridge.requests.descriptions import Description, one_line, read_description, system_of

FIRST_XML = Path(__file__).resolve().parents[1] / "requests" / "recorded" / "first.xml"


def test_what_a_computer_says_of_itself(bridge: Bridge) -> None:
    extra = "<p_vendor>GenuineIntel</p_vendor><p_model>Intel <b> Core\t9</p_model>"
    extra += "<os_version>12 \u202e</os_version>"
    text = FIRST_XML.read_text().replace("<p_ncpus>", extra.replace("<b>", "&lt;b&gt;") + "<p_ncpus>")
    bridge.call(text)
    page = page_of(bridge.got(f"/p/computer/{FIRST}"))
    shown = page.text.replace("\n", "")
    for fact in (
        "processorGenuineIntel Intel <b> Core 9",
        "processors2",
        "speed of a processor1.00 billion operations a second",
        "memory25.3 GB",
        "free on its disk66.7 GB",
        "systemLinux Debian 12",
        "BOINC7.20.5",
    ):
        assert fact in shown, fact
    for secret in ("laptop", "127.0.0.1", "0fb84cfb", "\u202e"):
        assert secret not in page.text.replace("http://127.0.0.1", "")
    assert "GenuineIntel" in page_of(bridge.got("/p/computers")).text
    assert "GenuineIntel" in page_of(bridge.got("/p/user/1")).text


@given(st.text(st.sampled_from("ab \n\x00\u200b\xa0"), max_size=100))
def test_a_text_on_one_line(text: str) -> None:
    seen = "".join(one if one.isprintable() else " " for one in text)
    assert one_line(text) == " ".join(seen.split())[:80].rstrip()


def test_a_description_is_short() -> None:
    assert one_line("a\x00 b\n\u200bc" + "x" * 10_000) == ("a b c" + "x" * 80)[:80]
    empty = Description()
    assert empty.written() == "{}" and read_description("{}") == read_description(None) == empty
    full = Description("p", 2, "s", "7", 1, 2, 3, ["1 × NVIDIA"])
    assert read_description(full.written()) == full


@pytest.mark.parametrize(
    "name, version, system",
    [
        ("Linux", "6.1", "Linux 6.1"),
        ("", "", ""),
        (
            "Linux Debian GNU/Linux",
            "Debian GNU/Linux 12 (bookworm) [6.1.0-9-amd64|libc 2.36]",
            "Linux Debian GNU/Linux 12 (bookworm) [6.1.0-9-amd64|libc 2.36]",
        ),
        (
            "Linux Debian",
            "Debian GNU/Linux 12 (bookworm) [6.18.44-fc-v973|libc 2.36 (Debian GLIBC 2.36-9+deb12u10)]",
            "Linux Debian GNU/Linux 12 (bookworm) [6.18.44-fc-v973]",
        ),
        ("Linux Fedora", f"Fedora Linux 44 [{'6' * 80}|libc 2.40]", "Linux Fedora Linux 44"),
        (
            "Microsoft Windows 11",
            "Core x64 Edition, (10.00.22631.00)",
            "Microsoft Windows 11 Core x64 Edition, (10.00.22631.00)",
        ),
        ("a a", "a a b", "a a b"),
        ("x" * 10_000, "x" * 10_000, "x" * 80),
    ],
)
def test_a_system_is_named_once(name: str, version: str, system: str) -> None:
    assert system_of(name, version) == system


def test_a_description_that_is_hostile_is_bounded(bridge: Bridge) -> None:
    long = "\U0001f600" * 5000
    names = ("p_vendor", "p_model", "os_name", "os_version")
    about = "".join(f"<{name}>{long}</{name}>" for name in names)
    coprocs = "".join(f"<coproc><type>{long}</type><count>1</count></coproc>" for _ in range(16))
    text = request().replace("<host_info>", f"<coprocs>{coprocs}</coprocs><host_info>{about}")
    bridge.call(text.replace("<work_req", f"<core_client_release>{long}</core_client_release><work_req"))
    ((stored,),) = cast(Any, bridge.file).rows("SELECT length(about) FROM host")
    assert stored < 1000
