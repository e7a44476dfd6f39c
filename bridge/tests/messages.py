"""Requests that tests write, and what tests read in replies."""
import re
from typing import Any
from xml.etree import ElementTree

FIRST = 100_001  # the number that the first host gets, if the clock does not give a greater one


def request(
    hostid: int | str = 0,
    cpid: str = "c1",
    key: str = "ann-key",
    seconds: float | int = 60,
    listed: list[str] | tuple[Any, ...] | None = (),
    reports: list[tuple[str, str]] | tuple[Any, ...] = (),
    seqno: int = 0,
    statuses: dict[str, Any] | None = None,
    **more: Any,
) -> str:
    """Returns a scheduler_request. If listed is None, it has no list of what the client has. Reports have the
    exit status 0, if statuses has no other one for their names.
    """
    statuses = statuses or {}
    other = ""
    if listed is not None:
        names = "".join(f"<other_result><name>{name}</name></other_result>\n" for name in listed)
        other = f"<other_results>\n{names}</other_results>\n"
    results = "".join(
        f"<result><name>{name}</name><exit_status>{statuses.get(name, 0)}</exit_status>"
        "<state>5</state><stderr_out>"
        "<core_client_version>7.20.5"
        f"</core_client_version>\n<![CDATA[\n<stderr_txt>\n{output}\n</stderr_txt>\n]]>\n"
        "</stderr_out></result>\n"
        for name, output in reports
    )
    values = {
        "p_fpops": "1000000000.0",
        "m_nbytes": "8e9",
        "d_free": "8e9",
        "platform": "x86_64-pc-linux-gnu",
        "extra": "",
        **more,
    }
    return (
        f"<scheduler_request>\n<authenticator>{key}</authenticator>\n<hostid>{hostid}</hostid>\n"
        f"<rpc_seqno>{seqno}</rpc_seqno>\n"
        f"<work_req_seconds>{seconds}</work_req_seconds>\n"
        f"<platform_name>{values['platform']}</platform_name>\n{values['extra']}"
        f"<host_info><host_cpid>{cpid}</host_cpid><p_fpops>{values['p_fpops']}</p_fpops><m_nbytes>"
        f"{values['m_nbytes']}</m_nbytes>"
        f"<d_free>{values['d_free']}</d_free></host_info>\n{results}{other}</scheduler_request>\n"
    )


def names(reply: bytes, element: str) -> list[str]:
    """Returns the names in the elements of a kind."""
    return re.findall(rf"<{element}>\s*<name>([^<]*)</name>", reply.decode())


def jobs(reply: bytes) -> list[str]:
    """Returns the names of the jobs of a reply."""
    return names(reply, "result")


def found(pattern: str, text: str, flags: int = 0) -> str:
    """Returns what the first group of a pattern has in a text, which must have the pattern."""
    match = re.search(pattern, text, flags)
    assert match is not None, pattern
    return match[1]


def element_at(root: ElementTree.Element, path: str) -> ElementTree.Element:
    """Returns the first element at a path, which must exist."""
    element = root.find(path)
    assert element is not None, path
    return element


def value(reply: bytes, element: str) -> Any:
    """Returns the text of the first element of a kind, or None."""
    match = re.search(rf"<{element}[^>]*>([^<]*)</{element}>", reply.decode())
    return match[1] if match else None
