"""The JSON text of a call (docs/PROFILE.md, "The request")."""
import json
from dataclasses import replace

from bsched_files.file_names import FIRST, is_result_of, plain_result, result_in_file

from .client_requests import ClientRequest, Report

MOST_BYTES = 262_144
MOST_REPORTS = 256
MOST_OTHER_RESULTS = 1024
COMMA = 1

_written = json.JSONEncoder(ensure_ascii=False, separators=(",", ":")).encode


def written_length(value: object) -> int:
    """Returns how many bytes a value takes in a list."""
    return len(_written(value).encode()) + COMMA


def profile_report(report: Report) -> dict[str, object]:
    """Returns a report as the profile writes it."""
    return {"name": report.name, "exit_status": report.exit_status, "output": report.output}


def reports_that_fit(request: ClientRequest, room: int, by_name: bool) -> int:
    """Returns how many reports, from the first on, fit into this many bytes. With by_name the others still
    need room for their names.
    """
    names = [written_length(report.name) if by_name else 0 for report in request.results]
    room -= sum(names)
    for count, (report, name) in enumerate(zip(request.results[:MOST_REPORTS], names)):
        room -= written_length(profile_report(report)) - name
        if room < 0:
            return count
    return min(len(request.results), MOST_REPORTS)


def of_file(request: ClientRequest, file: int) -> tuple[ClientRequest, list[str]]:
    """Returns the part of a request that is for a file, and the names of the other results that it reports.
    A file must not see these: it would acknowledge them, and could not record them.
    """
    others = [report.name for report in request.results if not is_result_of(report.name, file)]
    listed = request.other_results or ()
    if not others and all(is_result_of(name, file) for name in listed):
        return request, []
    results = tuple(report for report in request.results if is_result_of(report.name, file))
    other = None
    if request.other_results is not None:
        other = tuple(name for name in listed if is_result_of(name, file))
    return replace(request, results=results, other_results=other), others


def with_plain_names(request: ClientRequest) -> ClientRequest:
    """Returns a request with bsched's names of the results, in place of those that clients know."""
    results = tuple(replace(report, name=plain_result(report.name)) for report in request.results)
    other = None if request.other_results is None else tuple(map(plain_result, request.other_results))
    return replace(request, results=results, other_results=other)


def listed_names(call: bytes, file: int = FIRST) -> list[str] | None:
    """Returns the names by which clients know the results that a call lists, or None if it has no list."""
    names = json.loads(call).get("other_results")
    return None if names is None else [result_in_file(name, file) for name in names]


def call_text(
    request: ClientRequest,
    host_cpid: str,
    number: int,
    in_hand: list[str],
    seconds_in_hand: int,
    file: int = FIRST,
) -> bytes:
    """Returns the text of a call to a file for a request, under the bridge's own number. All names must be
    those of the file.

    The names in hand are those of jobs that the bridge has for the client. They are listed as if the client
    had them, and their seconds count as received. What the profile has no room for is put off. Reports that
    don't fit are listed by their names, so that they don't count as lost. If there are too many names, or
    they leave no room for a single report, all names are left out.
    """
    if file != FIRST:
        request, in_hand = with_plain_names(request), list(map(plain_result, in_hand))
    record: dict[str, object] = {
        "authenticator": request.authenticator,
        "hostid": 0,
        "rpc_seqno": number,
        "host_info": {
            "host_cpid": host_cpid,
            "p_fpops": request.p_fpops,
            "m_nbytes": request.m_nbytes,
            "d_free": request.d_free,
        },
        "platform_name": request.platform_name,
        "alt_platforms": request.alt_platforms,
        "work_req_seconds": max(0, request.work_req_seconds - seconds_in_hand),
        "other_results": [],
        "results": [],
    }
    other = None if request.other_results is None else list(dict.fromkeys([*request.other_results, *in_hand]))
    text = whole_text(record, request.results, other)
    if text is None:
        text = text_that_fits(record, request, other)
    return text


def whole_text(
    record: dict[str, object], results: tuple[Report, ...], other: list[str] | None
) -> bytes | None:
    """Returns the text of a call with all reports and all names. If they don't fit, returns None."""
    if len(results) > MOST_REPORTS or len(other or ()) > MOST_OTHER_RESULTS:
        return None
    whole: dict[str, object] = {
        **record,
        "other_results": other,
        "results": list(map(profile_report, results)),
    }
    if other is None:
        del whole["other_results"]
    text = _written(whole).encode()
    return text if len(text) <= MOST_BYTES else None


def text_that_fits(record: dict[str, object], request: ClientRequest, other: list[str] | None) -> bytes:
    """Returns the text of a call with what the profile has room for."""
    room = MOST_BYTES - written_length(record)
    if other is not None:
        names_room = room - sum(map(written_length, other))
        count = reports_that_fit(request, names_room, True)
        other += [report.name for report in request.results[count:]]
        if (
            len(other) > MOST_OTHER_RESULTS
            or sum(map(written_length, other)) > room
            or count == 0 < len(request.results)
        ):
            other = None
    if other is None:
        count = reports_that_fit(request, room, False)
        del record["other_results"]
    else:
        record["other_results"] = other
    record["results"] = [profile_report(report) for report in request.results[:count]]
    return _written(record).encode()
