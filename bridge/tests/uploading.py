"""What tests of uploads share: messages as BOINC's client 7.20.5 sends them, and what is on the disk."""
import hashlib
import re
from collections.abc import Iterator
from pathlib import Path
from typing import Any

from bridges import Bridge
from messages import FIRST, found, jobs, request

from bsched_bridge.people.hosts import Key
from bsched_bridge.requests.client_requests import read_request

HEAD = """\
<data_server_request>
    <core_client_major_version>7</core_client_major_version>
    <core_client_minor_version>20</core_client_minor_version>
    <core_client_release>5</core_client_release>
<file_upload>
<file_info>
<name>{name}</name>
<xml_signature>
{token}</xml_signature>
<max_nbytes>{max_nbytes}</max_nbytes>
</file_info>
<nbytes>{nbytes}</nbytes>
<md5_cksum>{md5}</md5_cksum>
<offset>{offset}</offset>
<data>
"""
ASKS_SIZE = """\
<data_server_request>
    <core_client_major_version>7</core_client_major_version>
    <core_client_minor_version>20</core_client_minor_version>
    <core_client_release>5</core_client_release>
    <get_file_size>{name}</get_file_size>
</data_server_request>
"""
FILE_INFO = """\
<file_info>
    <name>{name}</name>
    <nbytes>{nbytes}.000000</nbytes>
    <max_nbytes>20000.000000</max_nbytes>
    <md5_cksum>{md5}</md5_cksum>
    <upload_url>http://127.0.0.1:8081/p/file_upload_handler</upload_url>
{more}</file_info>
"""
DATA = bytes(range(256)) * 40  # more than the 8,192 bytes that are read with the head
DONE, AGAIN, NEVER = 0, 1, -1  # statuses of answers


def md5_of(data: bytes) -> str:
    """Returns the MD5 of bytes, as the client writes it."""
    return hashlib.md5(data).hexdigest()


def tokens_of(reply: bytes) -> dict[str, str]:
    """Returns the token of each file in a reply, as the client reads it."""
    files = (part for part in reply.decode().split("<file_info>")[1:] if "<xml_signature>" in part)
    return {
        found("<name>(.*?)</name>", part): found("<xml_signature>\n(.*?)\n</xml_signature>", part)
        for part in files
    }


def upload(name: str, data: bytes, token: str, max_nbytes: int | str = 20_000, **more: Any) -> bytes:
    """Returns the message that uploads a file."""
    values = {"nbytes": len(data), "md5": md5_of(data), "offset": 0, **more}
    return HEAD.format(name=name, token=token, max_nbytes=max_nbytes, **values).encode() + data


def url_of(bridge: Bridge, name: str) -> str:
    """Returns the path of the URL of a file, as a reply has it."""
    tokens = bridge.application.writer.tokens
    assert tokens is not None
    return f"/p/file_upload_handler/{name}/{tokens.url_token(name)}"


def sent(bridge: Bridge, message: bytes, name: Any = "", **more: Any) -> int:
    """Returns the status in the answer to a message of an upload. It goes to the URL of a file, by default of
    the one that the message names.
    """
    path = url_of(bridge, name or found("<name>(.*?)</name>", message[:8192].decode("latin-1")))
    status, fields, body = bridge.got(path, "POST", message, **more)
    assert (status, fields["Content-Length"]) == ("200 OK", str(len(body)))
    pattern = r"\A<data_server_reply>\n<status>(-?\d+)</status>\n.*</data_server_reply>\n\Z"
    return int(found(pattern, body.decode(), re.DOTALL))


def file_info(name: str, data: bytes, more: str = "") -> str:
    """Returns the element by which a report names an uploaded file."""
    return FILE_INFO.format(name=name, nbytes=len(data), md5=md5_of(data), more=more)


def report(
    result: str,
    files: list[str],
    hostid: int = FIRST,
    output: str = "",
    status: int = 0,
    state: int = 5,
    **more: Any,
) -> str:
    """Returns a request that reports a result with the elements of its files."""
    body = request(hostid=hostid, reports=[(result, output)], seconds=0, **more)
    body = body.replace(
        "<exit_status>0</exit_status><state>5", f"<exit_status>{status}</exit_status><state>{state}"
    )
    return body.replace("</stderr_out></result>", "</stderr_out>" + "".join(files) + "</result>")


def lost_report(bridge: Bridge, infos: list[str]) -> dict[str, str]:
    """Has the files of Ann's result stored, but bsched not hear of the report, so the job goes out once more.
    Returns the tokens of its files.
    """
    checks = bridge.application.exchange.reports
    assert checks is not None
    checks.check(Key("ann-key", "c1"), read_request([report("u1_0", infos).encode()]))
    reply = bridge.call(request(hostid=FIRST, seconds=0))
    assert jobs(reply) == ["u1_0"]
    return tokens_of(reply)


def on_disk(folder: Path) -> dict[str, Any]:
    """Returns the contents of the files in temp/, pending/ and store/, by their names."""
    return {
        f"{part}/{path.name}": path.read_bytes()
        for part in ("temp", "pending", "store")
        for path in (folder / "uploads" / part).iterdir()
    }


def sha256_of(data: bytes) -> str:
    """Returns the SHA-256 of bytes."""
    return hashlib.sha256(data).hexdigest()


def odd_messages(names: tuple[str, str], good: str, other: str) -> Iterator[tuple[str, bytes, int]]:
    """Yields messages that store nothing, each with the status of the answer. The names are those of two
    output files of a result, with at most 20,000 bytes, each with its token.
    """
    first, second = names
    message = upload(first, DATA, good)
    yield "another token", upload(first, DATA, other), NEVER
    yield "no token", upload(first, DATA, ""), NEVER
    yield "a token of zeros", upload(first, DATA, "0" * 64), NEVER
    yield "a token beyond ASCII", upload(first, DATA, "\u00e9" * 32), NEVER
    yield "a token in capitals", upload(first, DATA, good.upper()), NEVER
    yield "another result", upload(f"x{first}", DATA, good), NEVER
    yield "another file", upload(second, DATA, good), NEVER
    yield "a file that does not exist", upload(f"{first[:-1]}2", DATA, good), NEVER
    yield "a path", upload(f"../{first}", DATA, good), NEVER
    yield "an absolute path", upload("/etc/passwd", DATA, good), NEVER
    yield "an empty name", upload("", DATA, good), NEVER
    yield "a NUL in the name", upload(f"{first}\x00", DATA, good), NEVER
    yield "a higher limit", upload(first, DATA, good, max_nbytes=20_001), NEVER
    yield "more than the limit", upload(first, bytes(20_001), good), NEVER
    yield "a negative limit", upload(first, DATA, good, max_nbytes=-1), NEVER
    yield "a limit with an exponent", upload(first, DATA, good, max_nbytes="2e4"), NEVER
    yield "a size that is no number", upload(first, DATA, good, nbytes="x"), NEVER
    yield "a negative size", upload(first, DATA, good, nbytes=-1), NEVER
    yield "a size in Arabic digits", upload(first, DATA, good, nbytes="\u0661"), NEVER
    yield "a size of many digits", upload(first, DATA, good, nbytes="1" * 19), NEVER
    yield "an MD5 in capitals", upload(first, DATA, good, md5="A" * 32), NEVER
    yield "no MD5", upload(first, DATA, good, md5=""), NEVER
    yield "no offset", upload(first, DATA, good).replace(b"<offset>0</offset>\n", b""), NEVER
    yield "two names", message.replace(b"</name>\n", f"</name>\n<name>{first}</name>\n".encode()), NEVER
    yield "two sizes", message.replace(b"<offset>", b"<nbytes>1</nbytes><offset>"), NEVER
    yield "no data", message.replace(b"<data>\n", b""), NEVER
    yield "a long head", message.replace(b"<data>\n", b" " * 9000 + b"<data>\n"), NEVER
    yield "nothing", b"", NEVER
    yield "a call", request().encode(), NEVER
    yield "HTML", b"<html></html>", NEVER
    yield "zeros", bytes(10_000), NEVER
    # what a good client sends when something breaks
    yield "another MD5", upload(first, DATA, good, md5="0" * 32), AGAIN
    yield "an offset", upload(first, DATA, good, offset=5), AGAIN
    yield "more bytes than the size", message + b"x", AGAIN
    yield "fewer bytes than the size", upload(first, DATA, good, nbytes=len(DATA) + 1), AGAIN
    yield "a smaller size", upload(first, DATA, good, nbytes=len(DATA) - 1), AGAIN
