"""Answers to a GET over HTTP, and why there is none."""
import http.client
import ssl
from urllib.parse import urlsplit

SECONDS = 20.0  # for an answer
MOST_BYTES = 1_000_000  # of a body that are read


def answer_of(url: str, fields: dict[str, str] | None = None) -> tuple[int, bytes]:
    """Returns the status and the body of the answer to a GET."""
    parts = urlsplit(url)
    kind = http.client.HTTPSConnection if parts.scheme == "https" else http.client.HTTPConnection
    connection = kind(parts.hostname or "", parts.port, timeout=SECONDS)
    try:
        connection.request("GET", parts.path or "/", headers=fields or {})
        response = connection.getresponse()
        return response.status, response.read(MOST_BYTES)
    finally:
        connection.close()


def reason_of(error: Exception) -> str:
    """Returns why a connection failed."""
    if isinstance(error, ssl.SSLCertVerificationError):
        return f"its certificate is not valid: {error.verify_message}"
    if isinstance(error, OSError) and error.strerror:
        return error.strerror
    return str(error) or type(error).__name__
