"""Who may upload a file: the client that got its job.

A reply has a token for each output file, which the client sends back with the file. The token is an HMAC of
the file's name and its limit. So nobody can make one without the project's secret, the token of a file is of
no use for another, and a job that is sent again has the same tokens.

The URL of a file has a token, too, an HMAC of the name alone. So it is known before the body of an upload is
read whether the upload is one of this project.
"""
import hashlib
import hmac
import os
import secrets
from pathlib import Path

from bsched_files.toml_entries import OperatorFault

SECRET_BYTES = 32
URL_DIGITS, ACCOUNT_DIGITS = 32, 16


class UploadTokens:
    """The tokens of a project's secret."""

    def __init__(self, secret: bytes) -> None:
        self._secret = secret

    def token(self, name: str, max_nbytes: int) -> str:
        """Returns the token of a file."""
        return self._digits(f"{name} {max_nbytes}")

    def url_token(self, name: str) -> str:
        """Returns the token in the URL of a file."""
        return self._digits(f"url {name}")[:URL_DIGITS]

    def is_url_token(self, text: str, name: str) -> bool:
        """Returns whether a text is the token in the URL of a file."""
        return hmac.compare_digest(text.encode(), self.url_token(name).encode())

    def account_digits(self, authenticator: str) -> str:
        """Returns digits that name an account to the web server, and say nothing of its key."""
        return self._digits(f"account {authenticator}")[:ACCOUNT_DIGITS]

    def _digits(self, text: str) -> str:
        """Returns the HMAC of a text, in hexadecimal."""
        return hmac.new(self._secret, text.encode(), hashlib.sha256).hexdigest()

    def is_token(self, text: str, name: str, max_nbytes: int) -> bool:
        """Returns whether a text is the token of a file. How long it takes says nothing about the token."""
        return hmac.compare_digest(text.encode(), self.token(name, max_nbytes).encode())


def write_secret(path: Path) -> None:
    """Makes a secret in a new file, which only its owner can read. It is on the disk, whole, before the file
    has its name.
    """
    new = path.with_name(f".{path.name}.new")
    with open(os.open(new, os.O_WRONLY | os.O_CREAT | os.O_TRUNC, 0o600), "wb") as file:
        file.write(secrets.token_bytes(SECRET_BYTES))
        file.flush()
        os.fsync(file.fileno())
    os.rename(new, path)


def read_secret(path: Path) -> bytes:
    """Reads the secret of a project."""
    try:
        secret = path.read_bytes()
    except OSError as error:
        raise OperatorFault(path, None, error.strerror or "can't be read") from None
    if len(secret) != SECRET_BYTES:
        what = f"has {len(secret)} bytes, and the secret has {SECRET_BYTES}: restore it"
        raise OperatorFault(path, None, what)
    return secret
