"""Code signing as BOINC's client checks it (BOINC's documentation, "Code signing").

A signature is RSA over the MD5 of a file. The 32 hexadecimal digits of the MD5, as text, are padded by PKCS
#1 v1.5 (block type 1, with no name of a hash before them). The result is raised to the private exponent.

Keys and signatures are written as hexadecimal digits, 32 bytes a line, followed by a line with a dot. A key
begins with one more line, its number of bits. The client accepts keys of at most 1024 bits. A number of such
a key has 128 bytes, one that belongs to a prime has 64.
"""
import errno
import hashlib
import os
import re
from pathlib import Path

from cryptography.exceptions import InvalidSignature
from cryptography.hazmat.primitives.asymmetric import padding, rsa

BITS = 1024
NUMBER_BYTES, PRIME_BYTES = BITS // 8, BITS // 16
PUBLIC_BYTES = 2 * NUMBER_BYTES
PRIVATE_BYTES = 3 * NUMBER_BYTES + 5 * PRIME_BYTES
HEXADECIMAL = re.compile(r"[0-9a-fA-F\s]*")


class KeyFault(Exception):
    """Raised if a text is no key or no signature."""


def file_md5(path: Path) -> str:
    """Returns the MD5 of a file, as 32 hexadecimal digits."""
    with path.open("rb") as file:
        return hashlib.file_digest(file, lambda: hashlib.md5(usedforsecurity=False)).hexdigest()


# ---- Hexadecimal digits


def hex_lines(data: bytes) -> str:
    """Returns bytes as BOINC writes them: 32 a line, and a dot after the last line."""
    lines = [data[start:][:32].hex() for start in range(0, len(data), 32)]
    return "\n".join([*lines, ".\n"])


def hex_bytes(text: str) -> bytes:
    """Returns the bytes of such a text. The dot may be missing."""
    digits = text.strip().removesuffix(".")
    if not HEXADECIMAL.fullmatch(digits):
        raise KeyFault("has something other than hexadecimal digits and a dot after them")
    try:
        return bytes.fromhex(digits)
    except ValueError:
        raise KeyFault("has an odd number of hexadecimal digits") from None


def key_bytes(text: str, length: int, kind: str) -> bytes:
    """Returns the bytes of a key of a kind, which follow the line with its bits."""
    bits, _, rest = text.strip().partition("\n")
    if bits.strip() != str(BITS):
        raise KeyFault(f"its first line is not {BITS}, the bits of a key")
    data = hex_bytes(rest)
    if len(data) != length:
        raise KeyFault(f"has {len(data)} bytes, and a {kind} key has {length}")
    return data


# ---- Keys


def numbers_of(data: bytes, lengths: list[int]) -> list[int]:
    """Returns numbers that are stored one after another, given the length of each."""
    numbers, start = [], 0
    for length in lengths:
        numbers.append(int.from_bytes(data[start:][:length], "big"))
        start += length
    return numbers


def public_key_text(key: rsa.RSAPublicKey) -> str:
    """Returns the text of a public key: the modulus and the exponent."""
    numbers = key.public_numbers()
    return f"{BITS}\n" + hex_lines(
        b"".join(number.to_bytes(NUMBER_BYTES, "big") for number in (numbers.n, numbers.e))
    )


def read_public_key(text: str) -> rsa.RSAPublicKey:
    """Reads a public key from its text."""
    modulus, exponent = numbers_of(key_bytes(text, PUBLIC_BYTES, "public"), [NUMBER_BYTES] * 2)
    try:
        return rsa.RSAPublicNumbers(exponent, modulus).public_key()
    except ValueError as error:
        raise KeyFault(f"is no public key: {error}") from None


def private_key_text(key: rsa.RSAPrivateKey) -> str:
    """Returns the text of a private key: modulus, both exponents, the primes, the exponents of these, and the
    coefficient.
    """
    private = key.private_numbers()
    public = private.public_numbers
    long = [public.n, public.e, private.d]
    short = [private.p, private.q, private.dmp1, private.dmq1, private.iqmp]
    data = b"".join(number.to_bytes(NUMBER_BYTES, "big") for number in long)
    return f"{BITS}\n" + hex_lines(data + b"".join(number.to_bytes(PRIME_BYTES, "big") for number in short))


def read_private_key(text: str) -> rsa.RSAPrivateKey:
    """Reads a private key from its text."""
    lengths = [NUMBER_BYTES] * 3 + [PRIME_BYTES] * 5
    modulus, exponent, private, *primes = numbers_of(key_bytes(text, PRIVATE_BYTES, "private"), lengths)
    first, second, first_exponent, second_exponent, coefficient = primes
    public = rsa.RSAPublicNumbers(exponent, modulus)
    try:
        return rsa.RSAPrivateNumbers(
            first, second, private, first_exponent, second_exponent, coefficient, public
        ).private_key()
    except ValueError as error:
        raise KeyFault(f"is no private key: {error}") from None


def new_key() -> rsa.RSAPrivateKey:
    """Returns a new private key."""
    return rsa.generate_private_key(public_exponent=65537, key_size=BITS)


def write_new_file(path: Path, text: str, mode: int) -> None:
    """Writes a file that does not exist yet. If that fails, no part of it stays."""
    descriptor = os.open(path, os.O_WRONLY | os.O_CREAT | os.O_EXCL, mode)
    try:
        with os.fdopen(descriptor, "w") as file:
            file.write(text)
    except OSError:
        path.unlink()
        raise


def write_new_keys(private_path: Path, public_path: Path) -> None:
    """Writes a new pair of keys, or neither of them. Neither file may exist, and only the owner may read the
    private one.
    """
    for path in (private_path, public_path):
        if os.path.lexists(path):
            raise FileExistsError(errno.EEXIST, os.strerror(errno.EEXIST), str(path))
    key = new_key()
    write_new_file(private_path, private_key_text(key), 0o600)
    try:
        write_new_file(public_path, public_key_text(key.public_key()), 0o644)
    except OSError:
        private_path.unlink()
        raise


# ---- Signatures


def signature_text(md5: str, key: rsa.RSAPrivateKey) -> str:
    """Returns the signature of a file with this MD5.

    The library always puts the name of a hash before the digest, and the client does not expect one. So the
    padding, which has no random part, and the power are computed here.
    """
    private = key.private_numbers()
    filled = b"\xff" * (NUMBER_BYTES - 3 - len(md5))
    block = b"\x00\x01" + filled + b"\x00" + md5.encode()
    signed = pow(int.from_bytes(block, "big"), private.d, private.public_numbers.n)
    return hex_lines(signed.to_bytes(NUMBER_BYTES, "big"))


def is_signature(md5: str, text: str, key: rsa.RSAPublicKey) -> bool:
    """Returns whether a text is the signature of a file with this MD5, made with the private half of this
    key.
    """
    try:
        signed = key.recover_data_from_signature(hex_bytes(text), padding.PKCS1v15(), None)
    except (InvalidSignature, KeyFault, ValueError):
        return False
    return signed == md5.encode()
