"""Keys and signatures in BOINC's form."""
from pathlib import Path
from typing import Any

import pytest
from ordering import ordered

from bsched_bridge.common.code_signing import (
    KeyFault,
    file_md5,
    hex_bytes,
    hex_lines,
    is_signature,
    private_key_text,
    public_key_text,
    read_private_key,
    read_public_key,
    signature_text,
)

MD5 = "d41d8cd98f00b204e9800998ecf8427e"


def test_hexadecimal_lines() -> None:
    assert hex_lines(bytes(range(33))) == bytes(range(32)).hex() + "\n20\n.\n"
    assert hex_lines(bytes(32)) == "00" * 32 + "\n.\n"
    assert hex_bytes(hex_lines(bytes(range(70)))) == bytes(range(70))
    for faulty in ("0", "0g", "00\n.\n00", "0x00"):
        with pytest.raises(KeyFault):
            hex_bytes(faulty)


def test_keys_are_read_again(key: Any) -> None:
    private = private_key_text(key)
    assert read_private_key(private).private_numbers() == key.private_numbers()
    assert private.count("\n") == 1 + 704 // 32 + 1
    public = public_key_text(key.public_key())
    assert read_public_key(public).public_numbers() == key.public_key().public_numbers()
    lines = public.split("\n")
    assert (lines[0], lines[-2:], len(lines)) == ("1024", [".", ""], 1 + 8 + 2)
    assert lines[8].endswith("010001")  # the exponent, after zeros


def test_signatures(key: Any) -> None:
    signature = signature_text(MD5, key)
    assert is_signature(MD5, signature, key.public_key())
    assert not is_signature(MD5.replace("d", "e"), signature, key.public_key())
    assert not is_signature(
        MD5, signature.replace(signature[5], "0" if signature[5] != "0" else "1"), key.public_key()
    )
    assert not is_signature(MD5, "no signature", key.public_key())
    assert [len(line) for line in signature.split("\n")] == [64, 64, 64, 64, 1, 0]


def test_the_block_that_is_signed(key: Any) -> None:
    public = key.public_key().public_numbers()
    signed = int.from_bytes(hex_bytes(signature_text(MD5, key)), "big")
    block = pow(signed, public.e, public.n).to_bytes(128, "big")
    assert block == b"\x00\x01" + b"\xff" * 93 + b"\x00" + MD5.encode()


@pytest.mark.parametrize(
    "text", ["", "512\n00\n.\n", "1024\n00\n.\n", "1024\n" + "zz" * 256, "1024\n" + "00" * 256]
)
def test_what_is_no_key(text: str) -> None:
    with pytest.raises(KeyFault):
        read_public_key(text)
    with pytest.raises(KeyFault):
        read_private_key(text)


def test_the_commands(tmp_path: Path) -> None:
    assert ordered(tmp_path, "keygen").returncode == 0
    assert (tmp_path / "code_sign_private").stat().st_mode & 0o777 == 0o600
    (tmp_path / "program").write_bytes(b"")
    completed = ordered(tmp_path, "sign", "program", "--key", "code_sign_private")
    public = read_public_key((tmp_path / "code_sign_public").read_text())
    assert completed.returncode == 0
    assert file_md5(tmp_path / "program") == MD5
    assert is_signature(MD5, completed.stdout, public)
    assert ordered(tmp_path, "keygen").returncode == 1  # it overwrites no key
    completed = ordered(tmp_path, "sign", "program", "--key", "code_sign_public")
    assert (completed.returncode, completed.stderr) == (
        1,
        "bsched-bridge: code_sign_public has 256 bytes, and a private key has 704\n",
    )
    assert ordered(tmp_path, "sign", "nothing", "--key", "code_sign_private").returncode == 1


@pytest.mark.parametrize("there", ["code_sign_private", "code_sign_public"])
def test_no_key_is_made_without_its_other_half(tmp_path: Path, there: str) -> None:
    (tmp_path / there).write_text("older")
    completed = ordered(tmp_path, "keygen")
    assert (completed.returncode, completed.stderr) == (
        1,
        f"bsched-bridge: {there} exists, and is not replaced\n",
    )
    assert [(path.name, path.read_text()) for path in tmp_path.iterdir()] == [(there, "older")]


@pytest.mark.parametrize("public", ["no folder/public", "code_sign_private"])
def test_a_public_key_that_can_not_be_written(tmp_path: Path, public: str) -> None:
    assert ordered(tmp_path, "keygen", "--public", public).returncode == 1
    assert list(tmp_path.iterdir()) == []
