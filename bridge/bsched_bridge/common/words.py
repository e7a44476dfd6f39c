"""Texts as BOINC's client compares them, and keys as an operator may see them."""


def in_small_letters(text: str) -> str:
    """Returns a text with its ASCII capitals in small letters, as BOINC's client does it."""
    return "".join(one.lower() if one.isascii() else one for one in text)


def shown_key(authenticator: str) -> str:
    """Returns the front of an account key. An operator can find the account by it, but nobody can use it to
    log in.
    """
    return authenticator[: min(6, len(authenticator) // 2)] + ".."
