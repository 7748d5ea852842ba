"""Secrets: tokens by which one is known, and codes that people type."""
import hashlib
import hmac
import pathlib
import re
import secrets

from callauction.venue import owned

LETTERS = "ABCDEFGHJKLMNPQRSTUVWXYZ23456789"
"""Without those that look alike."""
CODE_LENGTH, LEAST_CODE = 6, 4
TOKEN_BYTES = 24
TOKEN_FORM = re.compile(r"[A-Za-z0-9_-]{32}")
"""What `new_token` makes: 24 bytes in base64, 192 bits."""


class TokenError(Exception):
    """A file that should hold a token holds none."""


def new_token() -> str:
    """A token that nobody can guess."""
    return secrets.token_urlsafe(TOKEN_BYTES)


def new_code() -> str:
    """A code that is typed by hand."""
    return "".join(secrets.choice(LETTERS) for _ in range(CODE_LENGTH))


def digest(token: str) -> str:
    """What is kept of a token, from which it can't be found."""
    return hashlib.sha256(token.encode("utf-8", "replace")).hexdigest()


def is_same_secret(first: str, second: str) -> bool:
    """Whether two secrets are the same, in a time that doesn't say where they differ. An empty one
    is no secret, and the same as nothing.
    """
    is_equal = hmac.compare_digest(
        first.encode("utf-8", "replace"), second.encode("utf-8", "replace")
    )
    return is_equal and bool(first)


def is_token(content: bytes) -> bool:
    """Whether a file with this content holds a token."""
    return bool(TOKEN_FORM.fullmatch(content.decode("ascii", "replace").removesuffix("\n")))


def secret_of(folder: pathlib.Path, role: str) -> str:
    """The token of a role, which a file of the folder keeps, readable by its owner alone; it is on
    the disk before it is known to anybody. Raises TokenError where the file holds none, OwnerError
    where it is another's, and OSError.
    """
    path = folder / f"{role}.token"
    try:
        kept = owned.secret_bytes(path, TOKEN_BYTES * 2)
    except FileNotFoundError:
        return new_secret_of(folder, role)
    if not is_token(kept):
        raise TokenError(f"{path} holds no token: remove it, and the next start makes one")
    return kept.decode("ascii").removesuffix("\n")


def new_secret_of(folder: pathlib.Path, role: str) -> str:
    """A new token of a role, in the place of the one that the folder may keep. Raises OSError."""
    found = new_token()
    owned.write(folder / f"{role}.token", f"{found}\n".encode("ascii"))
    return found
