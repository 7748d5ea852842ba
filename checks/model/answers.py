"""The status, the output and the standard error that the program should answer an input with, by
the model.
"""
from collections.abc import Callable

from checks.model.causes import likely_cause
from checks.model.day import OpenFault, Options
from checks.model.files import FileFault, Given, given, journal_copy
from checks.model.tables import audit_text, book_text, journal_text, lines_text, trades_text

DEFAULTS: Options = {
    "low": 1,
    "high": 1000,
    "reference": 200,
    "members": 4,
    "open": 4096,
    "calls": 65536,
    "range": None,
}
FORMS: dict[str, Callable[[Given], str]] = {
    "lines": lines_text,
    "journal": journal_text,
    "trades": trades_text,
    "book": book_text,
}
"""The texts that can be asked for by --print."""
UNLAWFUL, INCOMPLETE = 4, 5

Answer = tuple[int, str, str]
"""A status, what is printed, and what is printed on standard error."""


def printed(text: str, options: Options, form: str = "lines") -> str:
    """What the program prints in this form for an order file or a journal. Raises FileFault or
    OpenFault.
    """
    return FORMS[form](given(text, options))


def answer(text: str, options: Options, form: str) -> Answer:
    """What the program answers to an order file or a journal, `form` being one of FORMS, or audit
    for the option --audit.
    """
    try:
        if form != "audit":
            return 0, printed(text, options, form), ""
        copy = journal_copy(text)
        is_legal, found = audit_text(copy.given, copy.behind)
        return (INCOMPLETE if copy.behind else 0) if is_legal else UNLAWFUL, found, ""
    except FileFault as fault:
        return 1, "", f"{fault}\n{likely_cause(str(fault), text, options)}"
    except OpenFault as fault:
        return 2, "", f"{fault}\n{likely_cause(str(fault), text, options)}"
