"""Which names members may have: those that can be seen, and that differ from others on a screen."""
import re
import unicodedata

INVISIBLE = re.compile(
    "[\u00ad\u034f\u115f\u1160\u17b4\u17b5\u180b-\u180f\u200b-\u200f\u202a-\u202e\u2060-\u206f"
    "\u2800\u3164\ufe00-\ufe0f\ufeff\uffa0\ufff9-\ufffb\U000e0000-\U000e0fff]"
)
"""What is drawn as nothing, though Unicode has some of it among the letters."""
MOST_MARKS = 3
"""Marks above or below one letter: more of them cover the lines beside."""
ALIKE = str.maketrans("авекмнорстхуіјѕԛԝαβεηικμνορτυχ", "abekmhopctxyijsqwabehikmnoptux")
"""Small letters, Cyrillic and Greek, that look like Latin ones, themselves or as capitals."""
ROLE_NAMES = frozenset(
    ("admin", "administrator", "beamer", "callboard", "lehrer", "lehrerin", "lehrkraft")
    + ("operator", "root", "system", "teacher", "venue")
)
"""Names that others would take for somebody who isn't a member."""
FORMULA = re.compile("(^|[;,|\t])(\\s*)(?=[=+\\-@'\uff1d\uff0b\uff0d\uff20])")


def tidy(name: str) -> str:
    """A name without spaces around it, and with one between its words."""
    return unicodedata.normalize("NFC", " ".join(name.split()))


def folded(name: str) -> str:
    """A name without what makes two names look alike."""
    plain = INVISIBLE.sub("", unicodedata.normalize("NFKC", name)).casefold()
    return unicodedata.normalize("NFKC", plain).translate(ALIKE)


def is_seen(name: str) -> bool:
    """Whether a name can be read: it has a letter or a digit, nothing that isn't drawn, and few
    marks above or below a letter.
    """
    kinds = "".join(unicodedata.category(it)[0] for it in name)
    has_sign, has_marks = {*kinds} & {*"LN"}, "M" * (MOST_MARKS + 1) in kinds
    is_drawn = name.isprintable() and not INVISIBLE.search(name)
    return bool(has_sign) and is_drawn and not has_marks and not kinds.startswith("M")


def is_role(name: str) -> bool:
    """Whether a name would be taken for a role."""
    return folded(name).replace(" ", "") in {folded(role) for role in ROLE_NAMES}


def plain(name: str) -> str:
    """A name that no spreadsheet runs, whichever sign parts its cells."""
    return FORMULA.sub(r"\1\2'", name)
