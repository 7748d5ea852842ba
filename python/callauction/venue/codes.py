"""The codes by which members join, and whether new ones may."""
from callauction.venue import config, tokens
from callauction.venue.log import Line, Log
from callauction.venue.messages import MessageError


class JoinCodes:
    """The codes of a venue by the names of those who have one of their own, that of the day by the
    empty name; by this one new members join while it `is_open`.
    """

    def __init__(self, terms: config.MemberTerms, log: Log) -> None:
        self._terms, self._log = terms, log
        self.by_name: dict[str, str] = {}
        self.is_open = terms.is_open
        self._code_of_file = ""

    @property
    def of_day(self) -> str:
        """The code by which members join now, empty where none does."""
        return self.by_name.get("", "") if self.is_open else ""

    def begin(self) -> None:
        """Gives a code to the day and to each name that has none; where the day's file has another
        one than before, that.
        """
        code = self._terms.code
        if self._terms.is_open and code and code != self._code_of_file:
            self.give("", code)
            self._log.note(kind="code_of_file", code=code)
        elif self._terms.is_open and "" not in self.by_name:
            self.give("", tokens.new_code())
        for name in self._terms.names:
            if name not in self.by_name:
                self.give(name, tokens.new_code())

    def give(self, name: str, code: str) -> str:
        """Gives a member, or the day, this code: the code."""
        self.by_name[name] = code
        self._log.note(kind="code", name=name, code=code)
        return code

    def open(self, is_open: bool) -> None:
        """Lets new members join, by a code that there is from then on, or no more."""
        self.is_open = is_open
        if is_open and "" not in self.by_name:
            self.give("", self._terms.code or tokens.new_code())
        self._log.note(kind="door", open=is_open)

    def whose(self, code: str) -> str:
        """The name whose code this is, empty for that of the day. Raises MessageError where it is
        none, or nobody joins by it now.
        """
        typed = code.strip().upper()
        for own, kept in self.by_name.items():
            if own and tokens.is_same_secret(typed, kept):
                return own
        if "" not in self.by_name or not tokens.is_same_secret(typed, self.by_name[""]):
            raise MessageError("bad_code")
        if not self.is_open:
            raise MessageError("joining_closed")
        return ""

    def replay(self, line: Line) -> bool:
        """Takes a line of the log: whether it is one about codes."""
        kind = line["kind"]
        if kind == "code":
            self.by_name[line["name"]] = line["code"]
        elif kind == "code_of_file":
            self._code_of_file = line["code"]
        elif kind == "door":
            self.is_open = line["open"]
        else:
            return False
        return True
