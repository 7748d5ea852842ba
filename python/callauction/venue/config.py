"""What a venue is opened with: a file in TOML, or defaults for all that it leaves out.

Prices are decimal texts in the file and ticks after it; lengths of time are seconds.
"""
import dataclasses
import pathlib
import re
import tomllib
from decimal import Decimal
from typing import Any, Self

from callauction.limits import (
    MOST_CALLS, MOST_MEMBERS, MOST_OPEN, MOST_QUANTITY, MOST_TICK, MOST_TICKS,
)  # fmt: skip
from callauction.prices import BadCellError, Grid, decimal_of
from callauction.venue import owned
from callauction.venue.bounds import Bounds, bounds_from
from callauction.venue.fields import TITLE, ConfigError, Fields
from callauction.venue.fix_terms import FixTerms, terms_from
from callauction.venue.gains import Uncovered
from callauction.venue.handing import HandError, ListError, ListedValue
from callauction.venue.member_names import folded, is_role, is_seen
from callauction.venue.tokens import LEAST_CODE
from callauction.venue.treatments import MOST_CALL_SECONDS, Limits, Read, Treatment, treatment_from

MOST_TRADERS = MOST_MEMBERS - 1
"""The members who may trade an instrument."""
INSTRUMENT_NAME = re.compile(r"[A-Za-z0-9][A-Za-z0-9_-]{0,23}")
PAGE_LANGUAGES = ("en", "de")
MOST_CONFIG_BYTES = 1 << 20
"""The bytes that the file of a day, or one that it names, may have."""
MOST_RATE = 100_000


@dataclasses.dataclass(frozen=True)
class InstrumentTerms:
    """An instrument and what its day is opened with, in ticks and shares."""

    name: str = "XYZ"
    title: str = ""
    grid: Grid = Grid(Decimal("0.01"))
    currency: str = "EUR"
    low: int = 1
    high: int = 1000
    reference: int = 200
    range: int | None = None
    open: int = 4096
    calls: int = 65_536
    most_quantity: int = MOST_QUANTITY
    uncovered_bought: int = 0
    uncovered_sold: int | None = None

    @property
    def uncovered(self) -> Uncovered:
        """What shares come to that no value covers: those that are sold the highest price, where
        nothing else is said.
        """
        sold = self.high if self.uncovered_sold is None else self.uncovered_sold
        return Uncovered(self.uncovered_bought, sold)

    def price(self, tick: int) -> str:
        """A tick as a decimal price."""
        return format(self.grid.price(tick), "f")

    def value_tick(self, price: str) -> int:
        """The tick of a value. Raises HandError where none may be this price."""
        try:
            found = self.grid.tick(decimal_of(price))
        except BadCellError as fault:
            raise HandError(f"the price {price} {fault}") from None
        if not self.uncovered.covers(found):
            least, most = self.uncovered.bought, self.uncovered.sold
            lowest, highest = self.price(least), self.price(most)
            raise HandError(f"the value {price} isn't from {lowest} to {highest}")
        return found

    def in_round(self, treatment: Treatment) -> "InstrumentTerms":
        """This instrument in a round, which may have another first reference price. Raises
        HandError where that can't be.
        """
        if not treatment.reference:
            return self
        try:
            tick = self.grid.tick(decimal_of(treatment.reference))
        except BadCellError as fault:
            raise HandError(f"the reference {treatment.reference} {fault}") from None
        if not self.low <= tick <= self.high:
            least, most = self.price(self.low), self.price(self.high)
            raise HandError(f"the reference {treatment.reference} isn't from {least} to {most}")
        return dataclasses.replace(self, reference=tick)

    def limits(self, treatment: Treatment) -> Limits:
        """What is refused in a round."""
        money = int(Decimal(treatment.money or "0") / self.grid.tick_size)
        return Limits(
            treatment.is_covered,
            treatment.has_own_trades,
            treatment.shares,
            money if treatment.money else None,
        )

    def check(self, treatment: Treatment) -> None:
        """Raises HandError where a round can't be one of this instrument."""
        self.in_round(treatment)
        treatment.rule.check(self.value_tick)

    def words(self) -> list[str]:
        """The program's options for this day."""
        numbers = {name: getattr(self, name) for name in ("low", "high", "reference")}
        numbers |= {"members": MOST_MEMBERS, "open": self.open, "calls": self.calls}
        if self.range is not None:
            numbers["range"] = self.range
        return [word for name, value in numbers.items() for word in (f"--{name}", str(value))]


@dataclasses.dataclass(frozen=True)
class Plan:
    """The lengths of phases in seconds. A call phase of 0 ends when the operator ends it; a random
    end adds up to that many seconds; where `is_automatic` an uncross follows the end of each.
    """

    call: int = 180
    random_end: int = 0
    extension: int = 60
    is_automatic: bool = False


@dataclasses.dataclass(frozen=True)
class MemberTerms:
    """Who may be a member: by the code of the day where `is_open`, and these names by a code of
    their own; how many at most, how many new ones of one address may join at once, 0 for any, and
    how fast they may speak: messages a second, and at once. Where there are more than `group`, they
    are in groups with boards of their own; see DayTerms.group.
    """

    is_open: bool = True
    code: str = ""
    names: tuple[str, ...] = ()
    most: int = 200
    joins: int = 40
    rate: float = 20.0
    burst: int = 40
    group: int | None = None


@dataclasses.dataclass(frozen=True)
class PayoffTerms:
    """What members are paid: `base`, and `rate` for each unit of what they gained, at least
    nothing; in this currency, empty for the instruments' own.
    """

    base: Decimal = Decimal(0)
    rate: Decimal = Decimal(1)
    currency: str = ""


@dataclasses.dataclass(frozen=True)
class DayTerms:
    """All that a venue is opened with. Where `is_synced` nothing is answered before it is on the
    disk; `reserve` is how many commands of each instrument are kept for the operator. Where there
    are more rounds than `rounds`, the last of them comes again.
    """

    title: str = "Call auction"
    language: str = "en"
    is_synced: bool = True
    reserve: int = 16
    plan: Plan = Plan()
    members: MemberTerms = MemberTerms()
    instruments: tuple[InstrumentTerms, ...] = (InstrumentTerms(),)
    payoff: PayoffTerms = PayoffTerms()
    rounds: tuple[Treatment, ...] = (Treatment(),)
    bounds: Bounds = Bounds()
    fix: FixTerms | None = None

    @property
    def group(self) -> int:
        """How many members a group has at most: where nothing else is said, as many as may trade
        an instrument, and where there are several instruments any number of them.
        """
        if self.members.group is not None:
            return self.members.group
        return MOST_TRADERS if len(self.instruments) == 1 else self.members.most

    @property
    def paid_in(self) -> str:
        """The currency in which members are paid."""
        return self.payoff.currency or self.instruments[0].currency

    @property
    def own_codes(self) -> tuple[str, ...]:
        """The names that have a code, or a CompID, of their own."""
        return *self.members.names, *(self.fix.sessions.values() if self.fix else ())

    def treatment(self, number: int) -> Treatment:
        """The round of this number, from 1."""
        return self.rounds[min(number, len(self.rounds)) - 1]

    def check(self, treatment: Treatment) -> None:
        """Raises HandError where a round can't be one of this day."""
        for instrument in self.instruments:
            instrument.check(treatment)

    @classmethod
    def read(cls, path: pathlib.Path) -> Self:
        """The day of a file. Raises ConfigError, OwnerError where others own or may write it or a
        file that it names, and OSError where it can't be read.
        """
        try:
            found = tomllib.loads(owned.trusted(path, MOST_CONFIG_BYTES).decode("utf-8-sig"))
        except UnicodeDecodeError:
            raise ConfigError(f"{path}: isn't UTF-8") from None
        except ValueError as fault:  # of TOML, or of a number that is too long
            raise ConfigError(f"{path}: {fault}") from None
        except RecursionError:
            raise ConfigError(f"{path}: has too many lists within lists") from None
        try:
            return cls.of(found, path.parent)
        except ConfigError as fault:
            raise ConfigError(f"{path}: {fault}") from None

    @classmethod
    def of(cls, table: dict[str, Any], folder: pathlib.Path = pathlib.Path()) -> Self:
        """The day of a table, as TOML has it, beside the files that it names. Raises ConfigError.
        """
        fields = Fields("", table)
        default = cls()
        rows, rounds = fields.tables("instrument"), fields.tables("round")
        found = cls(
            title=fields.text("title", default.title, TITLE),
            language=fields.choice("language", PAGE_LANGUAGES, default.language),
            is_synced=fields.flag("sync", default.is_synced),
            reserve=fields.whole("reserve", default.reserve, 1, 1000),
            plan=plan_from(Fields("phases", fields.table("phases"))),
            members=members_from(Fields("members", fields.table("members"))),
            instruments=tuple(map(instrument_from, rows)) or default.instruments,
            payoff=payoff_from(Fields("payoff", fields.table("payoff"))),
            rounds=rounds_from(rounds, folder) or default.rounds,
            bounds=bounds_from(Fields("limits", fields.table("limits"))),
            fix=fix_from(fields),
        )
        fields.ended()
        check_members(found)
        check_rounds(found, [table.get("file", "") for table in rounds])
        fields.left = {"instrument": [it.name for it in found.instruments]}
        fields.names("instrument")  # each once
        for it in found.instruments:
            if it.calls <= found.reserve:
                why = f"{it.calls} is no more than reserve {found.reserve}: members have none"
                raise Fields(f"instrument {it.name}", {}).fault("calls", why)
        return found


def check_rounds(day: DayTerms, files: list[str]) -> None:
    """Raises ConfigError where a round can't be one of an instrument of the day, or a row of its
    list, in one of these files, is of a round that has another one.
    """
    has_several = len(day.instruments) > 1
    for number, treatment in enumerate(day.rounds, 1):
        where, of_instrument = f"round {number}: ", ""
        try:
            check_rounds_of_rows(day, treatment.rule.rows)
            for it in day.instruments:
                of_instrument = f"{it.name}: " * has_several
                it.check(treatment)
        except ListError as fault:
            where += f"file {files[number - 1]}: {fault.where}: "
            raise ConfigError(f"{where}{of_instrument}{fault}") from None
        except HandError as fault:
            raise ConfigError(f"{where}{of_instrument}{fault}") from None


def check_rounds_of_rows(day: DayTerms, rows: tuple[ListedValue, ...]) -> None:
    """Raises ListError where a row is of a round that doesn't have this list."""
    for row in rows:
        if row.round is not None and day.treatment(row.round).rule.rows != rows:
            raise ListError(f"round {row.round} has another list, or none", row)


def fix_from(fields: Fields) -> FixTerms | None:
    """The FIX front, None where the day has none. Raises ConfigError."""
    return terms_from(fields.table("fix")) if fields.has("fix") else None


def check_members(day: DayTerms) -> None:
    """Raises ConfigError where nobody can be a member of a day, or not all members by FIX."""
    if not day.members.is_open and not day.members.names and day.fix is None:
        raise Fields("members", {}).fault("open", "is false, and there are no names")
    sessions = Fields("fix", {})
    names = {*day.members.names, *(day.fix.sessions.values() if day.fix else ())}
    check_names(sessions, tuple(names))
    if len(names) > day.members.most:
        why = f"and members have {len(names)} names, more than {day.members.most}"
        raise sessions.fault("sessions", why)


def plan_from(fields: Fields) -> Plan:
    """The lengths of the phases. Raises ConfigError."""
    default = Plan()
    found = Plan(
        call=fields.whole("call", default.call, 0, MOST_CALL_SECONDS),
        random_end=fields.whole("random_end", default.random_end, 0, MOST_CALL_SECONDS),
        extension=fields.whole("extension", default.extension, 0, MOST_CALL_SECONDS),
        is_automatic=fields.flag("automatic", default.is_automatic),
    )
    fields.ended()
    return found


def members_from(fields: Fields) -> MemberTerms:
    """Who may be a member. Raises ConfigError."""
    default = MemberTerms()
    found = MemberTerms(
        is_open=fields.flag("open", default.is_open),
        code=code_from(fields, default.code),
        names=fields.names("names"),
        most=fields.whole("most", default.most, 1, 10_000),
        joins=fields.whole("joins", default.joins, 0, 10_000),
        rate=fields.number("rate", default.rate, MOST_RATE),
        burst=fields.whole("burst", default.burst, 1, 100_000),
        group=fields.whole_or_none("group", 2, MOST_TRADERS),
    )
    fields.ended()
    check_names(fields, found.names)
    if len(found.names) > found.most:
        raise fields.fault("names", f"has {len(found.names)} names, more than {found.most}")
    return found


def code_from(fields: Fields, default: str) -> str:
    """The code of the day, empty for one that is made. Raises ConfigError where it is so short that
    it could be guessed.
    """
    found = fields.text("code", default).strip().upper()
    if found and len(found) < LEAST_CODE:
        why = f"{found!r} has fewer than {LEAST_CODE} letters and could be guessed: \"\" makes one"
        raise fields.fault("code", why)
    return found


def check_names(fields: Fields, names: tuple[str, ...]) -> None:
    """Raises ConfigError where a name can't be read, or is taken for another one or for a role."""
    seen: dict[str, str] = {}
    for name in names:
        if not is_seen(name) or is_role(name):
            raise fields.fault("names", f"{name!r} can't be read, or is a role's name")
        if (other := seen.setdefault(folded(name), name)) != name:
            raise fields.fault("names", f"has two that look alike: {other!r}, {name!r}")


def instrument_from(table: dict[str, Any]) -> InstrumentTerms:
    """An instrument. Raises ConfigError."""
    fields = Fields("instrument", table)
    default = InstrumentTerms()
    name = fields.text("name", default.name, INSTRUMENT_NAME)
    fields.where = f"instrument {name}: "
    size = fields.decimal("tick_size")
    if size is not None and size <= 0:
        raise fields.fault("tick_size", f"{size} isn't above 0")
    grid = default.grid if size is None else Grid(size)
    found = InstrumentTerms(
        name=name,
        title=fields.text("title", default.title, TITLE),
        grid=grid,
        currency=fields.text("currency", default.currency),
        low=tick_from(fields, grid, "low", default.low),
        high=tick_from(fields, grid, "high", default.high),
        reference=tick_from(fields, grid, "reference", default.reference),
        range=tick_from(fields, grid, "range", -1),
        open=fields.whole("open", default.open, 1, MOST_OPEN),
        calls=fields.whole("calls", default.calls, 1, MOST_CALLS),
        most_quantity=fields.whole("most_quantity", MOST_QUANTITY, 1, MOST_QUANTITY),
        uncovered_bought=tick_from(fields, grid, "uncovered_bought", 0),
        uncovered_sold=tick_from(fields, grid, "uncovered_sold", -1),
    )
    fields.ended()
    if found.uncovered_sold == -1:
        found = dataclasses.replace(found, uncovered_sold=None)
    check_prices(fields, found)
    return found if found.range != -1 else dataclasses.replace(found, range=None)


def check_prices(fields: Fields, found: InstrumentTerms) -> None:
    """Raises ConfigError where the prices of an instrument don't go together."""
    price, (bought, sold) = found.price, (found.uncovered.bought, found.uncovered.sold)
    if bought > sold:
        why = f"{price(sold)} is below uncovered_bought {price(bought)}"
        raise fields.fault("uncovered_sold", why)
    if found.low < 1:
        raise fields.fault("low", f"{price(found.low)} is below the tick size")
    for name, most in (("low", found.reference), ("reference", found.high)):
        if (tick := getattr(found, name)) > most:
            above = "reference" if name == "low" else "high"
            raise fields.fault(name, f"{price(tick)} is above {above} {price(most)}")
    if (count := found.high - found.low + 1) > MOST_TICKS:
        why = f"{price(found.high)} is {count} ticks from low {price(found.low)} on, and a day has"
        raise fields.fault("high", f"{why} at most {MOST_TICKS}: a greater tick_size has fewer")


def tick_from(fields: Fields, grid: Grid, name: str, default: int) -> int:
    """The tick of a price. Raises ConfigError where it isn't on the grid."""
    found = fields.decimal(name)
    if found is None:
        return default
    if found < 0:
        raise fields.fault(name, f"{found} is below 0")
    try:
        tick = grid.tick(found)
    except BadCellError as fault:
        raise fields.fault(name, f"{found} {fault}") from None
    if tick > MOST_TICK:
        why = f"{found} is tick {tick}, and the greatest is {MOST_TICK}: take a greater tick_size"
        raise fields.fault(name, why)
    return tick


def payoff_from(fields: Fields) -> PayoffTerms:
    """What members are paid. Raises ConfigError."""
    default = PayoffTerms()
    base, rate = fields.decimal("base"), fields.decimal("rate")
    found = PayoffTerms(
        base=default.base if base is None else base,
        rate=default.rate if rate is None else rate,
        currency=fields.text("currency", default.currency),
    )
    fields.ended()
    for name in ("base", "rate"):
        if (number := getattr(found, name)) < 0:
            raise fields.fault(name, f"{number} is below 0")
    return found


def rounds_from(tables: list[dict[str, Any]], folder: pathlib.Path) -> tuple[Treatment, ...]:
    """The rounds, whose lists of values are files of this folder. Raises ConfigError."""
    return tuple(
        treatment_from(Fields(f"round {number}", table), reader(folder))
        for number, table in enumerate(tables, 1)
    )


def reader(folder: pathlib.Path) -> Read:
    """What reads files of this folder."""

    def read(name: str) -> str:
        try:
            return owned.trusted(folder / name, MOST_CONFIG_BYTES).decode("utf-8")
        except OSError as fault:
            raise ConfigError(f"{name}: {fault.strerror}") from None
        except UnicodeDecodeError:
            raise ConfigError(f"{name}: isn't UTF-8") from None

    return read
