"""What the teacher does on its page beside the auction: rounds, messages, payoffs, members, the
door, robots; and what members and the screen see of it.
"""
import contextlib
import pathlib
from collections.abc import Iterator
from typing import Any

import pytest
import served
from browsing import SCREEN, Page, enters, joins, opened
from callauction.venue import Client
from conftest import FAST
from rounds import VALUES, trade

DAY = f"""
title = "Rounds"
{FAST}
[[round]]
title = "Warming up"
practice = true
values = "none"
[[round]]
title = "Open book"
book = "open"
covered = true
"""


@pytest.fixture(scope="module")
def lesson(tmp_path_factory: pytest.TempPathFactory) -> Iterator[dict[str, Any]]:
    """A venue with a member on its page, another one, the teacher and the beamer."""
    folder = tmp_path_factory.mktemp("lesson")
    with contextlib.ExitStack() as stack:
        venue = stack.enter_context(served.served(folder, DAY))
        found: dict[str, Any] = {"venue": venue, "folder": folder}
        for name, path, size in (("anna", "", (390, 844)),
                                 ("teacher", f"teacher#{venue.operator}", SCREEN),
                                 ("beamer", f"beamer#{venue.beamer}", SCREEN)):
            found[name] = stack.enter_context(opened(folder / name, venue.url + path, size))
        joins(found["anna"], venue.code, "Anna")
        found["bert"] = venue.join("Bert")
        yield found


def answers(page: Page, written: str = "") -> None:
    """Says yes to a question, perhaps with what it asks for."""
    page.waits(lambda it: it.shows("asking"))
    if written:
        page.types(**{"asking-field": written})
    page.clicks("#asking-yes")
    page.waits(lambda it: not it.shows("asking"))


def row_of(page: Page, name: str) -> list[str]:
    """The row of a member, empty where it has none."""
    return next((row for row in page.rows("members") if row[1] == name), [])


def test_what_a_round_is(lesson: dict[str, Any]) -> None:
    anna, beamer = lesson["anna"], lesson["beamer"]
    wanted = "Round 1 · Warming up · practice, it doesn't count. The book is closed."
    anna.waits(lambda it: it.text("round") == wanted)
    beamer.waits(lambda it: it.text("round").endswith("practice, it doesn't count"))


def test_a_message_to_all(lesson: dict[str, Any]) -> None:
    teacher = lesson["teacher"]
    teacher.clicks("#tab-settings")
    teacher.types(announced="Harvest is bad: fewer apples.")
    teacher.clicks("#announcing button")
    for name in ("anna", "beamer"):
        lesson[name].waits(lambda it: it.text("message") == "Harvest is bad: fewer apples.")
    teacher.types(announced="")
    teacher.clicks("#announcing button")
    lesson["anna"].waits(lambda it: not it.shows("message"))


def written(page: Page, *names: str) -> list[str]:
    """What is written in fields."""
    return [str(page.find(f"#{name}").get_attribute("value")) for name in names]


def test_values_begin_with_the_prices_of_the_instrument(lesson: dict[str, Any]) -> None:
    """In a round that has none."""
    teacher = lesson["teacher"]
    assert written(teacher, "how", "low", "high", "quantity") == ["chance", "0.01", "10.00", "100"]


def test_values_are_taken_away_after_a_question(lesson: dict[str, Any]) -> None:
    venue, teacher, anna = lesson["venue"], lesson["teacher"], lesson["anna"]
    teacher.clicks("#tab-values")
    teacher.types(low="4.00", high="3.00")
    teacher.clicks("#giving button")
    teacher.waits(lambda it: it.text("give-said") == "Low is above high.")
    teacher.types(low="3.00", high="3.00", quantity="1,000")
    teacher.clicks("#giving button")
    teacher.waits(lambda it: it.text("give-said") == "Values handed out: 2.")
    anna.waits(lambda it: "1,000 shares" in it.text("value"))
    teacher.types(quantity="50")
    teacher.clicks("#giving button")
    teacher.waits(lambda it: it.shows("asking"))
    teacher.clicks("#asking-no")
    assert venue.call("api/look/fills", token=lesson["bert"])[1]["value"]["quantity"] == 1000
    teacher.clicks("#giving button")
    answers(teacher)
    anna.waits(lambda it: "50 shares" in it.text("value"))
    venue.join("Carl")
    teacher.find("#whom").send_keys("those who have no value")
    teacher.clicks("#giving button")
    teacher.waits(lambda it: it.text("give-said") == "Values handed out: 1.")
    assert "50 shares" in anna.text("value")


PRICED = FAST + """
[[round]]
values = "chance"
low = "1.50"
high = "4.50"
quantity = 20
[[round]]
values = "schedule"
demand = ["5.00", "3.00"]
supply = ["1.00"]
[[round]]
"""


def test_values_begin_as_those_of_the_round(tmp_path: pathlib.Path) -> None:
    """What the teacher writes stays, until a round has prices of its own."""
    with served.served(tmp_path, PRICED) as venue:
        url = f"{venue.url}teacher#{venue.operator}"
        with opened(tmp_path / "teacher", url, SCREEN) as teacher:
            prices = ("how", "low", "high", "quantity")
            teacher.waits(lambda it: written(it, *prices) == ["chance", "1.50", "4.50", "20"])
            teacher.clicks("#tab-values")
            teacher.types(low="2.50")
            venue.do("message", text="Hello")
            teacher.waits(lambda it: it.find("#message").get_attribute("textContent") == "Hello")
            assert written(teacher, *prices) == ["chance", "2.50", "4.50", "20"]
            venue.do("next", round=2)
            steps = ("how", "demand", "supply", "quantity")
            wanted = ["schedule", "5.00 3.00", "1.00", "100"]
            teacher.waits(lambda it: written(it, *steps) == wanted)
            teacher.types(demand="4.00")
            venue.do("next", round=3)
            teacher.waits(lambda it: "Round 3" in str(
                it.find("#this-round").get_attribute("textContent")))
            assert written(teacher, "how", "demand") == ["schedule", "4.00"]


def test_the_next_round(lesson: dict[str, Any]) -> None:
    venue, teacher, anna = lesson["venue"], lesson["teacher"], lesson["anna"]
    teacher.clicks("[data-do=start]")
    anna.waits(lambda it: not it.is_off("#send"))
    assert teacher.is_off("#next-round")
    enters(anna, "bid", "10", "3.00")
    teacher.clicks("[data-do=uncross]")
    teacher.waits(lambda it: not it.is_off("#next-round"))
    teacher.clicks("#next-round")
    answers(teacher)
    anna.waits(lambda it: it.text("round") == (
        "Round 2 · Open book. Everybody sees the book. Orders on the other side than one's value, "
        "or of more shares than it has, are refused; its price is no limit."))
    anna.waits(lambda it: it.rows("orders") == [] and "50 shares" in it.text("value"))
    venue.do("give", values=[
        {"member": "Anna", "side": "bid", "price": "3.00", "quantity": 50},
        {"member": "Bert", "side": "ask", "price": "1.00", "quantity": 50}], to="all", replace=True)
    teacher.clicks("[data-do=start]")
    anna.waits(lambda it: not it.is_off("#send"))
    with Client(venue.url, lesson["bert"]) as bert:
        bert.enter("ask", 20, "2.00")
    for name in ("anna", "beamer"):
        lesson[name].waits(lambda it: it.shows("booking") and "supply" in it.text("book"))
    teacher.clicks("#tab-settings")
    assert teacher.text("shows-open").startswith("In this round everybody sees the book")
    anna.clicks("input[value=bid]")
    anna.types(quantity="51", price="3.00")
    anna.clicks("#send")
    anna.waits(lambda it: it.text("said").startswith("Your value doesn't cover these shares"))
    enters(anna, "bid", "30", "2.50")
    teacher.clicks("[data-do=uncross]")
    anna.waits(lambda it: it.text("own-result") == "You bought 20 at 2.50.")
    anna.waits(lambda it: "30 of them are left. Your gain: 10.00 EUR" in it.text("value"))


def test_payoffs(lesson: dict[str, Any]) -> None:
    teacher, anna, beamer = lesson["teacher"], lesson["anna"], lesson["beamer"]
    beamer.waits(lambda it: it.rows("ranking")[:2] == [
        ["1", "Bert", "30.00"], ["2", "Anna", "10.00"]])
    assert beamer.text("predicted") == "By the values: price 1.00 to 3.00, volume 50"
    assert not anna.shows("payoff")
    teacher.clicks("#tab-settings")
    teacher.clicks("input[name=payoffs][value=own]")
    anna.waits(lambda it: it.text("paid") == "You are paid 10.00 EUR")
    assert anna.text("place") == ""
    teacher.clicks("input[name=payoffs][value=ranking]")
    anna.waits(lambda it: it.text("place") == "Place 2 of 3")
    assert "Round 2 · Open book: 10.00" in anna.text("gains")
    least = "A payoff is never below 0."
    assert least in anna.text("payoff") and least in teacher.text("paying")
    beamer.waits(lambda it: "Ranking" in it.text("placing"))


def test_members_are_renamed_and_removed(lesson: dict[str, Any]) -> None:
    teacher, anna = lesson["teacher"], lesson["anna"]
    teacher.clicks("#tab-class")
    teacher.clicks("[aria-label='Rename: Anna']")
    answers(teacher, "Anna B.")
    anna.waits(lambda it: it.text("who") == "Anna B.")
    teacher.clicks("[aria-label='Remove: Anna B.']")
    answers(teacher)
    anna.waits(lambda it: it.shows("join"))
    assert anna.text("join-said").startswith("You aren't known here any more")
    teacher.waits(lambda it: row_of(it, "Anna B.")[2:3] == ["removed"])
    teacher.clicks("[aria-label='Readmit: Anna B.']")
    teacher.waits(lambda it: len(row_of(it, "Anna B.")[5]) == 6)
    joins(anna, row_of(teacher, "Anna B.")[5], "Anna B.")
    anna.waits(lambda it: "50 shares" in it.text("value"))


SCREEN_COUNTS = """
return ["count", "robots"].map((id) => document.getElementById(id).textContent.trim())
"""
"""How many have joined, as the screen says it, and how many robots there are."""


def test_the_door_and_robots(lesson: dict[str, Any]) -> None:
    venue, teacher = lesson["venue"], lesson["teacher"]
    code = venue.code
    teacher.clicks("#door")
    teacher.waits(lambda it: it.text("door") == "Open joining")
    status, found = venue.call("api/join", {"code": code, "name": "Dora"})
    assert (status, found["error"]) == (403, "joining_closed")
    teacher.clicks("#door")
    teacher.waits(lambda it: it.text("door") == "Close joining")
    teacher.clicks("#day-code")
    teacher.waits(lambda it: code not in it.text("codes"))
    teacher.types(robots="3")
    teacher.clicks("#robot-form button")
    teacher.waits(lambda it: len(it.rows("members")) == 6)
    assert teacher.text("count") == "3 members, 1 here, 3 robots"
    lesson["beamer"].waits(lambda it: it.runs(SCREEN_COUNTS) == ["3", "· 3 robots"])
    assert not teacher.shows("robots-help"), "they bid by chance"
    teacher.find("#robot-kind").send_keys("their values")
    teacher.clicks("#robot-form button")
    teacher.waits(lambda it: it.shows("robots-help"))
    teacher.clicks("#no-robots")
    teacher.waits(lambda it: teacher.text("count") == "3 members, 1 here")
    assert len(teacher.rows("members")) == 3 and not teacher.shows("robots-help")
    assert all(lesson[name].errors() == [] for name in ("anna", "teacher", "beamer"))


def test_numbers_stay_where_the_language_changes(lesson: dict[str, Any]) -> None:
    teacher = lesson["teacher"]
    written = {"low": "1,234.500", "quantity": "1,000", "demand": "5.125 1,000;4", "high": "x.5"}
    german = {"low": "1234,500", "quantity": "1000", "demand": "5,125 1000;4", "high": "x.5"}
    fill = "for (const id in arguments[0]) document.getElementById(id).value = arguments[0][id]"
    read = "return arguments[0].map((id) => document.getElementById(id).value)"
    before = teacher.runs(read, [*written])
    teacher.runs(fill, written)
    teacher.clicks("#language")
    assert teacher.runs(read, [*written]) == [*german.values()]
    teacher.clicks("#language")
    assert teacher.runs(read, ["low", "demand"]) == ["1234.500", "5.125 1000;4"]
    teacher.runs(fill, dict(zip(written, before)))


def test_a_round_of_ones_own(lesson: dict[str, Any]) -> None:
    teacher, anna = lesson["teacher"], lesson["anna"]
    teacher.clicks("#tab-rounds")
    assert teacher.text("next-head") == "Round 3, the next one"
    teacher.types(**{
        "next-title": "Shock", "next-reference": "4.50", "next-message": "Prices rise.",
        "next-call": "1,000", "next-shares": "1.000"})
    teacher.clicks("#begin-next")
    teacher.waits(lambda it: it.text("next-said").startswith("Shares of each at first: “1.000”"))
    teacher.types(**{"next-shares": "1,000"})
    teacher.clicks("#begin-next")
    answers(teacher)
    anna.waits(lambda it: it.text("round").startswith("Round 3 · Shock."))
    assert "Each may sell 1,000 shares at most." in anna.text("round")
    anna.waits(lambda it: "Reference\n4.50" in it.text("figures"))
    assert anna.text("message") == "Prices rise."


def test_no_earlier_crossing_stays(lesson: dict[str, Any]) -> None:
    """Until the books of an auction have come, which may take a while on a busy machine."""
    venue, beamer = lesson["venue"], lesson["beamer"]
    driver: Any = beamer.driver
    driver.execute_cdp_cmd("Network.enable", {})
    driver.execute_cdp_cmd("Network.setBlockedURLs", {"urls": ["*/api/replay/*"]})
    venue.do("start")
    with Client(venue.url, lesson["bert"]) as bert:
        bert.enter("ask", 5, "4.40")
    lesson["anna"].waits(lambda it: not it.is_off("#send"))
    enters(lesson["anna"], "bid", "5", "4.40")
    venue.do("uncross")
    beamer.waits(lambda it: it.text("result") == "4.40")
    assert beamer.text("crossing") == "It is being made …"
    driver.execute_cdp_cmd("Network.setBlockedURLs", {"urls": []})
    beamer.waits(lambda it: "4.40" in it.text("crossing"))


def test_an_auction_without_a_price_is_no_success(lesson: dict[str, Any]) -> None:
    """By its colour, for the teacher as for members."""
    venue, looks = lesson["venue"], []
    colour = "return getComputedStyle(document.getElementById('result')).color"
    lesson["teacher"].clicks("#tab-auction")
    for name in ("teacher", "anna"):
        lesson[name].waits(lambda it: it.text("result").startswith("Opening auction: price 4.40"))
        looks.append(lesson[name].runs(colour))
    venue.do("start")
    venue.do("uncross")
    said = "Intraday auction: no price, nothing was executed"
    for name, before in zip(("teacher", "anna"), looks):
        lesson[name].waits(lambda it: it.text("result") == said)
        assert lesson[name].runs(colour) != before


def test_the_side_of_a_new_value(lesson: dict[str, Any]) -> None:
    """It is chosen, whatever was chosen for the value before; and stays what is chosen then."""
    venue, anna = lesson["venue"], lesson["anna"]
    value = {"member": "Anna B.", "price": "3.00", "quantity": 50}
    for side, other, price in (("ask", "bid", "3.00"), ("bid", "ask", "2.00")):
        venue.do("give", values=[value | {"side": side, "price": price}], replace=True)
        anna.waits(lambda it, price=price: f"{price} EUR" in it.text("value"))
        assert anna.find(f"input[value={side}]").is_selected()
        anna.clicks(f"input[value={other}]")
        venue.do("give", values=[value | {"side": side, "price": "4.00"}], replace=True)
        anna.waits(lambda it: "4.00 EUR" in it.text("value"))
        assert anna.find(f"input[value={other}]").is_selected()


def test_all_who_are_away_are_removed(lesson: dict[str, Any]) -> None:
    """As names that somebody has made up."""
    venue, teacher, anna = lesson["venue"], lesson["teacher"], lesson["anna"]
    code = venue.do("code")["code"]
    for number in range(20):
        venue.join(f"Nobody {number}", code)
    venue.do("robots", kind="zero", count=1)
    teacher.clicks("#tab-class")
    teacher.waits(lambda it: it.text("count").startswith("23 members, 1 here"))
    teacher.clicks("#remove-away")
    answers(teacher)
    teacher.waits(lambda it: it.text("count") == "1 member, 1 here, 1 robot")
    assert not teacher.shows("remove-away") and anna.text("who") == "Anna B."


def test_a_file_of_values(lesson: dict[str, Any], tmp_path: pathlib.Path) -> None:
    """One in other letters than UTF-8 is refused: its names would be wrong."""
    venue, teacher, path = lesson["venue"], lesson["teacher"], tmp_path / "values.csv"
    venue.join("Jürgen", venue.do("code")["code"])
    teacher.clicks("#tab-values")
    teacher.find("#how").send_keys("from a file with names")
    for letters, said in (("cp1252", "The file isn't UTF-8"), ("utf-8", "Values handed out: 1.")):
        path.write_bytes("name;side;price;quantity\nJürgen;bid;4,10;3\n".encode(letters))
        teacher.find("#file").send_keys(str(path))
        teacher.clicks("#giving button")
        teacher.waits(lambda it, said=said: it.text("give-said").startswith(said))


def test_members_with_names_that_javascript_has(lesson: dict[str, Any]) -> None:
    """None has a code of its own, and none is shown as a function."""
    venue, teacher = lesson["venue"], lesson["teacher"]
    names = ["constructor", "__proto__", "toString", "hasOwnProperty"]
    code = venue.do("code")["code"]
    for name in names:
        venue.join(name, code)
    teacher.clicks("#tab-class")
    teacher.waits(lambda it: all(row_of(it, name) for name in names))
    assert [row_of(teacher, name)[5] for name in names] == [""] * len(names)
    assert not any("function" in cell for row in teacher.rows("members") for cell in row)


HALTS = {
    "the journal is an older one: it has 2 entries, and the log knows of 3": "halt_file",
    "the journal is missing, and the log knows of 3 entries": "halt_file",
    "the journal is a longer one: it has 4 entries, and the log knows of 3": "halt_file",
    "journal changed by others": "halt_file",
    "entry 3 of the journal is no message of the log": "halt_file",
    "/venue/XYZ.journal.csv may be written by other users: chmod go-w": "halt_rights",
    "/venue/XYZ.journal.csv belongs to another user: find out who, then chown": "halt_rights",
    "the venue's log can't be written: it was changed by others": "halt_file",
    "the venue's log can't be written: No space left on device": "halt_disk",
    "journal failed": "halt_disk",
    "journal in use": "halt_in_use",
    "the program hasn't answered for 10 s": "halt_hung",
    "the program hasn't begun for 10 s": "halt_hung",
    "the venue's log can't be written: it waits for the disk for more than 1 s": "halt_slow",
    "the program was ended by signal 9": "halt_program",
    "the program can't be run: No such file or directory": "halt_program",
}
READ = """
const [whys, settle] = arguments;
Promise.all([import("/pages/states.js"), import("/pages/common.js")]).then(([states, { text }]) =>
  settle(whys.map(([why, key]) => [states.haltText("Pears", why), text(key, text("resume"))])),
  (fault) => settle(String(fault)));
"""


def test_what_to_do_by_the_kind_of_a_halt(lesson: dict[str, Any]) -> None:
    found = lesson["teacher"].driver.execute_async_script(READ, [*HALTS.items()])
    assert found and all(
        said.startswith("Pears has halted: ") and said.endswith(f". {wanted}")
        for said, wanted in found
    ), found


def test_a_journal_that_is_put_back(lesson: dict[str, Any]) -> None:
    """Nobody is told to wait for what doesn't go on by itself."""
    teacher, anna = lesson["teacher"], lesson["anna"]
    teacher.clicks("#tab-auction")
    journal = max(lesson["folder"].glob("venue/XYZ*.journal.csv"))
    journal.rename(lesson["folder"] / "right")
    teacher.waits(lambda it: it.text("halts").endswith("right one back; then press “Try again”."))
    anna.waits(lambda it: it.text("next").startswith("No order is taken now. Wait for the teacher"))
    (lesson["folder"] / "right").rename(journal)
    teacher.clicks("[data-do=resume]")
    for page in (teacher, anna):
        page.waits(lambda it: "Halted" not in it.text("phase"))
        assert "No order" not in page.text("next")
    teacher.waits(lambda it: not it.shows("halts"))


def test_the_screen_says_how_many_shares_the_values_predict(tmp_path: pathlib.Path) -> None:
    """Values of 3.00 and 2.00, costs of 1.00 and 2.00, of 10 shares each, meet at 2.00: there 10
    gain, and 20 can be traded.
    """
    with served.served(tmp_path, FAST) as venue:
        tokens = [venue.join(name) for name in ("Anna", "Bert", "Carl", "Dora")]
        venue.do("give", how="schedule", demand=["3.00", "2.00"], supply=["1.00", "2.00"],
                 quantity=10)
        page = opened(tmp_path / "beamer", f"{venue.url}beamer#{venue.beamer}", SCREEN)
        with page as beamer, Client(venue.url, tokens[0]) as anna:
            venue.do("start")
            with Client(venue.url, tokens[1]) as bert:
                anna.enter("bid", 10, "2.00")
                bert.enter("ask", 10, "2.00")
                venue.do("uncross")
            beamer.waits(
                lambda it: it.text("predicted") == "By the values: price 2.00, volume 10 to 20")
            assert beamer.errors() == []


def test_who_joins_late_lacks_a_value(tmp_path: pathlib.Path) -> None:
    """The page says how many, and what to do, where others have one."""
    late = "Without a value: 1. Hand out values to those who have none."
    with served.served(tmp_path, FAST) as venue:
        for name in ("Anna", "Bert"):
            venue.join(name)
        with opened(tmp_path / "it", f"{venue.url}teacher#{venue.operator}", SCREEN) as teacher:
            teacher.clicks("#tab-class")
            teacher.waits(lambda it: len(it.rows("members")) == 2)
            assert not teacher.shows("lacking")
            venue.do("give", how="chance", low="1.00", high="3.00", quantity=10)
            venue.do("robots", count=1, kind="zero")
            teacher.waits(lambda it: len(it.rows("members")) == 3 and row_of(it, "Bert")[3] != "")
            venue.join("Carl")
            teacher.waits(lambda it: it.shows("lacking") and it.text("lacking") == late)
            venue.do("remove", member="Carl")
            teacher.waits(lambda it: not it.shows("lacking"))
            venue.join("Dora")
            teacher.waits(lambda it: it.shows("lacking") and it.text("lacking") == late)
            venue.do("give", how="chance", low="1.00", high="3.00", quantity=10, to="new")
            teacher.waits(lambda it: not it.shows("lacking"))
            assert "no value" not in row_of(teacher, "Dora")
            assert teacher.errors() == []


def places(page: Page) -> dict[str, str]:
    """The places of the members by their gains, by name."""
    return {row[1]: row[0] for row in page.rows("members")}


def test_who_was_removed_has_no_place(tmp_path: pathlib.Path) -> None:
    """The others move up, as on the screen."""
    carl = {"member": "Carl", "side": "bid", "price": "1.00", "quantity": 10}
    with served.served(tmp_path, FAST) as venue:
        anna, bert = venue.join("Anna"), venue.join("Bert")
        venue.join("Carl")
        venue.do("give", values=[*VALUES, carl])
        trade(venue, anna, bert, "2.10")
        gains = {"Bert": "6.00", "Anna": "4.00", "Carl": "0.00"}
        with opened(tmp_path / "it", f"{venue.url}teacher#{venue.operator}", SCREEN) as teacher:
            teacher.clicks("#tab-class")
            teacher.waits(lambda it: places(it) == {"Bert": "1", "Anna": "2", "Carl": "3"})
            venue.do("remove", member="Bert")
            teacher.waits(lambda it: places(it) == {"Bert": "", "Anna": "1", "Carl": "2"})
            assert {name: row_of(teacher, name)[4] for name in gains} == gains
            assert teacher.errors() == []
