"""Auctions of days with continuous trading from the command line: books and what was published, in
two files or one, one auction or many.
"""
import csv
import json
from pathlib import Path

import pandas
import pytest
from callauction.__main__ import main
from one_auction import Auction, Market

TERMS = ["--tick-size", "0.01"]


def published_of(auction: Auction) -> pandas.DataFrame:
    """What was published of an auction as rows."""
    cells = {name: it for name, it in auction.published.items() if name != "trades"}
    made = auction.published["trades"].assign(event="trade")
    return pandas.concat([pandas.DataFrame([{"event": "uncross", **cells}]), made])


def written(auctions: dict[str, Auction], folder: Path) -> list[str]:
    """The files of auctions by their names: the words that audit them."""
    books = [it.book.assign(id=name) for name, it in auctions.items()]
    results = [published_of(it).assign(id=name) for name, it in auctions.items()]
    pandas.concat(books).to_csv(folder / "book.csv", index=False)
    pandas.concat(results).to_csv(folder / "published.csv", index=False)
    days = [{"id": name, "reference": it.reference} for name, it in auctions.items()]
    pandas.DataFrame(days).to_csv(folder / "days.csv", index=False)
    return ["audit-auction", str(folder / "book.csv"), *TERMS, "--published",
            str(folder / "published.csv"), "--by", "id", "--days", str(folder / "days.csv")]


def auctions_of(*seeds: int) -> dict[str, Auction]:
    return {
        f"{seed}-{place}": auction
        for seed in seeds
        for place, auction in enumerate(Market(seed).auctions())
    }


@pytest.mark.parametrize("seed", range(0, 60, 12))
def test_of_many_auctions_each_has_its_own_verdict(
    seed: int, tmp_path: Path, capsys: pytest.CaptureFixture[str]
) -> None:
    """Each has the verdict that it has by itself; a wrong volume is one finding of its own."""
    auctions = auctions_of(*range(seed, seed + 12))
    rows = tmp_path / "rows.csv"
    words = [*written(auctions, tmp_path), "-o", str(rows)]
    assert main(words) in (0, 5), capsys.readouterr()
    found = {it["instrument"]: it["verdict"] for it in csv.DictReader(rows.read_text().split("\n"))}
    alone = {name: it.audit(tick_size="0.01").word for name, it in auctions.items()}
    assert found == alone
    name = next(it for it in auctions if "volume" in auctions[it].published)
    auctions[name].published["volume"] += 1
    assert main([*written(auctions, tmp_path), "--json"]) == 4
    lines = [json.loads(it) for it in capsys.readouterr().out.splitlines() if it[0] == "{"]
    wrong = [it["instrument"] for it in lines if it["verdict"] == "unlawful"]
    assert wrong == [name] and [it["findings"] for it in lines if it["instrument"] == name] == [1]


def first_auction() -> Auction:
    """An auction with trades, whose orders have times and sequences."""
    for seed in range(100):
        for auction in Market(seed).auctions():
            if len(auction.published["trades"]) > 2 and "volume" in auction.published:
                return auction
    raise LookupError


def test_one_auction_in_two_files_or_in_one(
    tmp_path: Path, capsys: pytest.CaptureFixture[str]
) -> None:
    auction = first_auction()
    auction.book.to_csv(tmp_path / "book.csv", index=False)
    published_of(auction).to_csv(tmp_path / "published.csv", index=False)
    terms = [*TERMS, "--reference", auction.reference]
    files = [str(tmp_path / "book.csv"), "--published", str(tmp_path / "published.csv")]
    assert main(["audit-auction", *files, *terms]) == 5
    out = capsys.readouterr().out
    assert out.splitlines()[0] == "findings 0" and "counts 0 of 1\n" in out
    book = auction.book.rename(columns={"open": "quantity"}).assign(event="new")
    pandas.concat([book, published_of(auction)]).to_csv(tmp_path / "all.csv", index=False)
    assert main(["audit-auction", str(tmp_path / "all.csv"), *terms]) == 5
    assert capsys.readouterr().out == out
    trades = auction.published["trades"]
    trades.loc[trades.index[0], "quantity"] += 1
    published_of(auction).to_csv(tmp_path / "published.csv", index=False)
    assert main(["audit-auction", *files, *terms, "--explain"]) == 4
    name = auction.published["auction"]
    assert capsys.readouterr().out.startswith(f"row 3 of published.csv, {name}: trade: ")


def test_an_auction_without_its_result_is_a_fault(
    tmp_path: Path, capsys: pytest.CaptureFixture[str]
) -> None:
    auctions = auctions_of(1, 2)
    words = written(auctions, tmp_path)
    path = tmp_path / "published.csv"
    frame = pandas.read_csv(path, dtype="str")
    frame[(frame["id"] != "1-0") | (frame["event"] != "uncross")].to_csv(path, index=False)
    assert main(words) == 5
    said = "1-0, it has 0 rows uncross, and not one: --published FILE says what was published of it"
    assert said in capsys.readouterr().err


def test_an_order_of_one_auction_alone_needs_the_auction(
    tmp_path: Path, capsys: pytest.CaptureFixture[str]
) -> None:
    book = tmp_path / "book.csv"
    book.write_text(
        "order,side,limit,open,only\nA,bid,10.00,5,closing\nB,ask,10.00,5,\n", encoding="utf-8"
    )
    published = tmp_path / "published.csv"
    published.write_text("price,volume,surplus,side\n10.00,5,0,none\n")
    words = ["audit-auction", str(book), "--published", str(published), "--reference", "10"]
    words += ["--tick-size", "0.01"]
    assert main(words) == 2
    assert capsys.readouterr().err.endswith("say which auction this is\n")
    assert main([*words, "--auctions", "closing"]) == 5
    assert "volumes 1 of 1" in capsys.readouterr().out
    assert main([*words, "--auctions", "opening"]) == 4


def test_sequences_of_a_book_are_numbers(
    tmp_path: Path, capsys: pytest.CaptureFixture[str]
) -> None:
    """Number 9 was before number 10, whatever their texts are."""
    (tmp_path / "book.csv").write_text(
        "order,side,price,quantity,sequence,time\nB,bid,10,5,10,09:00\nA,bid,10,5,9,09:00\n"
        "S,ask,10,5,11,09:00\n"
    )
    (tmp_path / "published.csv").write_text(
        "event,price,volume,surplus,side,auction,trades,bid,ask,quantity,time\n"
        "uncross,10,5,5,bid,opening,1,,,,09:00\ntrade,10,,,,,,A,S,5,09:00\n"
    )
    files = [str(tmp_path / "book.csv"), "--published", str(tmp_path / "published.csv")]
    words = ["audit-auction", *files, "--reference", "10", "--tick-size", "1"]
    assert main(words) == main([*words, "--sort"]) == 0


def test_columns_of_one_file_may_have_other_names(
    tmp_path: Path, capsys: pytest.CaptureFixture[str]
) -> None:
    """The book is another system's; what was published has our names."""
    (tmp_path / "book.csv").write_text(
        "Id;BS;Limit;Open\nA;K;10,00;5\nB;V;10,00;5\n", encoding="utf-8"
    )
    (tmp_path / "published.csv").write_text(
        "event;price;volume;surplus;side;auction;trades;bid;ask;quantity\n"
        "uncross;10,00;5;0;none;opening;1;;;\ntrade;10,00;;;;;;A;B;5\n"
    )
    words = ["audit-auction", str(tmp_path / "book.csv"), "--reference", "10", "--tick-size", "1",
             "--published", str(tmp_path / "published.csv"), "--separator", ";", "--decimal", ",",
             "--values", "side:K=bid,V=ask", "--columns"]  # fmt: skip
    assert main([*words, "order=Id,side=BS,price=Limit,quantity=Open"]) == 0
    capsys.readouterr()
    assert main([*words, "order=Id,side=BS,price=Limit,quantity=Open,event=Typ"]) == 1
    assert capsys.readouterr().err == "callauction: columns: no file has a column 'Typ'\n"


def test_a_short_line_of_a_file_is_a_bad_row(
    tmp_path: Path, capsys: pytest.CaptureFixture[str]
) -> None:
    auction = first_auction()
    auction.book.to_csv(tmp_path / "book.csv", index=False)
    published_of(auction).to_csv(tmp_path / "published.csv", index=False)
    with open(tmp_path / "book.csv", "a", encoding="utf-8") as file:
        file.write("end of the book\n")
    files = [str(tmp_path / "book.csv"), "--published", str(tmp_path / "published.csv")]
    assert main(["audit-auction", *files, *TERMS, "--reference", auction.reference]) == 5
    printed = capsys.readouterr()
    assert f"row {len(auction.book) + 2} of book.csv: has 1 fields" in printed.err
    assert printed.out.startswith("rows not read 1\nfindings 0\n")
