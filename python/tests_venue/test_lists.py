"""Lists of values for a class of which nobody has joined yet, or not everybody."""
import pathlib
from typing import Any

import served
from browsing import SCREEN, opened
from conftest import FAST
from served import Served

CLASS = "name,side,price,quantity\nAnna Lee,ask,1.50,3\nEve,bid,2.00,4\n"
ANNA = {"side": "ask", "price": "1.50", "quantity": 3}
EVE = {"side": "bid", "price": "2.00", "quantity": 4}


def value(venue: Served, token: str) -> Any:
    """What a member's value is."""
    return venue.call("api/look/fills", token=token)[1]["value"]


def test_a_list_waits_for_those_who_join(venue: Served) -> None:
    found = venue.do("give", file=CLASS)
    assert (found["given"], found["absent"]) == (0, ["Anna Lee", "Eve"])
    assert value(venue, venue.join(" anna  lee")) == ANNA
    venue.do("start")
    assert value(venue, venue.join("Eve")) == EVE
    assert value(venue, venue.join("Zoe")) is None


def test_a_list_waits_beyond_a_kill_and_the_next_round(tmp_path: pathlib.Path) -> None:
    with served.served(tmp_path, FAST) as venue:
        venue.do("give", file=CLASS)
        anna = venue.join("Anna Lee")
        venue.child.kill()
        venue.child.wait()
        with served.served(tmp_path, FAST) as again:
            assert value(again, anna) == ANNA
            again.do("next", round=2)
            assert value(again, again.join("Eve")) == EVE
            again.do("next", round=3, treatment={"values": "none"})
            again.do("next", round=4)
            assert value(again, anna) is None


def test_a_list_gives_to_who_is_renamed(venue: Served) -> None:
    token = venue.join("Ann")
    venue.do("give", file=CLASS)
    assert value(venue, token) is None
    venue.do("rename", member="Ann", name="Anna Lee")
    assert value(venue, token) == ANNA
    venue.do("rename", member="Anna Lee", name="Eve")
    assert value(venue, token) == ANNA


def test_what_is_handed_out_later_takes_a_lists_place(venue: Served) -> None:
    venue.do("give", file=CLASS)
    venue.do("give", file="name,side,price,quantity\nEve,ask,3.00,5\n")
    assert value(venue, venue.join("Anna Lee")) == ANNA
    assert value(venue, venue.join("Eve"))["price"] == "3.00"
    venue.do("give", file="name,side,price,quantity\nZoe,ask,3.00,5\n")
    venue.do("give", low="2.00", high="2.00", quantity=1, replace=True)
    assert value(venue, venue.join("Zoe")) is None


def test_a_list_in_german_words(venue: Served) -> None:
    """As somebody writes it who has a German spreadsheet, and as the results are headed."""
    anna, eve = venue.join("Anna Lee"), venue.join("Eve")
    venue.do("give", file="\ufeffName;Seite;Preis;Stück\nAnna Lee;Verkauf;1,50;3\nEve;Kauf;2;4\n")
    assert [value(venue, it) for it in (anna, eve)] == [ANNA, EVE]
    text = "Runde;Name;Seite;Wert;Menge\n1;Anna Lee;verkauf;1,50;3\n2;Eve;kauf;9,00;4\n"
    assert venue.do("give", file=text, replace=True)["given"] == 1
    assert [value(venue, it) for it in (anna, eve)] == [ANNA, EVE]


def test_the_question_names_who_gets_and_who_keeps_a_value(
    tmp_path: pathlib.Path, venue: Served
) -> None:
    anna, bert = venue.join("Anna Lee"), venue.join("Bert")
    venue.join("Zoe")
    bert_too = CLASS + "Bert,ask,1.50,20\n"
    venue.do("give", file=bert_too)
    body = {"do": "give", "file": CLASS}
    status, refused = venue.call("api/operator", body, venue.operator)
    assert (status, refused["gets"], refused["keeps"]) == (409, ["Anna Lee"], ["Bert"])
    file = tmp_path / "values.csv"
    file.write_text("name,side,price,quantity\nAnna Lee,bid,2.00,1\nZoe,bid,2.00,1\n")
    url = f"{venue.url}teacher#{venue.operator}"
    with opened(tmp_path / "teacher", url, SCREEN) as teacher:
        teacher.clicks("#tab-values")
        teacher.find("#how").send_keys("from a file")
        teacher.waits(lambda it: it.shows("file"))
        teacher.find("#file").send_keys(str(file))
        teacher.clicks("#giving button")
        teacher.waits(lambda it: it.shows("asking"))
        assert teacher.text("asking-help") == (
            "New values: Anna Lee, Zoe. Their trades since all last got values count by these. "
            "Keep theirs: Bert.")
        teacher.clicks("#asking-yes")
        teacher.waits(lambda it: it.text("give-said").startswith("Values handed out: 2."))
    assert value(venue, anna)["price"] == "2.00" and value(venue, bert)["quantity"] == 20


def test_a_round_has_one_value_of_a_name(venue: Served) -> None:
    """A name may be there once for each round."""
    anna = venue.join("Anna Lee")
    text = "name,side,price,quantity,round\nAnna Lee,ask,1.50,3,1\nAnna Lee,bid,9.00,4,2\n"
    assert venue.do("give", file=text)["given"] == 1 and value(venue, anna) == ANNA


def test_a_list_with_a_decimal_comma_between_commas_is_refused(venue: Served) -> None:
    venue.join("Bob")
    body = {"do": "give", "file": "name,side,price,quantity\nBob,ask,1,50,100\n"}
    status, found = venue.call("api/operator", body, venue.operator)
    assert (status, found["error"]) == (400, "bad_message")
    assert found["text"] == "line 2: '100' is in no column: decimal commas need semicolons"
