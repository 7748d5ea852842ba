"""Messages, as the venue reads them and as schema.json has them for others."""
from typing import Any

import pytest
from callauction.venue import messages
from callauction.venue.config import InstrumentTerms
from callauction.venue.messages import MessageError
from hypothesis import given, settings
from hypothesis import strategies as st
from schemas import SCHEMA, SENT

TERMS = InstrumentTerms(most_quantity=1000)
ENTER: dict[str, Any] = {
    "type": "enter", "number": 1, "side": "bid", "quantity": 5, "price": "2.00"
}


@pytest.mark.parametrize(
    "message, record",
    [
        (ENTER, "enter,bid,5,200"),
        (ENTER | {"price": "market", "side": "ask"}, "enter,ask,5,market"),
        (ENTER | {"peak": 2}, "enter,bid,5,200,2"),
        (ENTER | {"peak": 2, "only": "opening"}, "enter,bid,5,200,2,opening"),
        (ENTER | {"only": "closing"}, "enter,bid,5,200,,closing"),
        (ENTER | {"quantity": 0}, "enter,bid,0,200"),
        (ENTER | {"price": "0"}, "enter,bid,5,0"),
        ({"type": "change", "number": 2, "order": 7, "quantity": 9, "price": "1.5"},
         "change,7,9,150"),
        ({"type": "delete", "number": 3, "order": 7}, "delete,7"),
    ],
)
def test_a_message_is_a_record(message: dict[str, Any], record: str) -> None:
    SENT.validate(message)
    assert messages.order_of(TERMS, message).record == record


@pytest.mark.parametrize(
    "change, code",
    [
        ({"number": 0}, "bad_message"),
        ({"number": True}, "bad_message"),
        ({"number": 1.5}, "bad_message"),
        ({"number": 2**53}, "bad_message"),
        ({"side": "buy"}, "bad_message"),
        ({"quantity": -1}, "bad_message"),
        ({"quantity": "5"}, "bad_message"),
        ({"price": 2.0}, "bad_message"),
        ({"price": "-2.00"}, "bad_message"),
        ({"price": "2,00"}, "bad_message"),
        ({"only": "intraday"}, "bad_message"),
        ({"peak": "1"}, "bad_message"),
        ({"member": 3}, "bad_message"),
        ({"order": 3}, "bad_message"),
        ({"price": "2.005"}, "bad_price"),
        ({"price": "9" * 30}, "bad_price"),
        ({"quantity": 1001}, "above_limit"),
    ],
)
def test_each_fault_of_a_message(change: dict[str, Any], code: str) -> None:
    with pytest.raises(MessageError) as found:
        messages.order_of(TERMS, ENTER | change)
    assert found.value.code == code
    is_of_form = SENT.is_valid(ENTER | change)
    assert is_of_form == (code != "bad_message")


@pytest.mark.parametrize("text", ["", "[]", "{", '"enter"', "{}", '{"type": 3}', "[" * 2000,
                                  '{"type": "enter", "a": "' + "x" * 5000 + '"}'])
def test_what_is_no_message(text: str) -> None:
    with pytest.raises(MessageError):
        messages.message_in(text)


@pytest.mark.parametrize("key", ["side", "member", "\\ud800"])
def test_a_key_that_is_there_twice(key: str) -> None:
    """Each reader would take another of the two."""
    with pytest.raises(MessageError, match="' is there twice$") as found:
        messages.message_in('{"type":"enter","a":[{"%s":"bid","%s":"ask"}]}' % (key, key))
    found.value.text.encode("utf-8")


KINDS: st.SearchStrategy[Any] = st.sampled_from(["enter", "change", "delete"])
FIELDS: dict[str, st.SearchStrategy[Any]] = {
    "number": st.sampled_from([0, 1, 2**53 - 1, 2**53, "1", None]),
    "side": st.sampled_from(["bid", "ask", "none"]),
    "quantity": st.sampled_from([0, 1000, 2**32 - 1, 2**32, -1, None]),
    "price": st.sampled_from(["market", "2", "2.05", "", ".5", "1e3", 3]),
    "order": st.sampled_from([0, 7, 2**32, "7"]),
    "peak": st.sampled_from([None, 1, -1]),
    "only": st.sampled_from(["", "opening", "x"]),
    "instrument": st.just("XYZ"),
}


@settings(max_examples=1000, deadline=None)
@given(st.fixed_dictionaries({"type": KINDS}, optional=FIELDS))
def test_the_schema_takes_what_the_venue_takes(message: dict[str, Any]) -> None:
    try:
        messages.order_of(InstrumentTerms(most_quantity=2**32 - 1), message)
        is_taken = True
    except MessageError as fault:
        is_taken = fault.code != "bad_message"
    assert is_taken == SENT.is_valid(message)


def test_the_schema_has_all_errors() -> None:
    assert set(SCHEMA["$defs"]["error"]["properties"]["error"]["enum"]) == set(messages.ERRORS)
