"""The lessons run, and the exercises and their solutions are checked."""
import io
import json
import re
from pathlib import Path

import nbformat
import pandas
import pytest
from nbclient.client import NotebookClient
from printed import TOP

FOLDER = TOP / "python/notebooks"
PRICE, DESIGN = FOLDER / "how_a_price_is_found.ipynb", FOLDER / "how_an_auction_is_designed.ipynb"
FOLDED = re.compile(r"<details><summary>(.*?)</summary>\n\n```python\n(.*?)```", re.S)


def folded(read: nbformat.NotebookNode) -> list[str]:
    """The code that is folded away, in its order."""
    texts = [cell.source for cell in read.cells if cell.cell_type == "markdown"]
    return [code for text in texts for _, code in FOLDED.findall(text)]


def ran(path: Path) -> nbformat.NotebookNode:
    """A notebook after its cells, and then the folded code, ran; a cell that fails raises
    CellExecutionError.
    """
    read: nbformat.NotebookNode = nbformat.read(  # type: ignore[no-untyped-call]
        path, as_version=4
    )
    for code in folded(read):
        read.cells.append(nbformat.v4.new_code_cell(code))  # type: ignore[no-untyped-call]
    place = {"metadata": {"path": str(path.parent)}}
    NotebookClient(read, timeout=300, kernel_name="python3", resources=place).execute()
    return read


def texts(cells: list[nbformat.NotebookNode]) -> list[str]:
    """What the cells of code show as text."""
    return [
        output.get("text") or output["data"]["text/plain"]
        for cell in cells
        if cell.cell_type == "code"
        for output in cell.outputs
        if "text" in output or "text/plain" in output.get("data", {})
    ]


def pictures(read: nbformat.NotebookNode) -> int:
    outputs = [output for cell in read.cells for output in cell.get("outputs", [])]
    return sum("image/png" in output.get("data", {}) for output in outputs)


@pytest.fixture(scope="module", name="price")
def _price() -> nbformat.NotebookNode:
    return ran(PRICE)


@pytest.fixture(scope="module", name="design")
def _design() -> nbformat.NotebookNode:
    return ran(DESIGN)


def part(read: nbformat.NotebookNode, number: int) -> str:
    """What the cells of a part show as text."""
    heads = [
        int(found[1]) if (found := re.search(r"^## (\d+)\.", cell.source, re.M)) else None
        for cell in read.cells
    ]
    begin = heads.index(number)
    rest = [place for place, head in enumerate(heads) if head and place > begin]
    return "\n".join(texts(read.cells[begin : rest[0] if rest else None]))


RULES = ("It is the one best limit", "Both leave a surplus", "The reference")


@pytest.mark.filterwarnings("ignore")
@pytest.mark.parametrize("number, rule, sentences", [
    (1, RULES[0], ["Limit 200 executes most, 500."]),
    (2, RULES[0], ["Limit 201 executes most, 300."]),
    (3, RULES[0], ["Of these, 202 leaves the least surplus, 20."]),
    (4, RULES[1], ["the highest, 201, is the price", "the lowest, 199, is the price"]),
    (5, RULES[2], ["200, lies between them", "215, is at or above the higher",
                   "185, is at or below the lower", "Neither leaves a surplus"]),
    (6, "", ["There are market orders alone, 900 bid and 800 offered", "so the limits decide",
             "so 1 is the price, whatever its surplus"]),
    (7, "", ["Shown in its place: the highest bid limit, 199, and the lowest ask limit, 201."]),
])
def test_each_part_shows_its_rule_alone(
    price: nbformat.NotebookNode, number: int, rule: str, sentences: list[str]
) -> None:
    shown = part(price, number)
    for sentence in sentences:
        assert sentence in shown
    if number in (1, 2):
        assert "least surplus" not in shown
    if rule:
        assert [other for other in RULES if other in shown] == [rule]


@pytest.mark.filterwarnings("ignore")
@pytest.mark.parametrize("number, texts_of_part", [
    (10, ["refused: only member 0 may uncross", "volume 500 surplus 200 bid trades 3"]),
    (12, ["changed kept", "changed moved"]),
    (14, ["visible 100"]),
    (15, ["opening price 205 volume 60 surplus 40 bid trades 1", "lapsed"]),
    (16, ["interrupted price 212 ", "opening price 203 "]),
    (18, ["gain 700 of 1,100 possible, efficiency 63.6%"]),
])
def test_the_execution_is_as_the_text_says(
    price: nbformat.NotebookNode, number: int, texts_of_part: list[str]
) -> None:
    shown = part(price, number)
    for text in texts_of_part:
        assert text in shown


@pytest.mark.filterwarnings("ignore")
def test_better_limits_are_always_filled(price: nbformat.NotebookNode) -> None:
    """Part 11: in each of its auctions a limit above the price gets all of its shares, one below it
    none, and some auction cuts one at the price.
    """
    shown = part(price, 11).splitlines()
    head = next(place for place, line in enumerate(shown) if "at 201" in line)
    columns = re.split(r"\s{2,}", shown[head].strip())
    rows = [[int(word) for word in line.split()] for line in shown[head + 2 :]]
    is_cut = set()
    for _, *cells in rows:
        row = dict(zip(columns, cells))
        for limit in (200, 201, 203):
            bought = row[f"at {limit}"]
            if limit != row["price"]:
                assert bought == (100 if limit > row["price"] else 0)
            else:
                is_cut.add(0 < bought < 100)
    assert True in is_cut and len(rows) == 6


def errors(read: nbformat.NotebookNode) -> list[str]:
    """What is shown in red: errors, and all that goes to standard error."""
    outputs = [output for cell in read.cells for output in cell.get("outputs", [])]
    return [str(it) for it in outputs if it.get("name") == "stderr" or it.output_type == "error"]


@pytest.mark.filterwarnings("ignore")
def test_a_lesson_draws_what_it_describes(price: nbformat.NotebookNode) -> None:
    assert pictures(price) >= 16 and not errors(price)
    [slider] = [
        output["data"]["text/html"]
        for cell in price.cells
        for output in cell.get("outputs", [])
        if 'type="range"' in output.get("data", {}).get("text/html", "")
    ]
    assert slider.count("<img") == 10 and slider.count("display:none") == 9
    text = "\n".join(cell.source for cell in price.cells)
    assert text.count("**The board's choice.**") == 4


@pytest.mark.filterwarnings("ignore")
def test_exercises_are_open_and_their_solutions_solve_them(price: nbformat.NotebookNode) -> None:
    solutions = folded(price)
    own = price.cells[: -len(solutions)]
    asked = [text for text in texts(own) if text.startswith("not yet")]
    assert len(asked) == len(solutions) == 7
    assert texts(price.cells[-len(solutions) :]) == ["'solved'"] * 7


@pytest.mark.filterwarnings("ignore")
def test_no_solution_stands_in_what_was_shown(price: nbformat.NotebookNode) -> None:
    own = price.cells[: -len(folded(price))]
    code = "\n".join(cell.source for cell in own if cell.cell_type == "code")
    for solution in folded(price):
        [added] = re.findall(r"check\((.*)\)", solution)
        assert added not in code


@pytest.mark.filterwarnings("ignore")
def test_dots_are_where_they_are_promised(price: nbformat.NotebookNode) -> None:
    code = "\n".join(cell.source for cell in price.cells if cell.cell_type == "code")
    for name in "ABDEFG":
        assert f"print({name}.check((..., ..., ...)))" in code
    assert "print(C.check(reference=...))" in code
    own = price.cells[: -len(folded(price))]
    asked = [text for text in texts(own) if text.startswith("not yet")]
    assert all("in the place of the dots" in text for text in asked)


@pytest.mark.filterwarnings("ignore")
def test_the_course_on_design_runs(design: nbformat.NotebookNode) -> None:
    shown = "\n".join(texts(design.cells))
    assert not errors(design)
    assert "101,000 commands, 0 refused" in shown
    assert "days without a price" in shown and "not yet: put a number in the place" in shown
    assert re.search(r"^'solved: a share gains [+-]0\.\d ticks'$", shown, re.M)
    assert re.search(r"gain [\d,.]+ of [\d,.]+ possible, efficiency \d", shown)
    assert "of 100 days are interrupted" in shown
    assert pictures(design) >= 5


@pytest.mark.filterwarnings("ignore")
def test_days_without_a_price_are_counted(design: nbformat.NotebookNode) -> None:
    """Part 3: with 5 traders who shade most days have no price, with 200 all have one."""
    table = next(
        output["data"]["text/html"]
        for cell in design.cells
        for output in cell.get("outputs", [])
        if "days without a price" in output.get("data", {}).get("text/html", "")
    )
    found = pandas.read_html(io.StringIO(table), header=[0, 1], index_col=0)[0]
    without = found["days without a price"]
    assert without.loc[5, "shaded by 10"] > 150 > without.loc[5, "values as limits"]
    assert (without.loc[200] == 0).all()
    assert "**An artefact.**" in "\n".join(cell.source for cell in design.cells)


@pytest.mark.parametrize("path, wanted", [(PRICE, 120), (DESIGN, 100)])
def test_they_are_stored_without_results(path: Path, wanted: int) -> None:
    stored = json.loads(path.read_text(encoding="utf-8"))
    assert all(not cell.get("outputs") for cell in stored["cells"])
    minutes = re.findall(r"(?<=\| )\d+(?= \|)", "".join(stored["cells"][0]["source"]))
    assert sum(map(int, minutes)) == wanted
