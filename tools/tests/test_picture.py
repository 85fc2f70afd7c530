"""Pictures. That they look right was seen by eye; here they are drawn whole, the same each time, and from the right rows."""
import itertools
import pathlib

import pytest
from conftest import TOP
from hypercube_tools import frame, pictures
from hypercube_tools.command_line import main
from hypercube_tools.faults import Fault
from hypercube_tools.maps import map_of
from test_table import COMPARISON, FLEET, REACH, REPORT, SWEEP

CITY = TOP / "examples" / "city-of-eight.csv"
MAP = """unit,A,3
unit,B,3
atom, P ,1,0,0,A
atom,Q,1,9,0,B
at,A,P,1000
at,B,P,250
at,B,Q,750
"""


def texts_of(figure: pictures.Figure) -> set[str]:
    return {text.get_text() for axes in figure.axes for text in axes.texts}


def test_map() -> None:
    where = map_of(MAP)
    assert where.atoms.loc["Q"].to_dict() == {"x": 9, "y": 0, "calls": 1}
    assert where.units["x"].to_dict() == {"A": 0, "B": 6.75}


def test_workloads() -> None:
    figure = pictures.workloads(frame(REPORT))
    assert texts_of(figure) == {"29.4%"}
    assert [label.get_text() for label in figure.axes[0].get_yticklabels()] == ["B", "A"]


def test_workload_interval_is_drawn() -> None:
    figure = pictures.workloads(frame(REPORT.replace("workload,B,0.294117,0.294118", "workload,B,0.2,0.4")))
    assert texts_of(figure) == {"29.4%", "20.0% to 40.0%"}
    assert (0.2, 0.4) in [(bar.get_x(), round(bar.get_x() + bar.get_width(), 9)) for bar in figure.axes[0].patches]


def test_answers() -> None:
    """Of the calls of P, A answers four fifths."""
    assert texts_of(pictures.answers(frame(REPORT))) == {"80%", "20%"}


def test_answers_of_an_atom_without_calls() -> None:
    silent = REPORT.replace("dispatch,A,Q,0.099999,0.100001", "dispatch,A,Q,0.000000,0.000000")
    silent = silent.replace("dispatch,B,Q,0.399999,0.400001", "dispatch,B,Q,0.000000,0.000000")
    assert texts_of(pictures.answers(frame(silent))) == {"80%", "20%"}


def test_fleet() -> None:
    """A bar for each station, by the workload of its crews; and of each atom's calls, the share of each station."""
    figure = pictures.workloads(frame(FLEET))
    assert texts_of(figure) == {"31.5%", "34.8%"}
    assert [label.get_text() for label in figure.axes[0].get_yticklabels()] == ["East", "West"]
    assert figure.axes[0].lines[0].get_xdata()[0] == pytest.approx((3 * 0.3146415 + 2 * 0.3475475) / 5)
    assert texts_of(pictures.answers(frame(FLEET))) == {"95%", "5%", "15%", "85%"}


def test_travel() -> None:
    assert texts_of(pictures.travel(frame(REPORT), map_of(MAP))) == {"P\n1.8"}


def test_travel_interval_is_named() -> None:
    table = frame(REPORT.replace("travel-atom,P,107.999,108.001", "travel-atom,P,60.000,108.001"))
    assert texts_of(pictures.travel(table, map_of(MAP))) == {"P\n1.0 to 1.8"}


def test_names_stand_apart(hypercube) -> None:
    """The made plan has atoms that lie close together."""
    plan = hypercube("make", 6, 1)
    table = "report,1\n" + "".join(f"travel-atom,A{number},60.000,60.001\n" for number in range(1, 25)) + "end\n"
    figure = pictures.travel(frame(table), map_of(plan))
    boxes = [text.get_window_extent() for text in figure.axes[0].texts]
    assert len(boxes) == 24
    assert [(first, second) for first, second in itertools.combinations(boxes, 2) if first.overlaps(second)] == []


def test_sites() -> None:
    assert texts_of(pictures.sites(frame(SWEEP), map_of(MAP))) == {"Q\n1.80", "P"}


def test_comparison_fills_what_no_other_is_below() -> None:
    figure = pictures.comparison(frame(COMPARISON), ["now", "later"])
    fills = [[line.get_markerfacecolor() for line in axes.lines if line.get_marker() == "o"] for axes in figure.axes]
    assert fills == [[pictures.ORANGE, "white"], [pictures.ORANGE, pictures.ORANGE]]
    assert [label.get_text() for label in figure.axes[0].get_yticklabels()] == ["now", "later"]
    turned = pictures.comparison(frame(COMPARISON.replace("verdict,loss,1,2,below", "verdict,loss,1,2,above")), [])
    dots = [line for line in turned.axes[0].lines if line.get_marker() == "o"]
    assert [dot.get_markerfacecolor() for dot in dots] == ["white", pictures.ORANGE]


def test_reached() -> None:
    """A line for each unit, and last one for the region, by the middles of their intervals."""
    axes = pictures.reached(frame(REACH)).axes[0]
    drawn = {line.get_label(): [tuple(map(float, point)) for point in line.get_xydata().round(6)] for line in axes.lines}
    assert list(drawn) == ["A", "B", "region"]
    assert drawn["region"] == [(1, 0.2), (8, 0.9)]
    assert drawn["B"] == [(1, 0.1), (8, 0.8)]
    assert [text.get_text() for text in axes.get_legend().get_texts()] == ["region", "A", "B"]
    assert [label.get_text() for label in axes.get_xticklabels()] == ["1", "8"]
    assert [pictures.clock(minutes) for minutes in (0, 1.5, 100 / 60)] == ["0", "1:30", "1:40"]


def test_reached_by_units_that_are_alike() -> None:
    alike = REACH.replace("unit,B,0.099999,0.100000,0.799999,0.800001", "unit,B,0.300000,0.300001,1.000000,1.000000")
    assert [line.get_label() for line in pictures.reached(frame(alike)).axes[0].lines] == ["A,\nB", "region"]
    assert pictures.together(["A", "B", "C", "D"]) == "A and 3 others"


def test_reached_interval_is_drawn() -> None:
    axes = pictures.reached(frame(REACH.replace("unit,B,0.099999,0.100000", "unit,B,0.050000,0.100000"))).axes[0]
    band = axes.collections[2].get_paths()[0]
    assert band.get_extents().extents.round(6).tolist() == [1, 0.05, 8, 0.800001]


@pytest.mark.parametrize("limits", [1, 16])
def test_reached_command(tmp_path: pathlib.Path, limits: int) -> None:
    """The most numbers that there may be, and one only."""
    rows = [["seconds", *(str(100 * limit) for limit in range(1, limits + 1))]]
    rows += [["region", *limits * ["0.499999", "0.500001"]]]
    rows += [["unit", f"U{n}", *limits * [f"0.{n:06}", f"0.{n:06}"]] for n in range(1, 13)]
    text = tmp_path / "reach"
    text.write_text("reach,1\n" + "".join(",".join(row) + "\n" for row in rows) + "end\n")
    assert main(["picture", "reach", str(text), "-o", str(tmp_path / "reach.svg")]) == 0
    assert (tmp_path / "reach.svg").read_text().count("<!-- U") == 12


@pytest.mark.parametrize("ending", ["svg", "png"])
def test_same_file_each_time(tmp_path: pathlib.Path, ending: str) -> None:
    drawn = [tmp_path / f"{name}.{ending}" for name in ("first", "second")]
    for path in drawn:
        assert main(["picture", "dispatch", str(CITY.with_suffix(".report")), "-o", str(path)]) == 0
    assert drawn[0].read_bytes() == drawn[1].read_bytes()


@pytest.mark.parametrize("draw, message", [
    (lambda: pictures.workloads(frame(SWEEP)), "no rows of workload"),
    (lambda: pictures.sites(frame(REPORT), map_of(MAP)), "no rows of measure"),
    (lambda: pictures.travel(frame(REPORT), map_of(MAP.replace("P", "R"))), 'no atom "P"'),
    (lambda: pictures.comparison(frame(SWEEP), []), "no rows of plans"),
    (lambda: pictures.reached(frame(SWEEP)), "no rows of region"),
    (lambda: map_of("unit,A,3\n"), "an atom is missing"),
    (lambda: map_of("atom,P,1\n"), "not one that the program accepts"),
])
def test_text_that_has_no_such_picture(draw, message: str) -> None:
    with pytest.raises(Fault, match=message):
        draw()


def test_map_needs_the_plan(capsys: pytest.CaptureFixture[str]) -> None:
    assert main(["picture", "travel", str(CITY.with_suffix(".report")), "-o", "unwritten.svg"]) == 1
    assert "--plan FILE" in capsys.readouterr().err
