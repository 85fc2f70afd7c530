"""Plans made from tables."""
import pathlib

import openpyxl
import pytest
from conftest import TOWN
from hypercube_tools.command_line import main
from hypercube_tools.faults import Fault
from hypercube_tools.plan import Choices, make_plan
from hypercube_tools.sheets import read_sheets
from hypercube_tools.town import read_town

SMALL = {
    "units": "unit,station,rate\nA,P,3\nB,Q,2.5\n",
    "atoms": "atom,calls,x,y\nP,1.2,0,0\nQ,0.25,900,0\n",
    "travel": "minutes,P,Q\nP,1,5\nQ,4.5,1\n",
}
SMALL_PLAN = """version,1
line,zero
period,72000
unit,A,60
unit,B,50
atom,P,24,0,0,A
atom,Q,5,900,0,B
at,A,P,1000
at,B,Q,1000
prefer,P,A,B
prefer,Q,B,A
travel,P,P,60
travel,P,Q,300
travel,Q,P,270
travel,Q,Q,60
"""


def folder_of(folder: pathlib.Path, **changed: str) -> pathlib.Path:
    for name, text in {**SMALL, **changed}.items():
        (folder / f"{name}.csv").write_text(text)
    return folder


def plan_of(tables: pathlib.Path, line: str = "zero", turn_out: int = 0, in_order: bool = False, may_round: bool = False,
            period: int = 3600) -> str:
    return make_plan(read_town(tables, period), Choices(line, period, turn_out, in_order, may_round)).text


def test_small_plan(tmp_path: pathlib.Path) -> None:
    assert plan_of(folder_of(tmp_path)) == SMALL_PLAN


@pytest.mark.parametrize("changed, line", [
    ({"units": "unit,station,rate,crews\nA,P,3,2\nB,Q,2.5,\n"}, "group,Q,A 1,A 2"),
    ({"units": "unit,station,rate,crews\nA,P,3,2\nB,Q,2.5,\n"}, "version,2"),
    ({"units": "unit,station,minutes\nA,P,20\nB,Q,24\n"}, "unit,B,50"),
    ({"units": "unit,station,rate,class\nA,P,3,\nB,Q,2.5,advanced\n",
      "atoms": "atom,calls,place,class\nP,1.2,,\nP urgent,1,P,advanced\nQ,0.25,,\n"}, "prefer,P urgent,B,A"),
    ({"atoms": "atom,calls,district\nP,1.2,\nQ,0.25,A\n"}, "atom,Q,5,0,0,A"),
    ({"atoms": "atom,calls,x,y\nP,1.2,467000.4,-20.5\nQ,0.25,467900,5500000\n"}, None),
    ({"atoms": "atom,calls,x,y\nP,1.2,3467000.4,-20.5\nQ,0.25,3467900,5000\n"}, "atom,Q,5,900,5021,B"),
    ({"atoms": "atom,calls\nP,1\nQ,1\nR,1\n", "travel": "seconds,P,Q,R\nP,9,99,50\nQ,99,9,60\nR,70,40,9\n"}, "prefer,R,A,B"),
    ({"atoms": "atom,calls,place\nP,1,\nP too,1,P\nQ,1,\n"}, "at,A,P,1000"),
    ({"travel": "seconds;P;Q\nP;60;300,4\nQ;299,6;60\n"}, "travel,P,Q,300"),
])
def test_tables(tmp_path: pathlib.Path, changed: dict[str, str], line: str | None) -> None:
    tables = folder_of(tmp_path, **changed)
    if line is None:
        with pytest.raises(Fault, match="more than 1,000,000 apart"):
            plan_of(tables)
    else:
        assert line in plan_of(tables).splitlines()


def test_choices(tmp_path: pathlib.Path) -> None:
    tables = folder_of(tmp_path, units="unit,station,rate,crews\nA,P,3,2\nB,Q,2.5,1\n")
    assert "prefer,Q,B,A 1,A 2" in plan_of(tables, in_order=True).splitlines()
    assert "travel,Q,P,330" in plan_of(tables, turn_out=60).splitlines()
    assert "line,infinite" in plan_of(tables, line="infinite").splitlines()


def fleet_of(tables: pathlib.Path, line: str = "zero") -> list[str]:
    return make_plan(read_town(tables, 3600, as_fleet=True), Choices(line, 3600, 0, False, False, as_fleet=True)).text.splitlines()


def test_fleet(tmp_path: pathlib.Path) -> None:
    """A row of units is one station, with a record of its crews if it has several."""
    rows = fleet_of(folder_of(tmp_path, units="unit,station,rate,crews\nA,P,3,14\nB,Q,2.5,\n"))
    assert rows[0] == "version,3"
    assert [row for row in rows if row.split(",")[0] in ("unit", "crews", "at", "prefer")] == [
        "unit,A,60", "unit,B,50", "crews,A,14", "at,A,P,1000", "at,B,Q,1000", "prefer,P,A,B", "prefer,Q,B,A"]


def test_service_of_a_fleet_is_that_of_all_crews(tmp_path: pathlib.Path) -> None:
    tables = folder_of(tmp_path, units="unit,station,rate,crews\nA,P,3,2\nB,Q,2.5,1\n", atoms="atom,calls\nP,4\nQ,4\n")
    assert "line,infinite" in fleet_of(tables, "infinite")
    (tmp_path / "atoms.csv").write_text("atom,calls\nP,4\nQ,4.5\n")
    with pytest.raises(Fault, match="Add units, or take the line zero"):
        fleet_of(tables, "infinite")


@pytest.mark.parametrize("rows, message", [
    ("A,P,1,101\nB,Q,1,100\n", "there are 201 crews"),
    ("A,P,1,70\nB,Q,1,70\nC,P,1,20\n", "there are 105861 states"),
    ("A,P,1,201\n", "a station has 1 to 200 crews"),
    ("".join(f"S{number},P,1,2\n" for number in range(13)), "there are 13 stations. A fleet has 1 to 12"),
])
def test_faults_of_a_fleet(tmp_path: pathlib.Path, rows: str, message: str) -> None:
    with pytest.raises(Fault, match=message):
        fleet_of(folder_of(tmp_path, units="unit,station,rate,crews\n" + rows))


def test_rates_that_no_period_makes_whole(tmp_path: pathlib.Path) -> None:
    tables = folder_of(tmp_path, units="unit,station,minutes\nA,P,20.0001\nB,Q,23.0007\n")
    with pytest.raises(Fault, match="--round"):
        plan_of(tables)
    text = plan_of(tables, may_round=True)
    rates = {fields[1]: int(fields[2]) for fields in (row.split(",") for row in text.splitlines()) if fields[0] == "unit"}
    period = int(text.splitlines()[2].split(",")[1])
    assert abs(rates["A"] * 20.0001 * 60 / period - 1) < 1e-5
    assert abs(rates["B"] * 23.0007 * 60 / period - 1) < 1e-5


@pytest.mark.parametrize("changed, message", [
    ({"units": "unit,station,rate\nA,P,3\nA,Q,2.5\n"}, 'units.csv, row 3: the name "A" stands in '),
    ({"units": "unit,station,rate\nA,P,3\nB,Q,fast\n"}, "units.csv, row 3, column rate: 'fast' is no number"),
    ({"units": "unit,station,rate\nA,P,3\nB,R,2\n"}, 'units.csv, row 3, column station: "R" is the place of no atom'),
    ({"units": "unit,station,rate,minutes\nA,P,3,20\nB,Q,2,\n"}, "units.csv, row 2, column rate: give the rate or the minutes"),
    ({"units": "unit,station,rate,crews\nA,P,3,9\nB,Q,2,4\n"}, "units.csv: there are 13 units"),
    ({"units": "unit,place,rate\nA,P,3\n"}, "units.csv, row 1: there is no column station"),
    ({"units": "unit,station,rate\nA,P,0\nB,Q,2\n"}, "units.csv, row 2, column rate: a number above 0 is needed"),
    ({"atoms": "atom,calls\nP,0\nQ,0\n"}, "atoms.csv: no atom has calls"),
    ({"atoms": "atom,calls\nP,1\nQ,-1\n"}, "atoms.csv, row 3, column calls: '-1' is no number"),
    ({"atoms": 'atom,calls\nP,1\nQ,1\n"R,S",1\n'}, "atoms.csv, row 4, column atom: 'R,S' has a comma"),
    ({"atoms": f"atom,calls\nP,1\n{'é' * 17},1\n"}, "has more than 32 bytes"),
    ({"atoms": "atom,calls,district\nP,1,\nQ,1,C\n"}, 'atoms.csv, row 3, column district: "C" is neither a unit'),
    ({"atoms": "atom,calls\nP,1\nQ,1\nR,1\n"}, 'atoms.csv, row 4: "R" has no row and column in the travel table'),
    ({"atoms": "atom,calls,x,y\nP,1,8.61,50.1\nQ,1,8.62,50.1\n"}, "not in degrees"),
    ({"travel": "minutes,P,Q\nP,1,5\nQ,,1\n"}, "travel.csv, row 3, column P: a number is missing"),
    ({"travel": "minutes,P,Q\nP,1,5\n"}, 'travel.csv, row 1, column 3: "Q" has a column and no row'),
    ({"travel": "minutes,P,Q,P\nP,1,5,1\nQ,4,1,1\n"}, 'travel.csv, row 1, column 4: the name "P" stands in '),
    ({"travel": "minutes,P,Q\nP,1,5\nQ,4,1\nR,4,1\n"}, 'travel.csv, row 4, column 1: "R" has a row and no column'),
    ({"units": "unit,station,rate,crew\nA,P,3,2\nB,Q,2,\n"}, "units.csv, row 1: the column crew is not known"),
    ({"travel": "from,P,Q\nP,1,5\nQ,4,1\n"}, "travel.csv, row 1, column from: write seconds or minutes there"),
    ({"travel": "minutes,P,Q\nP,1,5\nQ,2000,1\n"}, "travel.csv, row 3, column P: a trip takes at most 100000 seconds"),
])
def test_faults(tmp_path: pathlib.Path, changed: dict[str, str], message: str) -> None:
    with pytest.raises(Fault) as found:
        plan_of(folder_of(tmp_path, **changed))
    assert message in str(found.value)


def test_all_faults_are_reported(tmp_path: pathlib.Path) -> None:
    tables = folder_of(tmp_path, units="unit,station,rate\nA,P,x\nB,Q,y\n", atoms="atom,calls\nP,z\nQ,1\n")
    with pytest.raises(Fault) as found:
        plan_of(tables)
    assert len(found.value.messages) == 3


@pytest.mark.parametrize("calls", ["3", "2.5"])
def test_calls_that_are_not_fewer_than_service(tmp_path: pathlib.Path, calls: str) -> None:
    tables = folder_of(tmp_path, atoms=f"atom,calls\nP,3\nQ,{calls}\n")
    with pytest.raises(Fault, match="Add units, or take the line zero"):
        plan_of(tables, line="infinite")


def test_table_that_is_not_utf_8(tmp_path: pathlib.Path) -> None:
    tables = folder_of(tmp_path)
    (tables / "atoms.csv").write_bytes(b"atom,calls\nP,1\nM\xfcnster,1\n")
    with pytest.raises(Fault, match="atoms.csv, row 3: a letter is not UTF-8"):
        plan_of(tables)


@pytest.mark.parametrize("line_end", [b"\r\n", b"\r"])
def test_line_ends(tmp_path: pathlib.Path, line_end: bytes) -> None:
    tables = folder_of(tmp_path)
    for name in SMALL:
        (tables / f"{name}.csv").write_bytes(b"\xef\xbb\xbf" + SMALL[name].encode().replace(b"\n", line_end))
    assert plan_of(tables) == SMALL_PLAN


def test_file_that_is_no_table(tmp_path: pathlib.Path) -> None:
    tables = folder_of(tmp_path, units='unit,station,rate\n"' + "x" * 200_000)
    with pytest.raises(Fault, match="units.csv, line 2: this is no CSV"):
        plan_of(tables)


def workbook_of(folder: pathlib.Path, path: pathlib.Path) -> pathlib.Path:
    """The same tables as the sheets of a workbook, with numbers as numbers."""
    book = openpyxl.Workbook()
    book.remove(book.active)
    for name, sheet in read_sheets(folder).items():
        page = book.create_sheet(name.capitalize())
        for row in sheet.rows:
            page.append([float(field) if field.replace(".", "").isdigit() else field for field in row])
    book.save(path)
    return path


def test_workbook(tmp_path: pathlib.Path) -> None:
    book = workbook_of(TOWN, tmp_path / "town.xlsx")
    assert plan_of(book, period=86400) == plan_of(TOWN, period=86400)


def test_fault_of_a_workbook(tmp_path: pathlib.Path) -> None:
    tables = folder_of(tmp_path, atoms="atom,calls\nP,many\nQ,1\n")
    with pytest.raises(Fault, match="town.xlsx, sheet Atoms, row 2, column calls: 'many' is no number"):
        plan_of(workbook_of(tables, tmp_path / "town.xlsx"))


def test_program_accepts(tmp_path: pathlib.Path, hypercube) -> None:
    plan = tmp_path / "town.csv"
    assert main(["plan", str(TOWN), "-o", str(plan)]) == 0
    report = hypercube("solve", plan, "--summary").splitlines()
    assert report[2:6] == ["units,8", "atoms,20", "calls,861", "service,2156"]


@pytest.mark.parametrize("words, head", [
    ([], ["line,zero", "units,3", "atoms,2", "calls,29", "service,170"]),
    (["--per", "hour", "--line", "infinite", "--in-order"], ["line,infinite", "units,3", "atoms,2", "calls,29", "service,170"]),
])
def test_words(tmp_path: pathlib.Path, hypercube, words: list[str], head: list[str]) -> None:
    tables = folder_of(tmp_path, units="unit,station,rate,crews\nA,P,3,2\nB,Q,2.5,1\n")
    assert main(["plan", str(tables), "-o", str(tmp_path / "plan.csv"), "--turn-out", "60", *words]) == 0
    report = hypercube("solve", tmp_path / "plan.csv").splitlines()
    assert report[1:6] == head
    assert ("prefer,P,A 1,A 2,B" if "--in-order" in words else "group,P,A 1,A 2") in report
    assert "travel-unit,B," in "\n".join(report)


def test_program_accepts_the_largest(tmp_path: pathlib.Path, hypercube) -> None:
    names = [f"atom {number}" for number in range(1, 201)]
    trips = ["seconds," + ",".join(names), *(f"{name}," + ",".join(["90"] * 200) for name in names)]
    tables = folder_of(tmp_path, units="unit,station,rate,crews\nA,atom 1,3,2\nB,atom 2,3,2\n",
                       atoms="atom,calls\n" + "".join(f"{name},0.5\n" for name in names), travel="\n".join(trips) + "\n")
    plan = tmp_path / "plan.csv"
    plan.write_text(plan_of(tables))
    assert "atoms,200" in hypercube("solve", plan, "--summary").splitlines()


def test_status(tmp_path: pathlib.Path, capsys: pytest.CaptureFixture[str]) -> None:
    assert main(["plan", str(tmp_path / "absent")]) == 1
    assert "neither a folder of CSV files nor a workbook" in capsys.readouterr().err
