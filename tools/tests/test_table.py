"""Tables of the program's texts."""
import csv
import io
import pathlib
import re

import pytest
from conftest import TOP
from hypercube_tools import frame
from hypercube_tools.command_line import main
from hypercube_tools.faults import Fault
from hypercube_tools.texts import table_text, values

REPORT = """report,1
line,infinite
units,2
atoms,2
calls,2
service,6
prefer,P,A,B
group,Q,B,A
delay,0.2,0.3
queue,0.166666,0.166667
wait,599.999,600.001
workload,A,0.294117,0.294118
workload,B,0.294117,0.294118
dispatch,A,P,0.399999,0.400001
dispatch,A,Q,0.099999,0.100001
dispatch,B,P,0.099999,0.100001
dispatch,B,Q,0.399999,0.400001
interdistrict,0.199999,0.200001
interdistrict-unit,A,0.199999,0.200001
interdistrict-unit,B,0.199999,0.200001
interdistrict-district,A,0.199999,0.200001
interdistrict-district,B,none
travel,107.999,108.001
travel-atom,P,107.999,108.001
travel-unit,A,107.999,108.001
travel-district,B,none
end
"""
COMPARISON = """study,1
plans,2
value,loss,1,0.117647,0.117648
value,loss,2,0.333333,0.333334
verdict,loss,1,2,below
value,travel,1,107.999,108.001
value,travel,2,108.000,108.002
verdict,travel,1,2,not separated
end
"""
FINITE = """finite,1
places,1
lost,0.142857,0.142858
delayed,0.285714,0.285715
busy,0.428571,0.428572
queue,0.142857,0.142858
wait,600.000,600.000
workload,A,0.428571,0.428572
end
"""
PAIRS = """pairs,1
percent,100
loss,0.249999,0.250001
short,0.299999,0.300001
workload,A,0.399999,0.400001
workload,B,0.399999,0.400001
pair,A,B,1.000000,1.000000
end
"""
SWEEP = """sweep,1
unit,B
measure,travel
site,Q,107.999,108.001
dropped,1
end
"""
REPLAY = """replay,1
calls,4
answered,3
lost,1
send,1,A
send,2,B
send,5,A
dispatch,A,P,1,0.399999,0.400001
dispatch,A,Q,1,0.099999,0.100001
dispatch,B,P,1,0.099999,0.100001
dispatch,B,Q,0,0.399999,0.400001
busy,A,40,0.294117,0.294118
busy,B,40,0.294117,0.294118
end
"""
REACH = """reach,1
seconds,60,480
region,0.199999,0.200001,0.899999,0.900001
all,0.099999,0.100001,0.499999,0.500001
at-once,0.099999,0.100001,0.399999,0.400001
atom,P,0.199999,0.200001,0.899999,0.900001
atom,Q,0.199999,0.200001,0.899999,0.900001
unit,A,0.300000,0.300001,1.000000,1.000000
unit,B,0.099999,0.100000,0.799999,0.800001
district,A,0.199999,0.200001,0.899999,0.900001
district,B,none
end
"""
FLEET = """fleet,1
line,infinite
period,86400
calls,15
service,46
stations,2
crews,5
states,12
crews,West,3
crews,East,2
prefer,P,West,East
prefer,Q,East,West
prefer,R,East,West
delay,0.028068,0.028069
queue,0.013581,0.013582
wait,78.229,78.230
workload,West,0.314641,0.314642
workload,East,0.347547,0.347548
full,West,0.070701,0.070702
full,East,0.161563,0.161564
dispatch,West,P,0.568562,0.568563
dispatch,West,Q,0.060720,0.060721
dispatch,West,R,0.000000,0.000000
dispatch,East,P,0.031437,0.031438
dispatch,East,Q,0.339279,0.339280
dispatch,East,R,0.000000,0.000000
interdistrict,0.092158,0.092159
interdistrict-station,West,0.096491,0.096492
interdistrict-station,East,0.084802,0.084803
interdistrict-district,West,0.052396,0.052397
interdistrict-district,East,0.151800,0.151801
travel,107.085,107.086
travel-atom,P,112.495,112.496
travel-atom,Q,98.970,98.971
travel-atom,R,151.509,151.510
travel-station,West,117.483,117.484
travel-station,East,89.436,89.437
travel-district,West,112.495,112.496
travel-district,East,98.970,98.971
end
"""
TEXTS = {"report": REPORT, "comparison": COMPARISON, "finite": FINITE, "pairs": PAIRS, "sweep": SWEEP, "replay": REPLAY,
         "reach": REACH, "fleet": FLEET}


@pytest.mark.parametrize("kind, row", [
    ("report", "line,,,,,,infinite"),
    ("report", "calls,,,2,2,calls per period,"),
    ("report", "preference,P,B,2,2,order,"),
    ("report", "preference,Q,A,1,1,order,"),
    ("report", "queue,,,0.166666,0.166667,calls,"),
    ("report", "wait,,,599.999,600.001,seconds,"),
    ("report", "dispatch,B,Q,0.399999,0.400001,share,"),
    ("report", "interdistrict-district,B,,,,share,none"),
    ("report", "travel-district,B,,,,seconds,none"),
    ("comparison", "plans,,,2,2,count,"),
    ("comparison", "loss,2,,0.333333,0.333334,share,"),
    ("comparison", "loss,1,2,,,,below"),
    ("comparison", "travel,1,2,,,,not separated"),
    ("finite", "places,,,1,1,count,"),
    ("finite", "lost,,,0.142857,0.142858,share,"),
    ("finite", "wait,,,600.000,600.000,seconds,"),
    ("pairs", "percent,,,100,100,percent,"),
    ("pairs", "pair,A,B,1.000000,1.000000,share,"),
    ("sweep", "travel,Q,B,107.999,108.001,seconds,"),
    ("sweep", "dropped,,,1,1,count,"),
    ("replay", "calls,,,4,4,calls,"),
    ("replay", "lost,,,1,1,calls,"),
    ("replay", "send,5,A,3,3,order,"),
    ("replay", "dispatches,A,P,1,1,calls,"),
    ("replay", "dispatch,A,P,0.399999,0.400001,share,"),
    ("replay", "busy,B,,40,40,seconds,"),
    ("replay", "workload,B,,0.294117,0.294118,share,"),
    ("reach", "seconds,,,60,60,seconds,"),
    ("reach", "seconds,,,480,480,seconds,"),
    ("reach", "region,,60,0.199999,0.200001,share,"),
    ("reach", "at-once,,480,0.399999,0.400001,share,"),
    ("reach", "unit,A,60,0.300000,0.300001,share,"),
    ("reach", "unit,A,480,1.000000,1.000000,share,"),
    ("reach", "district,B,,,,share,none"),
    ("fleet", "line,,,,,,infinite"),
    ("fleet", "period,,,86400,86400,seconds,"),
    ("fleet", "stations,,,2,2,count,"),
    ("fleet", "crews,,,5,5,count,"),
    ("fleet", "crews,East,,2,2,count,"),
    ("fleet", "preference,Q,West,2,2,order,"),
    ("fleet", "wait,,,78.229,78.230,seconds,"),
    ("fleet", "full,East,,0.161563,0.161564,share,"),
    ("fleet", "dispatch,East,P,0.031437,0.031438,share,"),
    ("fleet", "travel-station,West,,117.483,117.484,seconds,"),
])
def test_row(kind: str, row: str) -> None:
    assert row in table_text(values(TEXTS[kind])).splitlines()


@pytest.mark.parametrize("kind, rows", [("report", 27), ("comparison", 7), ("finite", 7), ("pairs", 6), ("sweep", 4),
                                        ("replay", 18), ("reach", 19), ("fleet", 41)])
def test_number_of_rows(kind: str, rows: int) -> None:
    assert len(values(TEXTS[kind])) == rows


def test_groups_are_numbered() -> None:
    text = REPORT.replace("group,Q,B,A\n", "group,Q,B\ngroup,Q,A\n")
    assert "preference,Q,A,2,2,order," in table_text(values(text)).splitlines()


@pytest.mark.parametrize("path", sorted((TOP / "examples").glob("*.report")), ids=lambda path: path.stem)
def test_example(path: pathlib.Path) -> None:
    """Each pair of ends of the text stands in the table, digit for digit and in the same order."""
    ends = re.findall(r",(\d+\.\d+),(\d+\.\d+)(?=[,\n])", path.read_text())
    table = list(csv.DictReader(io.StringIO(table_text(values(path.read_text())))))
    assert [(row["low"], row["high"]) for row in table if "." in row["high"]] == ends and ends


@pytest.mark.parametrize("text, message", [
    ("", "its first row is ''"),
    ("refused,1,21,2,1\n", "its first row is 'refused,1,21,2,1'"),
    ("report,2\nend\n", "its first row is 'report,2'"),
    (REPORT.removesuffix("end\n"), "cut short"),
    (FINITE.replace("busy,0.4", "idle,0.4"), "line 5 of the text"),
    (FINITE.replace("0.428571,0.428572\nqueue", "0.428571\nqueue"), "line 5 of the text"),
    (FINITE.replace("600.000,600.000", "600.000,soon"), "line 7 of the text"),
    (REACH.replace("all,0.099999,0.100001,0.4", "all,0.4"), "line 4 of the text"),
    (REACH.replace("region,", "regions,"), "line 3 of the text"),
])
def test_text_that_is_none(text: str, message: str) -> None:
    with pytest.raises(Fault) as found:
        values(text)
    assert message in str(found.value)


def test_frame() -> None:
    table = frame(REPORT).set_index(["measure", "subject", "second"])
    assert table.loc[("workload", "A", ""), "low"] == 0.294117
    assert table.loc[("travel-district", "B", "")].isna()["high"]


def test_command(hypercube, tmp_path: pathlib.Path) -> None:
    report = tmp_path / "report"
    report.write_text(hypercube("solve", TOP / "examples/night-patrol.csv"))
    assert main(["table", str(report), "-o", str(tmp_path / "table.csv")]) == 0
    assert "delay,,,0.229133,0.229134,share," in (tmp_path / "table.csv").read_text().splitlines()
