"""Studies of many plans, run whole, interrupted, resumed and refused."""
import os
import pathlib
import signal
import subprocess
import time

import pandas
import pytest
from conftest import TOP
from hypercube_tools.many import Study, endings, mend_joblog, plans_of, reason_of
from hypercube_tools.ranks import ranks

PLANS = 200
TOOLS = TOP / "tools" / "hypercube-tools"
REGION = ["loss", "interdistrict", "travel"]


@pytest.fixture(scope="module")
def made(tmp_path_factory: pytest.TempPathFactory, hypercube) -> pathlib.Path:
    """A folder of made plans of eight units."""
    folder = tmp_path_factory.mktemp("plans")
    for number in range(PLANS):
        (folder / f"plan-{number:03}.csv").write_text(hypercube("make", 8, number))
    return folder


def words(plans: pathlib.Path, study: pathlib.Path, program: pathlib.Path, *more: str) -> list[str]:
    return [str(TOOLS), "many", str(plans), "--study", str(study), "--program", str(program), *more]


def runs_in(study: pathlib.Path) -> int:
    joblog = study / "joblog"
    return len(joblog.read_text().splitlines()) - 1 if joblog.exists() else 0


def wait_for_runs(study: pathlib.Path, count: int) -> None:
    began = time.monotonic()
    while runs_in(study) < count:
        assert time.monotonic() - began < 600, "no run came to its end"
        time.sleep(0.01)


def interrupt(arguments: list[str], study: pathlib.Path, count: int, by: signal.Signals) -> None:
    """Starts a study, and ends it and all that it started by a signal, once it has done so many runs."""
    running = subprocess.Popen(arguments, start_new_session=True, stderr=subprocess.PIPE, text=True)
    wait_for_runs(study, count)
    os.killpg(running.pid, by)
    told = running.communicate()[1]
    assert running.returncode == (130 if by == signal.SIGINT else -by)
    assert "Traceback" not in told


def check_whole(study: pathlib.Path, plans: pathlib.Path, hypercube) -> None:
    """Each plan has each measure of the region once, in the order of the plans, with the ends that the program prints."""
    table = pandas.read_csv(study / "table.csv", dtype=str, keep_default_na=False)
    assert not table.duplicated().any()
    for measure in REGION:
        rows = table[table["measure"] == measure]
        assert list(rows["plan"]) == [str(plan) for plan in sorted(plans.glob("*.csv"))]
    for plan in (plans / "plan-000.csv", plans / f"plan-{PLANS - 1}.csv"):
        loss = next(row for row in hypercube("solve", plan, "--summary").splitlines() if row.startswith("loss,"))
        found = table[(table["plan"] == str(plan)) & (table["measure"] == "loss")]
        assert [float(end) for end in loss.split(",")[1:]] == [float(found["low"].iloc[0]), float(found["high"].iloc[0])]


def test_interrupted_and_resumed(tmp_path: pathlib.Path, made: pathlib.Path, program: pathlib.Path, hypercube) -> None:
    study = tmp_path / "study"
    arguments = words(made, study, program, "--jobs", "2")
    interrupt(arguments, study, 20, signal.SIGINT)
    after_first = runs_in(study)
    assert 20 <= after_first < PLANS and not (study / "table.csv").exists()
    interrupt(arguments, study, after_first + 20, signal.SIGKILL)
    after_second = runs_in(study)
    assert after_second < PLANS and not (study / "table.csv").exists()
    subprocess.run(arguments, check=True)
    assert runs_in(study) <= PLANS + after_second - after_first
    check_whole(study, made, hypercube)
    before = runs_in(study)
    subprocess.run(arguments, check=True)
    assert runs_in(study) == before


def failures(study: pathlib.Path) -> list[list[str]]:
    """What the table says of each plan that failed: the first row of the text, and the reason."""
    table = pandas.read_csv(study / "table.csv", keep_default_na=False)
    return table[table["measure"] == "failed"][["subject", "word"]].values.tolist()


def small_study(folder: pathlib.Path) -> pathlib.Path:
    plans = folder / "plans"
    plans.mkdir()
    (plans / "good.csv").write_bytes((TOP / "examples" / "village.csv").read_bytes())
    (plans / "wrong, and quoted.csv").write_text("unit,A,2\n")
    return plans


def test_plan_that_is_refused(tmp_path: pathlib.Path, program: pathlib.Path) -> None:
    done = subprocess.run(words(small_study(tmp_path), tmp_path / "study", program), capture_output=True, text=True, check=True)
    assert "2 plans, of which 1 failed" in done.stderr
    assert failures(tmp_path / "study") == [["refused,1,16", "refused"]]


def test_method(tmp_path: pathlib.Path, program: pathlib.Path, hypercube) -> None:
    """The program is asked for the method, and the study remembers it."""
    plan, study = TOP / "examples" / "night-patrol.csv", tmp_path / "study"
    subprocess.run(words(plan, study, program, "--method", "certificate"), check=True)
    assert " PLAN --summary --method certificate\n" in (study / "plans.csv").read_text()
    assert failures(study) == []
    table = pandas.read_csv(study / "table.csv", dtype=str, keep_default_na=False).set_index("measure")
    report = hypercube("solve", plan, "--summary", "--method", "certificate").splitlines()
    assert f"travel,{table.loc['travel', 'low']},{table.loc['travel', 'high']}" in report


def test_study_that_was_begun_otherwise(tmp_path: pathlib.Path, program: pathlib.Path) -> None:
    plans, study = small_study(tmp_path), tmp_path / "study"
    subprocess.run(words(plans, study, program), check=True)
    (plans / "good.csv").write_text((plans / "good.csv").read_text() + "note,later\n")
    done = subprocess.run(words(plans, study, program), capture_output=True, text=True, check=False)
    assert done.returncode == 1 and "good.csv has changed since the study" in done.stderr
    done = subprocess.run(words(plans, study, program, "--full"), capture_output=True, text=True, check=False)
    assert done.returncode == 1 and "was begun with the command" in done.stderr
    (plans / "third.csv").write_text("unit,A,2\n")
    done = subprocess.run(words(plans, study, program), capture_output=True, text=True, check=False)
    assert done.returncode == 1 and "was begun with other plans" in done.stderr


HOST = """#!/bin/bash
# In place of ssh: a host that is this machine, with a home and a folder for temporary files of its own.
while [[ $1 == -* ]]; do shift; done
shift
[[ $1 == -- ]] && shift
cd "{home}" && HOME={home} TMPDIR={temporary} exec bash -c "$*"
"""


def study_on_host(folder: pathlib.Path, program: pathlib.Path, temporary: pathlib.Path) -> list[str]:
    """The words of a small study on a host."""
    (folder / "home").mkdir()
    (folder / "ssh").write_text(HOST.format(home=folder / "home", temporary=temporary))
    (folder / "ssh").chmod(0o755)
    small_study(folder)
    return words(pathlib.Path("plans"), pathlib.Path("study"), program, "--hosts", f"1/{folder}/ssh there")


@pytest.mark.parametrize("shell", [{"SHELL": "/bin/sh"}, {"SHELL": "/bin/none"}, {}])
def test_hosts(tmp_path: pathlib.Path, program: pathlib.Path, shell: dict[str, str]) -> None:
    """Plans are sent to a host and taken away there again, whatever shell is named or if none is; one plan is refused."""
    bare = {name: value for name, value in os.environ.items() if name not in ("SHELL", "HOME", "TERM", "PARALLEL_SHELL")}
    there = study_on_host(tmp_path, program, tmp_path)
    subprocess.run(there, check=True, cwd=tmp_path, env={**bare, **shell}, stdin=subprocess.DEVNULL)
    lines = (tmp_path / "study" / "joblog").read_text().splitlines()[1:]
    assert endings(lines) == {1: (0, 0), 2: (2, 0)}
    assert {line.split("\t")[1] for line in lines} == {f"{tmp_path}/ssh there"}
    assert failures(tmp_path / "study") == [["refused,1,16", "refused"]]
    assert list((tmp_path / "home").rglob("*.csv")) == []


def test_host_that_cannot_write(tmp_path: pathlib.Path, program: pathlib.Path) -> None:
    """GNU parallel then runs nothing there and ends with status 0. The same command does the runs when the host can write."""
    there = study_on_host(tmp_path, program, tmp_path / "temporary")
    subprocess.run(there, check=True, cwd=tmp_path)
    assert failures(tmp_path / "study") == [["", "no whole text"]] * 2
    (tmp_path / "temporary").mkdir()
    subprocess.run(there, check=True, cwd=tmp_path)
    assert failures(tmp_path / "study") == [["refused,1,16", "refused"]]


AT_FIRST = """#!/bin/sh
# In place of the program: at first it writes what it should not and ends with status 0, and then it solves.
[ -e "{folder}/tried" ] && exec "{program}" "$@"
touch "{folder}/tried"
printf '{text}'
"""


@pytest.mark.parametrize("text, front", [
    ("", ""),
    ("Welcome\\nreport,1\\nend\\n", "Welcome"),
    ("report,1\\nline,zero\\n", "report,1"),
    ("report,1\\nno row\\nend\\n", "report,1"),
    ("report,1\\377\\n", "report,1\ufffd"),
])
def test_run_without_whole_text(tmp_path: pathlib.Path, program: pathlib.Path, text: str, front: str) -> None:
    """It is a failed run, which the same command does again, and no other."""
    small_study(tmp_path)
    (tmp_path / "program").write_text(AT_FIRST.format(folder=tmp_path, program=program, text=text))
    (tmp_path / "program").chmod(0o755)
    arguments = words(tmp_path / "plans" / "good.csv", tmp_path / "study", tmp_path / "program", "--jobs", "1")
    done = subprocess.run(arguments, capture_output=True, text=True, check=True)
    assert "1 plans, of which 1 failed" in done.stderr
    assert failures(tmp_path / "study") == [[front, "no whole text"]]
    for _ in range(2):
        done = subprocess.run(arguments, capture_output=True, text=True, check=True)
        assert "1 plans, of which 0 failed" in done.stderr
        assert failures(tmp_path / "study") == [] and runs_in(tmp_path / "study") == 1


def test_text_that_is_gone(tmp_path: pathlib.Path, program: pathlib.Path) -> None:
    """The run of a plan whose text was lost is done again."""
    arguments = words(small_study(tmp_path), tmp_path / "study", program)
    subprocess.run(arguments, check=True)
    (tmp_path / "study" / "texts" / "1").unlink()
    subprocess.run(arguments, check=True)
    assert failures(tmp_path / "study") == [["refused,1,16", "refused"]]


@pytest.mark.parametrize("status, signal, text, reason", [
    (2, 0, "refused,1,16\n", "refused"),
    (2, 0, "", "status 2"),
    (7, 0, "", "no memory"),
    (127, 0, "", "status 127"),
    (0, 9, "report,1\n", "signal 9"),
    (0, 0, "", "no whole text"),
])
def test_reason(status: int, signal: int, text: str, reason: str) -> None:
    assert reason_of(status, signal, text) == reason


def test_joblog_that_was_cut_short(tmp_path: pathlib.Path) -> None:
    study = Study(tmp_path, [], [], [], [])
    study.joblog.write_text("Seq\tHost\n1\t:\t0\t0.1\t0\t9\t2\t0\ta\n2\t:\t0\t0.")
    mend_joblog(study)
    assert study.joblog.read_text() == "Seq\tHost\n1\t:\t0\t0.1\t0\t9\t2\t0\ta\n"
    study.joblog.write_text("Seq\tHo")
    mend_joblog(study)
    assert study.joblog.read_text() == ""


def test_plans_named_twice(tmp_path: pathlib.Path) -> None:
    plans = small_study(tmp_path)
    with pytest.raises(Exception, match="good.csv is named twice"):
        plans_of([plans, plans / "good.csv"])


def test_ranks() -> None:
    ends = {"a": (0.1, 0.2), "b": (0.2, 0.3), "c": (0.25, 0.4), "d": (0.5, 0.5)}
    table = pandas.DataFrame([(plan, "loss", "", low, high, "share") for plan, (low, high) in ends.items()],
                             columns=["plan", "measure", "subject", "low", "high", "unit"])
    found = ranks(table).set_index("plan")[["below", "above", "not_separated"]]
    assert found.T.to_dict("list") == {"a": [0, 2, 1], "b": [0, 1, 2], "c": [1, 1, 1], "d": [3, 0, 0]}
