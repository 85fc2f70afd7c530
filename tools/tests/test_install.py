"""The installed program, its page of the manual, its completion, and a link to the script that builds it."""
import pathlib
import re
import subprocess

import pytest
from conftest import TOP

PAGE = TOP / "share/man/man1/hypercube.1"
COMPLETION = TOP / "share/bash-completion/completions/hypercube"
VILLAGE = TOP / "examples" / "village"
# Commands that the usage row does not name, since its bytes stay.
UNLISTED = ("reach", "fleet")


@pytest.fixture(scope="module")
def usage(program: pathlib.Path) -> str:
    done = subprocess.run([program], capture_output=True, text=True, check=False)
    assert done.returncode == 1
    return done.stdout


def commands_of(usage: str) -> list[str]:
    """The commands of the usage row, each up to its first argument in capitals."""
    return [form.split()[0] for form in usage.removeprefix("usage: hypercube ").split("[")[0].split(" | ")]


def make(*words: str) -> None:
    subprocess.run(["make", "--silent", *words], cwd=TOP, check=True)


def test_install(tmp_path: pathlib.Path, program: pathlib.Path) -> None:
    make("install", f"prefix={tmp_path}", f"program={program}")
    report = subprocess.run([tmp_path / "bin/hypercube", "solve", f"{VILLAGE}.csv"], capture_output=True, check=True).stdout
    assert report == pathlib.Path(f"{VILLAGE}.report").read_bytes()
    (tmp_path / "report").write_bytes(report)
    tools = tmp_path / "bin/hypercube-tools"
    table = subprocess.run([tools, "table", tmp_path / "report"], capture_output=True, check=True).stdout
    assert b"workload,Ambulance,,0.249999,0.250001,share," in table.splitlines()
    assert (tmp_path / "share/man/man1/hypercube.1").is_file()
    assert (tmp_path / "share/bash-completion/completions/hypercube").is_file()
    make("uninstall", f"prefix={tmp_path}")
    assert [path for path in tmp_path.rglob("*") if path.name != "report" and not path.is_dir()] == []


def test_link_to_the_script(tmp_path: pathlib.Path) -> None:
    """A link finds the scripts of the checkout: here a copy whose build does nothing and whose program is a stand-in."""
    (tmp_path / "checkout/scripts").mkdir(parents=True)
    (tmp_path / "checkout/crates/hypercube/out").mkdir(parents=True)
    (tmp_path / "checkout/hypercube").write_text((TOP / "hypercube").read_text())
    (tmp_path / "checkout/hypercube").chmod(0o755)
    (tmp_path / "checkout/scripts/program.py").write_text("")
    (tmp_path / "checkout/crates/hypercube/out/hypercube").symlink_to("/bin/echo")
    (tmp_path / "link").symlink_to("checkout/hypercube")
    done = subprocess.run([tmp_path / "link", "solve", "x"], capture_output=True, text=True, check=True, cwd="/")
    assert done.stdout == "solve x\n"


def test_manual(usage: str) -> None:
    """The page names each command and option of the usage row, and groff finds nothing to warn of."""
    done = subprocess.run(["groff", "-man", "-ww", "-Tutf8", "-P-cbou", PAGE], capture_output=True, text=True, check=True)
    assert done.stderr == ""
    for command in [*commands_of(usage), *UNLISTED]:
        assert f"hypercube {command} " in done.stdout
    for option in [*re.findall(r"--[a-z-]+", usage), "--method"]:
        assert f"\n       {option}" in done.stdout
    for status in range(8):
        assert f"\n       {status} " in done.stdout


def completed(*words: str) -> list[str]:
    """What the completion offers for the last of these words."""
    script = ('source "$1"; shift; COMP_WORDS=(hypercube "$@"); COMP_CWORD=$#; _hypercube; '
              'printf "%s\\n" "${COMPREPLY[@]}"')
    bash = ["bash", "-c", script, "bash", COMPLETION, *words]
    done = subprocess.run(bash, capture_output=True, text=True, check=True, cwd=TOP)
    return done.stdout.split("\n")[:-1]


def test_completion_knows_the_commands(usage: str) -> None:
    assert {*commands_of(usage), *UNLISTED} <= set(completed(""))


@pytest.mark.parametrize("words, offered", [
    (("so",), ["solve"]),
    (("solve", "examples/vill"), ["examples/village.csv"]),
    (("compare", "examples/where"), ["examples/where-to-station.toml"]),
    (("solve", "examples/village.csv", "--s"), ["--summary"]),
    (("compare", "x.toml", "--w"), ["--width", "--workers"]),
    (("compare", "x.toml", "--s"), [""]),
    (("solve", "x.csv", "--workers", "1"), ["1", "16"]),
    (("sweep", "examples/two-stations.csv", "E"), ["East Station"]),
    (("sweep", "examples/two-stations.csv", "East Station", "t"), ["travel"]),
    (("replay", "x.csv", "examples/vill"), ["examples/village.csv"]),
    (("reach", "examples/vill"), ["examples/village.csv"]),
    (("reach", "x.csv", "4"), ["480"]),
    (("fleet", "examples/vill"), ["examples/village.csv"]),
    (("fleet", "--summary", "examples/vill"), ["examples/village.csv"]),
    (("fleet", "x.csv", "--w"), ["--width"]),
    (("solve", "x.csv", "--method", "c"), ["certificate"]),
    (("compare", "x.toml", "--m"), ["--method"]),
    (("sweep", "x.csv", "--m"), [""]),
])
def test_completion(words: tuple[str, ...], offered: list[str]) -> None:
    assert completed(*words) == offered
