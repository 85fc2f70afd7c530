"""What the tests share: the built program, and the tables of the example town."""
import pathlib
import subprocess
from typing import Callable

import pytest

TOP = pathlib.Path(__file__).resolve().parents[2]
TOWN = TOP / "examples" / "town"


def pytest_addoption(parser: pytest.Parser) -> None:
    parser.addoption("--program", type=pathlib.Path, default=TOP / "crates/hypercube/out/hypercube",
                     help="the program that the tests run")


@pytest.fixture(scope="session")
def program(request: pytest.FixtureRequest) -> pathlib.Path:
    path = request.config.getoption("--program").resolve()
    assert path.is_file(), f"{path}: build the program first (./hypercube)"
    return path


@pytest.fixture(scope="session")
def hypercube(program: pathlib.Path) -> Callable[..., str]:
    """Runs the program on these words, and gives what it wrote. It has to end with the status 0."""
    def run(*words: object) -> str:
        done = subprocess.run([program, *map(str, words)], capture_output=True, text=True, check=False)
        assert done.returncode == 0, done.stdout
        return done.stdout
    return run
