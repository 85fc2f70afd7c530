#!/usr/bin/env python3
"""Runs the commands of README.md and docs/first-plan.md as they stand there: pages.py [PROGRAM]

Those of each page run in an empty folder that has only links to what the page uses of the repository; `./hypercube` is there
the program, if one is named. After a block of commands (```sh) may stand a block of what they write (```text), which has to be
just that. Ends with 1 if a command fails or writes otherwise.
"""
import os
import pathlib
import re
import subprocess
import sys
import tempfile

TOP = pathlib.Path(__file__).resolve().parent.parent
PAGES = ("README.md", "docs/first-plan.md")
BLOCKS = re.compile(r"^```sh\n(.*?)^```\n(?:\n```text\n(.*?)^```\n)?", re.MULTILINE | re.DOTALL)


def place_links(folder, program):
    for name in ("examples", "tools"):
        (folder / name).symlink_to(TOP / name)
    (folder / "hypercube").symlink_to(program)


def first_fault(page, folder):
    """What went wrong in the first block that did not do as the page says, or nothing."""
    for commands, wanted in BLOCKS.findall((TOP / page).read_text()):
        done = subprocess.run(["bash", "-euo", "pipefail", "-c", commands], cwd=folder, text=True, stdin=subprocess.DEVNULL,
                              stdout=subprocess.PIPE, stderr=subprocess.STDOUT, env={**os.environ, "LC_ALL": "C.UTF-8"})
        if done.returncode:
            return f"status {done.returncode} after\n{commands}{done.stdout}"
        if wanted and done.stdout != wanted:
            return f"after\n{commands}these lines are written, and other ones stand in the page:\n{done.stdout}"
    return ""


def try_page(page, program):
    """Whether all commands of a page do as it says."""
    if not BLOCKS.search((TOP / page).read_text()):
        sys.exit(f"{page}: there are no commands")
    with tempfile.TemporaryDirectory(prefix="page-") as folder:
        place_links(pathlib.Path(folder), program)
        fault = first_fault(page, folder)
    print(f"{page}: {fault or 'all commands do as the page says'}")
    return not fault


def main(words):
    program = pathlib.Path(words[0]).resolve() if words else TOP / "hypercube"
    done = [try_page(page, program) for page in PAGES]
    sys.exit(not all(done))


if __name__ == "__main__":
    main(sys.argv[1:])
