#!/usr/bin/env python3
"""Checks that what docs/proofs.md says is proved stands in the sources.

Each row of its table 'What is proved' ends with the calls that carry the promise, each with the clauses it means in
brackets, as `enclose` (`exact`, `solvable`). A call has to be a public function of one of the row's crates, and has to
have these clauses, or at least one if none is named. A name with a capital letter may be a public type or trait.
"""
import pathlib
import re
import sys

TOP = pathlib.Path(__file__).resolve().parent.parent
PAGE = "docs/proofs.md"
CARRIER = re.compile(r"`([A-Za-z_][\w:]*)`(?: \((`\w+`(?:, `\w+`)*)\))?")
FUNCTION = re.compile(r"^( *)(pub )?(?:final )?fn (\w+)", re.MULTILINE)
TYPE = re.compile(r"^pub (?:struct|enum|trait) (\w+)", re.MULTILINE)
OWNER = re.compile(r"^(?:impl(?:<[^>]*>)?|(pub trait)) (?:[^\n{]* for )?(\w+)", re.MULTILINE)


def sources_of(crate):
    for path in sorted((TOP / "crates" / crate / "src").rglob("*.rt")):
        yield path.read_text()


def contract_from(text, start):
    """The part of a text from a function's name up to its body, or to the `;` that ends a trait's method."""
    end = re.compile(r"^ *\{\}?$|\{\}$|;$", re.MULTILINE).search(text, start)
    return text[start:end.end() if end else len(text)]


def calls_of(crate):
    """Each public call, by its type's name and its own, with the names of its clauses ('' for one without a name)."""
    calls = {}
    for text in sources_of(crate):
        owners = [(found.start(), found.group(1), found.group(2)) for found in OWNER.finditer(text)]
        for found in FUNCTION.finditer(text):
            indent, is_public, name = found.groups()
            owner = [one for one in owners if one[0] < found.start()][-1:] if indent else []
            if not is_public and not any(is_trait for _, is_trait, _ in owner):
                continue
            clauses = re.findall(r"^\s*ensures ?(\w*) ?\{", contract_from(text, found.start()), re.MULTILINE)
            full = f"{owner[0][2]}::{name}" if owner else name
            calls.setdefault(full, set()).update(clauses)
        for found in TYPE.finditer(text):
            calls.setdefault(found.group(1), {""})
    return calls


def rows_of(page):
    table = page.split("## What is proved", 1)[1].split("\n## ", 1)[0]
    rows = [[cell.strip() for cell in row.strip("|").split(" | ")] for row in table.splitlines() if row.startswith("| `")]
    if not rows:
        sys.exit(f"{PAGE}: the table of what is proved has no row")
    return rows


def faults():
    for row in rows_of((TOP / PAGE).read_text()):
        if len(row) != 3:
            yield f"a row has not three cells: {row[0]}"
            continue
        crates = re.findall(r"`(\w+)`", row[0])
        calls = [calls_of(crate) for crate in crates]
        carriers = CARRIER.findall(row[2])
        if not carriers:
            yield f"{row[0]}: no call carries the promise '{row[1]}'"
        for call, clauses in carriers:
            found = [names[call] for names in calls if call in names]
            if not found:
                yield f"{row[0]}: there is no call {call}"
                continue
            have = set().union(*found)
            if not have:
                yield f"{row[0]}: {call} has no clause"
            for clause in re.findall(r"\w+", clauses):
                if clause not in have:
                    yield f"{row[0]}: {call} has no clause {clause}"


if __name__ == "__main__":
    wrong = list(faults())
    good = "each call and clause of the table stands in the sources"
    print("\n".join(f"{PAGE}: {fault}" for fault in wrong or [good]))
    sys.exit(bool(wrong))
