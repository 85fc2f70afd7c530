"""Where a plan stands among many, as far as intervals tell: nothing that is not separated is ranked."""
from bisect import bisect_left, bisect_right

import pandas

RANK_COLUMNS = ["measure", "plan", "low", "high", "unit", "below", "above", "not_separated"]


def ranks(table: pandas.DataFrame) -> pandas.DataFrame:
    """For each measure of the whole region and each plan: how many other plans are certainly below it, how many are certainly
    above it, and how many neither. The plans stay in their order."""
    regional = table[(table["subject"] == "") & table["low"].notna() & table["unit"].isin(["share", "calls", "seconds"])]
    parts = [ranks_of(rows) for _, rows in regional.groupby("measure", sort=False)]
    return pandas.concat(parts, ignore_index=True) if parts else pandas.DataFrame(columns=RANK_COLUMNS)


def ranks_of(rows: pandas.DataFrame) -> pandas.DataFrame:
    lows, highs = sorted(rows["low"]), sorted(rows["high"])
    below = [bisect_left(highs, low) for low in rows["low"]]
    above = [len(lows) - bisect_right(lows, high) for high in rows["high"]]
    others = [len(rows) - 1 - less - more for less, more in zip(below, above)]
    return rows.assign(below=below, above=above, not_separated=others)[RANK_COLUMNS]
