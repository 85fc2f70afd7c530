"""What is tried: the texts that runs read, the runs, and how each odd run has to end."""
import dataclasses

MOST_BYTES = 4194304
MEGABYTES = 40
# A row of four million fields is one record, which is kept whole until it is judged, as a study is.
MEGABYTES_OF_ONE_ROW = 140
MEGABYTES_OF_A_STUDY = 140

USAGE = (b"usage: hypercube solve FILE | compare STUDY | make UNITS NUMBER | finite FILE PLACES | pairs FILE PERCENT"
         b" | sweep FILE UNIT MEASURE | replay FILE DAY [--width W] [--time-width W] [--workers N] [--summary]\n")


def rarely_sent(stations):
    """A fleet of so many stations at one point, with so few calls that the last one is hardly ever sent."""
    names = [f"S{number}" for number in range(1, stations + 1)]
    rows = ["version,3", *(f"unit,{name},{1_000_000 // stations}\nat,{name},P,1000" for name in names)]
    rows += ["atom,P,1,0,0,S1", "travel,P,P,300", f"prefer,P,{','.join(names)}"]
    return "\n".join(rows) + "\n"


def street(atoms):
    """A plan of two units and so many atoms along a street."""
    places = range(1, atoms + 1)
    rows = ["rule,modified", "unit,A,9", "unit,B,9", "at,A,Z1,1000", "at,B,Z1,1000"]
    rows += [f"atom,Z{place},1,{place},0,A" for place in places]
    rows += [f"travel,Z{start},Z{end},{9 * abs(start - end)}" for start in places for end in places]
    return "\n".join(rows) + "\n"


FILES = {
    "one.csv": "unit,A,2\natom,P,1,0,0,A\ntravel,P,P,300\nat,A,P,1000\nprefer,P,A\n",
    "queue.csv": "unit,A,3\natom,P,1,0,0,A\ntravel,P,P,300\nat,A,P,1000\nprefer,P,A\nline,infinite\n",
    "two.csv": "unit,A,3\nunit,B,3\natom,P,1,0,0,A\natom,Q,1,9,0,B\ntravel,P,P,60\ntravel,P,Q,300\ntravel,Q,P,300\n"
               "travel,Q,Q,60\nat,A,P,1000\nat,B,Q,1000\nprefer,P,A,B\nprefer,Q,B,A\n",
    "wide.csv": "unit,A,300000\nunit,B,300000\nunit,C,300000\natom,P,1,0,0,A\ntravel,P,P,300\nat,A,P,1000\nat,B,P,1000\n"
                "at,C,P,1000\nprefer,P,A,B,C\n",
    "group.csv": "version,2\nunit,A,3\nunit,B,3\natom,P,1,0,0,A\ntravel,P,P,60\nat,A,P,1000\nat,B,P,1000\ngroup,P,A,B\n",
    "fleet.csv": "version,3\ncrews,A,3\nunit,A,3\nunit,B,3\natom,P,1,0,0,A\natom,Q,1,9,0,B\ntravel,P,P,60\ntravel,P,Q,300\n"
                 "travel,Q,P,300\ntravel,Q,Q,60\nat,A,P,1000\nat,B,Q,1000\nprefer,P,A,B\nprefer,Q,B,A\n",
    "crowd.csv": "version,3\ncrews,A,101\ncrews,B,100\nunit,A,3\nunit,B,3\natom,P,1,0,0,A\ntravel,P,P,60\nat,A,P,1000\n"
                 "at,B,P,1000\nprefer,P,A,B\n",
    "rare.csv": rarely_sent(5),
    "street.csv": street(20),
    "wrong.csv": "Unit,A,2\n",
    "day.csv": "call,0,P\ncall,10,P\ncall,20,Q\nfree,30,A\ncall,40,Q\nfree,50,B\n",
    "idle.csv": "free,5,A\n",
    "both.toml": 'plans = ["two.csv", "one.csv"]\nmeasures = ["loss"]\n',
    "twice.toml": 'plans = ["two.csv", "two.csv"]\nmeasures = ["loss"]\n',
    "gone.toml": 'plans = ["two.csv", "gone.csv"]\nmeasures = ["loss"]\n',
    "into.toml": 'plans = ["two.csv", "folder"]\nmeasures = ["loss"]\n',
    "long.toml": f'plans = ["two.csv", "{"a" * 256}"]\nmeasures = ["loss"]\n',
}
EIGHT = "examples/city-of-eight.csv"
STUDY = "examples/where-to-station.toml"

# Runs whose allocations are refused, and how many of the numbers are tried at most.
MEMORY_RUNS = (
    ("solve two.csv", 2000),
    ("solve queue.csv", 2000),
    ("compare both.toml", 2000),
    ("solve wrong.csv", 2000),
    ("solve wide.csv --time-width 2", 2000),
    ("finite two.csv 2", 2000),
    ("finite queue.csv 1", 400),
    ("pairs two.csv 50", 2000),
    ("pairs group.csv 50", 400),
    ("sweep two.csv C travel", 400),
    ("replay two.csv day.csv", 2000),
    ("replay two.csv idle.csv", 400),
    ("reach two.csv 60,300", 2000),
    ("reach queue.csv 300", 400),
    ("solve two.csv --method certificate", 2000),
    ("solve queue.csv --method certificate", 400),
    ("compare both.toml --method certificate", 2000),
    ("fleet fleet.csv", 2000),
    ("fleet queue.csv", 400),
    ("fleet crowd.csv", 400),
    ("fleet rare.csv --time-width 2", 2000),
    ("make 10 7", 400),
    (f"compare {STUDY}", 400),
    ("solve two.csv --workers 4", 400),
    (f"solve {EIGHT} --workers 4", 400),
    ("compare both.toml --workers 2", 400),
    ("sweep two.csv B travel", 2000),
    ("sweep street.csv B travel", 400),
    ("", 400),
)
READING_RUNS = ("solve two.csv", "solve queue.csv", "compare both.toml", "compare twice.toml", f"compare {STUDY}",
                "finite two.csv 2", "pairs two.csv 50", "sweep two.csv B travel", "replay two.csv day.csv",
                "reach two.csv 60,300", "solve two.csv --method certificate", "compare both.toml --method certificate",
                "fleet fleet.csv")
WRITING_RUNS = ("solve two.csv", "compare both.toml", "make 2 7", "finite two.csv 2", "pairs two.csv 50",
                "sweep two.csv B travel", "replay two.csv day.csv", "reach two.csv 60,300", "solve two.csv --method certificate",
                "fleet fleet.csv", "solve wrong.csv", "solve wide.csv --time-width 2", "fleet rare.csv --time-width 2", "")
# A run by one worker, and a run that has to write the same with threads. A sweep has as many as there are processors.
THREAD_RUNS = (
    *((line, f"{line} --workers {workers}")
      for line in ("solve two.csv", f"solve {EIGHT}", "compare both.toml", f"compare {STUDY}") for workers in (2, 4, 16)),
    ("sweep two.csv B travel", "sweep two.csv B travel"),
    ("sweep street.csv B travel", "sweep street.csv B travel"),
    ("solve two.csv --method certificate", "solve two.csv --method certificate --workers 4"),
    ("compare both.toml --method certificate", "compare both.toml --method certificate --workers 4"),
)

# Words, how the run ends, and what it writes.
PLACES = (
    (["solve", "folder"], "unread", b""),
    (["solve", "one.csv/x"], "unread", b""),
    (["solve", "round"], "unread", b""),
    (["solve", "gone.csv"], "absent", b""),
    (["solve", "dangling"], "absent", b""),
    (["solve", "a" * 255], "absent", b""),
    (["solve", "a" * 256], "usage", USAGE),
    (["solve", "/dev/null"], "refused", b"refused,1,15\n"),
    (["solve", "/dev/zero"], "refused", b"refused,1,2,4194305\n"),
    (["compare", "folder"], "unread", b""),
    (["compare", "gone.csv"], "absent", b""),
    (["compare", "gone.toml"], "absent", b""),
    (["compare", "into.toml"], "unread", b""),
    (["compare", "long.toml"], "refused", b"refused,0,60\n"),
    (["compare", "/dev/zero"], "refused", b"refused,0,63,4194305\n"),
    (["finite", "folder", "1"], "unread", b""),
    (["finite", "gone.csv", "1"], "absent", b""),
    (["finite", "queue.csv", "1"], "refused", b"refused,1,80\n"),
    (["finite", "/dev/zero", "1"], "refused", b"refused,1,2,4194305\n"),
    (["pairs", "folder", "1"], "unread", b""),
    (["pairs", "gone.csv", "1"], "absent", b""),
    (["pairs", "queue.csv", "1"], "refused", b"refused,1,82\n"),
    (["pairs", "group.csv", "1"], "refused", b"refused,1,84,1\n"),
    (["pairs", "/dev/zero", "1"], "refused", b"refused,1,2,4194305\n"),
    (["sweep", "folder", "A", "loss"], "unread", b""),
    (["sweep", "gone.csv", "A", "loss"], "absent", b""),
    (["sweep", "two.csv", "C", "loss"], "refused", b"refused,1,85\n"),
    (["sweep", "/dev/zero", "A", "loss"], "refused", b"refused,1,2,4194305\n"),
    (["replay", "folder", "day.csv"], "unread", b""),
    (["replay", "gone.csv", "day.csv"], "absent", b""),
    (["replay", "two.csv", "folder"], "unread", b""),
    (["replay", "two.csv", "gone.csv"], "absent", b""),
    (["replay", "wrong.csv", "gone.csv"], "refused", b"refused,1,3,1\n"),
    (["replay", "two.csv", "two.csv"], "refused", b"refused,2,92,1\n"),
    (["replay", "two.csv", "idle.csv"], "refused", b"refused,2,95,1\n"),
    (["replay", "two.csv", "/dev/zero"], "refused", b"refused,2,90,4194305\n"),
    (["reach", "folder", "1"], "unread", b""),
    (["reach", "gone.csv", "1"], "absent", b""),
    (["reach", "wrong.csv", "1"], "refused", b"refused,1,3,1\n"),
    (["reach", "/dev/zero", "1"], "refused", b"refused,1,2,4194305\n"),
    (["fleet", "folder"], "unread", b""),
    (["fleet", "gone.csv"], "absent", b""),
    (["fleet", "wrong.csv"], "refused", b"refused,1,3,1\n"),
    (["fleet", "group.csv"], "refused", b"refused,1,3,8\n"),
    (["fleet", "crowd.csv"], "refused", b"refused,1,101,201\n"),
    (["fleet", "/dev/zero"], "refused", b"refused,1,2,4194305\n"),
    (["solve", "fleet.csv"], "refused", b"refused,1,3,2\n"),
    (["solve", "rare.csv"], "refused", b"refused,1,50,1\n"),
    (["solve", "gone.csv", "--method", "certificate"], "absent", b""),
    (["compare", "folder", "--method", "certificate"], "unread", b""),
    ([b"\xff"], "usage", USAGE),
    (["solve", b"two\xff.csv"], "usage", USAGE),
    (["solve", "two.csv", b"--workers=\xff"], "usage", USAGE),
    (["make", "2", b"\xff"], "usage", USAGE),
    (["finite", "two.csv", b"\xff"], "usage", USAGE),
    (["pairs", "two.csv", b"\xff"], "usage", USAGE),
    (["sweep", "two.csv", b"\xff", "loss"], "usage", USAGE),
    (["sweep", "two.csv", "A" * 33, "loss"], "usage", USAGE),
    (["replay", "two.csv", b"\xff"], "usage", USAGE),
    (["reach", "two.csv", b"\xff"], "usage", USAGE),
    (["reach", "two.csv", "2,1"], "usage", USAGE),
    (["solve", "two.csv", "--method", "gauss"], "usage", USAGE),
    (["fleet", "fleet.csv", b"\xff"], "usage", USAGE),
    (["fleet", "fleet.csv", "--workers", "2"], "usage", USAGE),
    (["fleet", "fleet.csv", "--method", "certificate"], "usage", USAGE),
)


@dataclasses.dataclass(frozen=True)
class Text:
    """A text that is refused by this row: its file's name, its front, the piece that fills it, its end, and its bytes at most."""
    name: str
    row: bytes
    piece: bytes
    front: bytes = b""
    end: bytes = b""
    size: int = MOST_BYTES
    megabytes: int = MEGABYTES


# The words before a long text, by the ending of its name.
FRONTS = {".csv": ["solve"], ".toml": ["compare"], ".day": ["replay", "two.csv"], ".fleet": ["fleet"]}
TEXTS = (
    Text("lines of one letter.csv", b"refused,1,3,1\n", b"a\n"),
    Text("lines of one comma.csv", b"refused,1,7,50001\n", b",\n"),
    Text("lines of empty quotes.csv", b"refused,1,7,50001\n", b'"",""\n'),
    Text("empty lines.csv", b"refused,1,15\n", b"\n"),
    Text("notes.csv", b"refused,1,7,50001\n", b"note,x\n"),
    Text("units.csv", b"refused,1,7,50001\n", b"unit,A,2\n"),
    Text("travels.csv", b"refused,1,15\n", b"travel," + b"a" * 32 + b"," + b"b" * 32 + b"," + b" " * 10 + b"1\n"),
    Text("lists.csv", b"refused,1,15\n", b"prefer" + (b"," + b"a" * 32) * 13 + b"\n"),
    Text("lists of short names.csv", b"refused,1,7,50001\n", b"prefer" + b",a" * 13 + b"\n"),
    Text("rows of ten fields.csv", b"refused,1,7,50001\n", b"note,,,,,,,,,x\n"),
    Text("rows of a thousand fields.csv", b"refused,1,15\n", b"note" + b",x" * 999 + b"\n"),
    Text("quotes.csv", b"refused,1,3,1\n", b'"'),
    Text("an open quote.csv", b"refused,1,3,1\n", b"a\n", front=b'"'),
    Text("carriage returns.csv", b"refused,1,15\n", b"\r"),
    Text("marks.csv", b"refused,1,15\n", b"\xef\xbb\xbf"),
    Text("one line.csv", b"refused,1,3,1\n", b"a"),
    Text("one name.csv", b"refused,1,6,1,2\n", b"a", front=b"unit,", end=b",2\n"),
    Text("one row of commas.csv", b"refused,1,15\n", b",", megabytes=MEGABYTES_OF_ONE_ROW),
    Text("one row of letters.csv", b"refused,1,4,1\n", b",a", front=b"unit", end=b"\n", megabytes=MEGABYTES_OF_ONE_ROW),
    Text("a byte too many.csv", b"refused,1,2,4194305\n", b"a", size=MOST_BYTES + 1),
    Text("a byte too many.day", b"refused,2,90,4194305\n", b"a", size=MOST_BYTES + 1),
    Text("lines of one comma.day", b"refused,2,91,50001\n", b",\n"),
    Text("lines of one letter.day", b"refused,2,92,1\n", b"a\n"),
    Text("calls.day", b"refused,2,91,50001\n", b"call,0,P\n"),
    Text("calls from nowhere.day", b"refused,2,93,1\n", b"a", front=b"call,0,", end=b"\n"),
    Text("one row of letters.day", b"refused,2,92,1\n", b",a", front=b"call", end=b"\n", megabytes=MEGABYTES_OF_ONE_ROW),
    Text("an open quote.day", b"refused,2,92,1\n", b"a\n", front=b'"'),
    Text("a byte too many.fleet", b"refused,1,2,4194305\n", b"a", size=MOST_BYTES + 1),
    Text("crews.fleet", b"refused,1,7,50001\n", b"crews,A,2\n", front=b"version,3\n"),
    Text("one name of crews.fleet", b"refused,1,6,2,2\n", b"a", front=b"version,3\ncrews,", end=b",2\n"),
    Text("a byte too many.toml", b"refused,0,63,4194305\n", b"#", size=MOST_BYTES + 1),
    Text("comments.toml", b"refused,0,60\n", b"#\n"),
    Text("open brackets.toml", b"refused,0,60\n", b"[", front=b"plans = "),
    Text("open braces.toml", b"refused,0,60\n", b"{a=", front=b"plans = "),
    Text("dots.toml", b"refused,0,60\n", b"a.", end=b"a = 1\n"),
    Text("tables.toml", b"refused,0,60\n", b"[[a]]\n"),
    Text("open text.toml", b"refused,0,60\n", b"a", front=b'plans = ["'),
    Text("a million plans.toml", b"refused,0,62,1048568\n", b'"a",', front=b"plans = [", end=b'"a"]\nmeasures = ["loss"]\n',
         megabytes=MEGABYTES_OF_A_STUDY),
    Text("numbers.toml", b"refused,0,60\n", b"1,", front=b"plans = [", end=b"1]\n", megabytes=MEGABYTES_OF_A_STUDY),
    Text("empty arrays.toml", b"refused,0,60\n", b"[],", front=b"plans = [", end=b"1]\n", megabytes=MEGABYTES_OF_A_STUDY),
    Text("measures.toml", b"refused,0,60\n", b'"loss",', front=b'plans = ["a", "b"]\nmeasures = [', end=b'"loss"]\n',
         megabytes=MEGABYTES_OF_A_STUDY),
)
