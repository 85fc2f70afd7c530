"""The runs, and what each has to say on standard error."""
import dataclasses

PLAN = """unit,A,3
unit,B,3
atom,P,1,0,0,A
atom,Q,1,9,0,B
travel,P,P,60
travel,P,Q,300
travel,Q,P,300
travel,Q,Q,60
at,A,P,1000
at,B,Q,1000
prefer,P,A,B
prefer,Q,B,A
"""


@dataclasses.dataclass(frozen=True)
class Case:
    """The words of a run, its files by their names, its status, and what it says in front of the help, if that follows."""
    name: str
    words: list
    files: dict
    status: int
    said: str
    helps: bool = False
    # The command that it is a case of, if the usage line may not name it yet.
    command: str = ""


def changed(*pairs):
    """The plan with parts replaced, each of which stands in it."""
    text = PLAN
    for old, new in pairs:
        assert old in text, old
        text = text.replace(old, new)
    return text


def many(count, form):
    """So many lines of a form, with the numbers from 1 on."""
    return "".join(form.format(number) + "\n" for number in range(1, count + 1))


def plan(name, text, said):
    """A plan that `solve` refuses."""
    return Case(name, ["solve", "town.csv"], {"town.csv": text}, 2, said)


def study(name, text, said):
    """A study that `compare` refuses."""
    return Case(name, ["compare", "study.toml"], {"study.toml": text, "town.csv": PLAN}, 2, said)


def usage(words, said):
    """Words that are no command."""
    return Case(" ".join(map(str, words)), words, {"town.csv": PLAN}, 1, said, helps=True)


def day(name, text, said):
    """A recorded day that `replay` refuses."""
    files = {"town.csv": PLAN, "day.csv": text}
    return Case(name, ["replay", "town.csv", "day.csv"], files, 2, said, command="replay")


def fleet(name, text, said):
    """A fleet that is refused."""
    return Case(name, ["fleet", "town.csv"], {"town.csv": text}, 2, said)


def many_units(count):
    """A plan of so many units at one atom."""
    names = [f"U{number}" for number in range(1, count + 1)]
    return ("".join(f"unit,{name},1\nat,{name},P,1000\n" for name in names)
            + f"atom,P,1,0,0,U1\ntravel,P,P,1\nprefer,P,{','.join(names)}\n")


QUEUE = changed(("unit,A,3", "unit,A,9")) + "line,infinite\n"
WIDE = changed(("unit,A,3", "unit,A,300000"), ("unit,B,3", "unit,B,300000")) + "unit,C,300000\nat,C,P,1000\n"
WIDE = WIDE.replace("prefer,P,A,B", "prefer,P,A,B,C").replace("prefer,Q,B,A", "prefer,Q,B,A,C")
LOADED = many_units(7).replace("atom,P,1,", "atom,P,1000000,")
FLEET = "version,3\ncrews,A,4\n" + PLAN
GROUPS = "version,2\n" + PLAN.replace("prefer", "group")
STUDY = 'plans = ["town.csv", "{}"]\nmeasures = ["{}"]\n'

HELP = """Write hypercube, a command and its options:
  solve PLAN                all measures of a plan
  compare STUDY             2 to 16 plans, which a TOML file names, by 1 to 16 measures
  make UNITS NUMBER         a plan to try things on: UNITS from 2 to 10, NUMBER from 0 to 4,294,967,295
  finite PLAN PLACES        a plan if only so many calls can wait: PLACES from 1 to 1,000
  pairs PLAN PERCENT        a plan if so many of a hundred calls need two units: PERCENT from 0 to 100
  sweep PLAN UNIT MEASURE   where to put a unit: MEASURE is loss, delay, interdistrict or travel
  replay PLAN DAY           a recorded day beside the plan
  reach PLAN SECONDS        which share of calls is reached in time: SECONDS is 1 to 16 numbers, as 240,480,720
  fleet FLEET               all measures of a fleet: up to 200 crews, alike at each of up to twelve stations
Options of solve, compare and fleet, in any place:
  --width W                 how far the ends of a share may lie apart, in millionths: 2 to 999,999,999; default: any
  --time-width W            how far the ends of a time may, in thousandths of a second: 2 to 999,999,999; default: any
  --workers N               not for fleet: how many processors share the work, 1 to 16; default: 1
  --summary                 not for compare: only the measures of the whole region; default: all measures
  --method METHOD           not for fleet: how intervals are found, elimination or certificate; default: elimination
A width is written --width 500 or --width=500. After -- a word that begins with a dash is a name.
Names of files begin in the current folder. The report goes to standard output, all else to standard error.
The exit status is 0 for a report, 1 for words that are no command, 2 for a text or a number that is refused,
3 for a measure that is wider than was asked, 4 for a file that is not there, 5 for one that was not read,
6 for output that was not written, and 7 for lack of memory.
"""
# The toolchain is that of the README.
VERSION = "proved with rattle-kit-13f logic dac8208d650f15bf"
UNWRITTEN = ("the output was not written whole: the disk is full, or whatever was to read it has ended. What stands there is "
             "only its beginning: make room, and run the same again.")

# Each refusal of a plan.
PLANS = (
    plan("1: a name in Windows-1252", PLAN.encode().replace(b"unit,A,", b"unit,Stra\xdfe,"),
         'town.csv, record 1 (line 1), field 2: "Stra\\xDFe" is not UTF-8. If the file is in Windows-1252 or '
         "Latin-1, save it as UTF-8. (refusal 1)"),
    plan("2: too long", PLAN + "#" * 4194304,
         "town.csv: the file has more than 4,194,304 bytes. Is it the file that was meant? Take out what the "
         "program does not need. (refusal 2)"),
    plan("3: capitals", changed(("unit,B,3", "Unit,B,3")),
         'town.csv, record 2 (line 2): "Unit" is no kind of record. Write unit, in small letters. (refusal 3)'),
    plan("3: semicolons", PLAN.replace(",", ";"),
         'town.csv, record 1 (line 1): "unit;A;3" is no kind of record. Semicolons do not separate fields: '
         "save the file with commas. (refusal 3)"),
    plan("3: tabs", PLAN.replace(",", "\t"),
         'town.csv, record 1 (line 1): "unit\\u{9}A\\u{9}3" is no kind of record. Tabs do not separate fields: '
         "save the file with commas. (refusal 3)"),
    plan("3: headings", "kind,name,rate\n" + PLAN,
         'town.csv, record 1 (line 1): "kind" is no kind of record. If it is a row of headings, take it out, '
         "or write note, in front of it. A record begins with version, line, rule, period, unit, atom, travel,"
         " at, prefer, group or note. (refusal 3)"),
    plan("3: groups before their version", changed(("prefer,P,A,B", "group,P,A,B")),
         'town.csv, record 11 (line 11): "group" is no kind of record. Groups are known only after a record '
         "version,2: put it first. (refusal 3)"),
    plan("3: crews of a plan", FLEET,
         'town.csv, record 2 (line 2): "crews" is no kind of record. Crews are known only to the command fleet. '
         "(refusal 3)"),
    plan("3: UTF-16", PLAN.encode("utf-16"),
         'town.csv, record 1 (line 1): "\\xFF\\xFEu\\x00n\\x00i\\x00t\\x00" is no kind of record. The file seems to '
         "be in UTF-16: save it as UTF-8. (refusal 3)"),
    plan("3: an open quote", changed(("travel,P,P", '"travel,P,P')),
         'town.csv, record 5 (line 5): "travel,P,P,60\\u{a}travel,P,Q,300\\u{a}travel,Q,P,"... is no kind of '
         "record. A double quote holds several fields together: take it out, or close it. (refusal 3)"),
    plan("3: another word", PLAN + "trip,P,Q,3\n",
         'town.csv, record 13 (line 13): "trip" is no kind of record. A record begins with version, line, '
         "rule, period, unit, atom, travel, at, prefer, group or note. (refusal 3)"),
    plan("4: too few", changed(("unit,A,3", "unit,A")),
         "town.csv, record 1 (line 1): a record of this kind is written unit,UNIT,RATE, and this one has 2 "
         "fields, unit included. Write what is missing. Semicolons and tabs do not separate fields. (refusal "
         "4)"),
    plan("4: too many", changed(("unit,A,3", "unit,A,2,5")),
         "town.csv, record 1 (line 1): a record of this kind is written unit,UNIT,RATE, and this one has 4 "
         "fields, unit included. Take out what is too much. A comma in a number or in a name separates fields."
         " (refusal 4)"),
    plan("4: a list of thirteen", PLAN + "prefer,P" + ",A" * 13 + "\n",
         "town.csv, record 13 (line 13): a record of this kind is written prefer,ATOM,UNIT,UNIT.. with one to "
         "twelve units, and this one has 15 fields, prefer included. A plan has at most twelve units. (refusal"
         " 4)"),
    plan("5: a decimal rate", changed(("unit,A,3", "unit,A,2.5")),
         'town.csv, record 1 (line 1), field 3: the service rate "2.5" is no whole number from 1 to 1,000,000.'
         " A rate is a whole number of services in a period: choose a longer period, as period,86400 for a "
         "day, and multiply all rates of calls and of service, or a shorter one if a rate is too large. "
         "(refusal 5)"),
    plan("5: no rate of calls", changed(("atom,P,1,", "atom,P,,")),
         'town.csv, record 3 (line 3), field 3: the call rate "" is no whole number from 0 to 1,000,000. Write'
         " a number there. (refusal 5)"),
    plan("5: a point left of the origin", changed(("atom,P,1,0,0", "atom,P,1,-20,0")),
         'town.csv, record 3 (line 3), field 4: the coordinate x "-20" is no whole number from 0 to 1,000,000.'
         " Subtract the coordinates of one origin from all points, and round them, in metres for instance. "
         "(refusal 5)"),
    plan("5: a point far away", changed(("atom,P,1,0,0", "atom,P,1,0,4000000")),
         'town.csv, record 3 (line 3), field 5: the coordinate y "4000000" is no whole number from 0 to '
         "1,000,000. Subtract the coordinates of one origin from all points, and round them, in metres for "
         "instance. (refusal 5)"),
    plan("5: a mark between thousands", changed(("travel,P,P,60", "travel,P,P,1 200")),
         'town.csv, record 5 (line 5), field 4: the travel time "1 200" is no whole number from 0 to 100,000. '
         "Write digits without a space or a mark between thousands. (refusal 5)"),
    plan("5: a unit of measurement", changed(("travel,P,P,60", "travel,P,P,60s")),
         'town.csv, record 5 (line 5), field 4: the travel time "60s" is no whole number from 0 to 100,000. '
         "Write digits only, without a unit of measurement. (refusal 5)"),
    plan("5: no time at an atom", changed(("at,A,P,1000", "at,A,P,0")),
         'town.csv, record 9 (line 9), field 4: the part of a unit\'s time at an atom "0" is no whole number '
         "from 1 to 1,000. Write thousandths: 1000 for all of its time, 500 for half. Leave out what is 0. "
         "(refusal 5)"),
    plan("5: no period", PLAN + "period,0\n",
         'town.csv, record 13 (line 13), field 2: the period "0" is no whole number from 1 to 100,000,000. '
         "Write the period in whole seconds: an hour is 3600, a day 86400. (refusal 5)"),
    plan("5: no version", PLAN + "version,two\n",
         'town.csv, record 13 (line 13), field 2: the version "two" is no whole number from 0 to 999,999,999. '
         "Write digits only, without a unit of measurement. (refusal 5)"),
    plan("5: one semicolon", changed(("travel,P,P,60", "travel,P,P,60;1")),
         'town.csv, record 5 (line 5), field 4: the travel time "60;1" is no whole number from 0 to 100,000. '
         "Semicolons do not separate fields: save the file with commas. (refusal 5)"),
    plan("6: no line", PLAN + "line,none\n",
         'town.csv, record 13 (line 13), field 2: "none" stands for no line. Write line,zero or line,infinite.'
         " (refusal 6)"),
    plan("6: a line in capitals", PLAN + "line,Infinite\n",
         'town.csv, record 13 (line 13), field 2: "Infinite" stands for no line. Write infinite, in small '
         "letters. (refusal 6)"),
    plan("6: a rule with a wrong letter", PLAN + "rule,strikt\n",
         'town.csv, record 13 (line 13), field 2: "strikt" stands for no rule. Write strict, in small letters.'
         " (refusal 6)"),
    plan("6: an empty name", changed(("unit,A,3", "unit,,3")),
         'town.csv, record 1 (line 1), field 2: "" is no name of a unit. Write a name there. (refusal 6)'),
    plan("6: a long name", changed(("atom,P,", "atom," + "ä" * 21 + ",")),
         'town.csv, record 3 (line 3), field 2: "ääääääääääääääääääää"... is no name of an atom. A name has at'
         " most 32 bytes, and letters with accents have two or more: shorten it. (refusal 6)"),
    plan("6: a control code", changed(("unit,A,3", "unit,\x1b[31mA,3")),
         'town.csv, record 1 (line 1), field 2: "\\u{1b}[31mA" is no name of a unit. A name has no ends of '
         "lines and no other control codes: take them out. (refusal 6)"),
    plan("6: a comma", changed(("unit,A,3", 'unit,"A,B",3')),
         'town.csv, record 1 (line 1), field 2: "A,B" is no name of a unit. A name has no commas: take it out.'
         " (refusal 6)"),
    plan("6: a quote", changed(("unit,A,3", 'unit,"A""B",3')),
         'town.csv, record 1 (line 1), field 2: "A"B" is no name of a unit. A name has no double quotes: take '
         "it out. (refusal 6)"),
    plan("7: too many records", many(50000, "note,{}") + PLAN,
         "town.csv, record 50001 (line 50001): a text has at most 50,000 records, and notes and rows of blanks"
         " count. Take out what is not needed. (refusal 7)"),
    plan("10", PLAN + "atom,P,2,0,0,A\n",
         'town.csv, record 13 (line 13): the atom "P" has two records, and the first is record 3 (line 3). '
         "Delete one, or give one another name. (refusal 10)"),
    plan("11: after blank lines, a note of two lines and returns",
         "\n\nnote,\"two\nlines\"\r\n" + PLAN.replace("\n", "\r\n") + "unit,A,4",
         'town.csv, record 14 (line 17): the unit "A" has two records, and the first is record 2 (line 5). '
         "Delete one, or give one another name. (refusal 11)"),
    plan("11: after byte order marks", b"\xef\xbb\xbf" * 2 + b"\n\r\n,,\n" + PLAN.encode() + b"unit,A,4",
         'town.csv, record 14 (line 16): the unit "A" has two records, and the first is record 2 (line 4). '
         "Delete one, or give one another name. (refusal 11)"),
    plan("11: lines that end in returns", (PLAN + "unit,A,4").replace("\n", "\r"),
         'town.csv, record 13 (line 13): the unit "A" has two records, and the first is record 1 (line 1). '
         "Delete one, or give one another name. (refusal 11)"),
    plan("12", PLAN + many(199, "atom,X{},1,0,0,A"),
         'town.csv, record 211 (line 211): "X199" is the 201st of 201 atoms, and a plan has at most 200. Join '
         "atoms that lie together, and add up their call rates. (refusal 12)"),
    plan("13", PLAN + many(11, "unit,U{},1"),
         'town.csv, record 23 (line 23): "U11" is the 13th of 13 units, and a plan has at most 12. Leave out '
         "units that hardly help each other, in a plan of their own. (refusal 13)"),
    plan("14: an unknown atom", PLAN + "at,A,X,1\n",
         'town.csv, record 13 (line 13), field 3: no atom has the name "X". Add a record for it, or name '
         "another. (refusal 14)"),
    plan("14: another case", changed(("prefer,P,A,B", "prefer,P,a,B")),
         'town.csv, record 11 (line 11), field 3: no unit has the name "a". The nearest name is "A", of record'
         " 1 (line 1): capitals, blanks and accents count. (refusal 14)"),
    plan("14: another letter", PLAN.replace(",P,", ",Market Square,").replace("at,A,Market Square", "at,A,Market Sqare"),
         'town.csv, record 5 (line 5), field 3: no atom has the name "P". Add a record for it, or name '
         "another. (refusal 14)"),
    plan("15: an empty text", "",
         "town.csv: the text has no record. Is it the file that was meant? (refusal 15)"),
    plan("15: only atoms", "atom,P,1,0,0,A\n",
         "town.csv: there is no unit. Add a record unit,UNIT,RATE for each unit. (refusal 15)"),
    plan("16", "unit,A,3\n",
         "town.csv: there is no atom. Add a record atom,ATOM,RATE,X,Y,UNIT for each atom, a station without "
         "calls too. (refusal 16)"),
    plan("17", changed(("atom,P,1,", "atom,P,0,"), ("atom,Q,1,", "atom,Q,0,")),
         "town.csv: the call rates of all atoms (2) are 0. Write the calls of a period in the third field of "
         "the atoms' records. If they were rounded to 0, choose a longer period. (refusal 17)"),
    plan("18", changed(("atom,P,1,", "atom,P,1000000,")),
         "town.csv: the call rates of the plan come to 1,000,001 in all, more than 1,000,000. Choose a shorter"
         " period, and divide all rates of calls and of service. (refusal 18)"),
    plan("19", changed(("unit,A,3", "unit,A,1000000"), ("unit,B,3", "unit,B,1")),
         "town.csv: the service rates of the plan come to 1,000,001 in all, more than 1,000,000. Choose a "
         "shorter period, and divide all rates of calls and of service. (refusal 19)"),
    plan("20", PLAN + "travel,P,Q,1\n",
         'town.csv, record 13 (line 13): the travel time from "P" to "Q" is given twice, first in record 6 '
         "(line 6). Delete one. (refusal 20)"),
    plan("21: one", changed(("travel,Q,P,300\n", "")),
         'town.csv: 1 of 4 travel times is missing: from "Q" to "P". Add a record travel,FROM,TO,SECONDS for '
         "each, in both directions, and from each atom to itself. (refusal 21)"),
    plan("21: more than twenty", PLAN + many(3, "atom,X{},1,0,0,A"),
         'town.csv: 21 of 25 travel times are missing: from "P" to "X1", from "P" to "X2", from "P" to "X3", '
         'from "Q" to "X1", from "Q" to "X2", from "Q" to "X3", from "X1" to "P", from "X1" to "Q", from "X1" '
         'to "X1", from "X1" to "X2", from "X1" to "X3", from "X2" to "P", from "X2" to "Q", from "X2" to '
         '"X1", from "X2" to "X2", from "X2" to "X3", from "X3" to "P", from "X3" to "Q", from "X3" to "X1", '
         'from "X3" to "X2" and others. Add a record travel,FROM,TO,SECONDS for each, in both directions, and '
         "from each atom to itself. (refusal 21)"),
    plan("30", PLAN + "at,A,P,1\n",
         'town.csv, record 13 (line 13): the unit "A" is at "P" twice, first in record 9 (line 9). Delete one,'
         " or add up the two. (refusal 30)"),
    plan("31: one too few", changed(("at,B,Q,1000", "at,B,Q,999")),
         'town.csv: the unit "B" is placed for 999 thousandths of its free time (records '
         "at,UNIT,ATOM,THOUSANDTHS: 1), and not for 1,000. Change the largest of them so that the sum is 1000."
         " (refusal 31)"),
    plan("31: none", changed(("at,B,Q,1000\n", "")),
         'town.csv: the unit "B" is placed for 0 thousandths of its free time (records '
         "at,UNIT,ATOM,THOUSANDTHS: 0), and not for 1,000. Say where it stands while it is free: 1000 at one "
         "atom, or shares of 1000 at several. (refusal 31)"),
    plan("31: percent", changed(("at,B,Q,1000", "at,B,Q,60\nat,B,P,40")),
         'town.csv: the unit "B" is placed for 100 thousandths of its free time (records '
         "at,UNIT,ATOM,THOUSANDTHS: 2), and not for 1,000. If these are percent, multiply them by ten. "
         "(refusal 31)"),
    plan("31: one for all", changed(("at,B,Q,1000", "at,B,Q,1")),
         'town.csv: the unit "B" is placed for 1 thousandths of its free time (records '
         "at,UNIT,ATOM,THOUSANDTHS: 1), and not for 1,000. Write 1000 for all of its time. (refusal 31)"),
    plan("31: half", changed(("at,B,Q,1000", "at,B,Q,500")),
         'town.csv: the unit "B" is placed for 500 thousandths of its free time (records '
         "at,UNIT,ATOM,THOUSANDTHS: 1), and not for 1,000. They are shares of 1000: change them so that the "
         "sum is 1000. (refusal 31)"),
    plan("40", changed(("prefer,Q,B,A\n", "")),
         'town.csv: the atom "Q" of record 4 (line 4) has no preference list. Add a record '
         "prefer,ATOM,UNIT,UNIT.. with all units in the order in which they are asked, or write rule,modified "
         "to have all lists made by distance. (refusal 40)"),
    plan("41: one twice", changed(("prefer,P,A,B", "prefer,P,A,A")),
         'town.csv: the list of the atom "P" does not hold each unit once. It lacks "B". It has "A" more than '
         "once. The units that stand last may hardly ever go, but have to be there. (refusal 41)"),
    plan("41: one too few", changed(("prefer,Q,B,A", "prefer,Q,A")),
         'town.csv: the list of the atom "Q" does not hold each unit once. It lacks "B". The units that stand '
         "last may hardly ever go, but have to be there. (refusal 41)"),
    plan("41: one too much, in groups", "version,2\n" + changed(("prefer,P,A,B", "group,P,A,B\ngroup,P,B")),
         'town.csv: the list of the atom "P" does not hold each unit once. It has "B" more than once. The '
         "units that stand last may hardly ever go, but have to be there. (refusal 41)"),
    plan("42", PLAN + "rule,strict\n",
         'town.csv, record 11 (line 11): a list of the atom "P" is given, but record 13 (line 13) has the rule'
         ' "strict", which makes all lists by distance. Take the lists out, or write rule,given. (refusal 42)'),
    plan("43", PLAN + "prefer,P,A,B\n",
         'town.csv, record 13 (line 13): the atom "P" has a list already, in record 11 (line 11). Delete one. '
         "A list in several groups has only records group. (refusal 43)"),
    plan("50", PLAN + "version,3\n",
         'town.csv, record 13 (line 13): there is no version "3" of a plan. Write version,2 to use groups; '
         "without groups the record may be left out. (refusal 50)"),
    plan("51", PLAN + "line,zero\nline,infinite\n",
         'town.csv, record 14 (line 14): "line" is set twice, to "infinite" and first, in record 13 (line 13),'
         ' to "zero". Delete one. (refusal 51)'),
    plan("52", changed(("unit,A,3", "unit,A,1"), ("unit,B,3", "unit,B,1")) + "line,infinite\n",
         "town.csv: 2 calls come in a period, and all units together can serve 2. With the infinite line of "
         "record 13 (line 13) ever more calls would wait. Add units, check that all rates are of one period, "
         "or write line,zero to have calls lost that find all units busy. (refusal 52)"),
)

# Each refusal of a fleet, and those of a plan that say something else of one.
FLEETS = (
    fleet("3: crews before their version", FLEET.replace("version,3\n", ""),
          'town.csv, record 1 (line 1): "crews" is no kind of record. Crews are known only after a record version,3: put it '
          "first. (refusal 3)"),
    fleet("3: groups of a fleet", FLEET.replace("prefer,P", "group,P"),
          'town.csv, record 13 (line 13): "group" is no kind of record. A fleet has no groups: list its stations by '
          "prefer. (refusal 3)"),
    fleet("3: another word in a fleet", FLEET + "trip,P,Q,3\n",
          'town.csv, record 15 (line 15): "trip" is no kind of record. A record begins with version, line, rule, period, '
          "unit, atom, travel, at, prefer, crews or note. (refusal 3)"),
    fleet("4: crews without a count", FLEET.replace("crews,A,4", "crews,A"),
          "town.csv, record 2 (line 2): a record of this kind is written crews,UNIT,COUNT, and this one has 2 fields, crews "
          "included. Write what is missing. Semicolons and tabs do not separate fields. (refusal 4)"),
    fleet("5: no crews", FLEET.replace("crews,A,4", "crews,A,0"),
          'town.csv, record 2 (line 2), field 3: the number of crews "0" is no whole number from 1 to 200. Write how many '
          "crews the station has. Leave out a station without crews. (refusal 5)"),
    fleet("14: crews of no station", FLEET + "crews,X,2\n",
          'town.csv, record 15 (line 15), field 2: no unit has the name "X". Add a record for it, or name another. '
          "(refusal 14)"),
    fleet("50: groups in a fleet", "version,2\n" + PLAN,
          'town.csv, record 1 (line 1): there is no version "2" of a fleet. Write version,3 to give stations several crews; '
          "with one crew at each station the record may be left out. (refusal 50)"),
    fleet("52: a fleet", FLEET.replace("atom,P,1,", "atom,P,14,") + "line,infinite\n",
          "town.csv: 15 calls come in a period, and all crews together can serve 15. With the infinite line of record 15 "
          "(line 15) ever more calls would wait. Add crews, check that all rates are of one period, or write line,zero to have "
          "calls lost that find all crews busy. (refusal 52)"),
    fleet("100", FLEET + "crews,A,1\n",
          'town.csv, record 15 (line 15): the crews of the station "A" are given twice, first in record 2 (line 2). Delete '
          "one. (refusal 100)"),
    fleet("101", FLEET + "crews,B,197\n",
          "town.csv: the fleet has 201 crews, and may have 200. Make a fleet of a part of the region. (refusal 101)"),
    fleet("102", "version,3\n" + many(5, "crews,U{},10") + many_units(5),
          "town.csv: the fleet has 161,051 states, and may have 65,536: multiply, over the stations, their crews and one. "
          "Join stations that lie close together, or take crews away where they are hardly busy. (refusal 102)"),
    fleet("103", FLEET.replace("unit,A,3", "unit,A,250000"),
          "town.csv: the service rates of all crews come to 1,000,003 in all, more than 1,000,000. Choose a shorter period, "
          "and divide all rates of calls and of service. (refusal 103)"),
)

# Each refusal of a study, and of a plan of one.
STUDIES = (
    study("60: no TOML", 'plans = ["a"\n"b"]\n',
          "study.toml, line 2: this is no TOML. A study has two lists of texts and nothing else: plans = "
          '["a.csv", "b.csv"] and measures = ["loss", "travel"]. (refusal 60)'),
    study("60: another key", STUDY.format("town.csv", "loss") + "name = 1\n",
          'study.toml: "name" is no part of a study. A study has two lists of texts and nothing else: plans = '
          '["a.csv", "b.csv"] and measures = ["loss", "travel"]. (refusal 60)'),
    study("60: no measures", 'plans = ["town.csv", "town.csv"]\n',
          "study.toml: the list measures is missing. A study has two lists of texts and nothing else: plans = "
          '["a.csv", "b.csv"] and measures = ["loss", "travel"]. (refusal 60)'),
    study("60: no list", 'plans = "town.csv"\nmeasures = ["loss"]\n',
          "study.toml: plans is no list: it stands in square brackets. A study has two lists of texts and "
          'nothing else: plans = ["a.csv", "b.csv"] and measures = ["loss", "travel"]. (refusal 60)'),
    study("60: a number in a list", 'plans = ["town.csv", 1]\nmeasures = ["loss"]\n',
          "study.toml: item 2 of plans is no text: it stands in double quotes. A study has two lists of texts "
          'and nothing else: plans = ["a.csv", "b.csv"] and measures = ["loss", "travel"]. (refusal 60)'),
    study("60: an empty list", 'plans = ["town.csv", "town.csv"]\nmeasures = []\n',
          "study.toml: a study has 1 to 16 measures, and its plans have names of 1 to 255 bytes. A study has "
          'two lists of texts and nothing else: plans = ["a.csv", "b.csv"] and measures = ["loss", "travel"]. '
          "(refusal 60)"),
    study("60: a plan", PLAN,
          "study.toml: this is a plan, and compare asks for a study. A study has two lists of texts and nothing"
          ' else: plans = ["a.csv", "b.csv"] and measures = ["loss", "travel"]. Write solve for a plan. '
          "(refusal 60)"),
    study("61: a wrong letter", STUDY.format("town.csv", "travle"),
          'study.toml: measure 1 of the study, "travle", is none of loss, delay, queue, wait, interdistrict and'
          " travel. Write travel. (refusal 61)"),
    study("61: another word", STUDY.format("town.csv", "cost"),
          'study.toml: measure 1 of the study, "cost", is none of loss, delay, queue, wait, interdistrict and '
          "travel. (refusal 61)"),
    study("62: one", 'plans = ["town.csv"]\nmeasures = ["loss"]\n',
          "study.toml: the study names 1 plans, and may name 2 to 16. Name another one, or write solve for one "
          "plan. (refusal 62)"),
    study("62: none", 'plans = []\nmeasures = ["loss"]\n',
          "study.toml: the study names 0 plans, and may name 2 to 16. Name two plans or more. (refusal 62)"),
    study("62: too many", f"plans = {['a'] * 17}\nmeasures = ['loss']\n",
          "study.toml: the study names 17 plans, and may name 2 to 16. Make several studies that have one plan "
          "in common. (refusal 62)"),
    study("63", "#" * 4194305,
          "study.toml: the file has more than 4,194,304 bytes. Is it the file that was meant? Take out what the"
          " program does not need. (refusal 63)"),
    Case("a plan of a study", ["compare", "study.toml"],
         {"study.toml": STUDY.format("other.csv", "loss"), "town.csv": PLAN, "other.csv": "Unit,A,2\n"}, 2,
         'other.csv, record 1 (line 1): "Unit" is no kind of record. Write unit, in small letters. (refusal 3)'),
)

# Each refusal of a command.
COMMANDS = (
    Case("70: too few units", ["make", "1", "7"], {}, 2,
         'make: no plan of "1" units is made from the number "7". UNITS is from 2 to 10, and NUMBER from 0 to '
         "4,294,967,295. (refusal 70)"),
    Case("70: too large a number", ["make", "2", "4294967296"], {}, 2,
         'make: no plan of "2" units is made from the number "4294967296". UNITS is from 2 to 10, and NUMBER '
         "from 0 to 4,294,967,295. (refusal 70)"),
    Case("80", ["finite", "town.csv", "2"], {"town.csv": QUEUE}, 2,
         "town.csv, record 13 (line 13): the line is infinite, and this command is for plans in which calls "
         "can be lost. Write solve, or take that record out. (refusal 80)"),
    Case("81", ["finite", "town.csv", "2"], {"town.csv": many_units(12)}, 2,
         "town.csv: the plan has 12 units, and this command takes at most eleven. Leave out units that hardly "
         "help the others. (refusal 81)"),
    Case("82", ["pairs", "town.csv", "2"], {"town.csv": QUEUE}, 2,
         "town.csv, record 13 (line 13): the line is infinite, and this command is for plans in which calls "
         "can be lost. Take that record out. (refusal 82)"),
    Case("83", ["pairs", "town.csv", "2"], {"town.csv": many_units(11)}, 2,
         "town.csv: the plan has 11 units, and this command takes at most ten. Leave out units that hardly "
         "help the others. (refusal 83)"),
    Case("84", ["pairs", "town.csv", "2"], {"town.csv": GROUPS}, 2,
         'town.csv: the list of the atom "P" has a group of several units (it begins in record 12 (line 12)), '
         "and calls for two units are sent by lists without groups. Write prefer,ATOM,UNIT,UNIT.. in their "
         "place. (refusal 84)"),
    Case("85: another case", ["sweep", "town.csv", "b", "loss"], {"town.csv": PLAN}, 2,
         'town.csv: no unit has the name "b". The nearest name is "B": capitals, blanks and accents count. '
         "(refusal 85)", command="sweep"),
    Case("85: another name", ["sweep", "town.csv", "Engine 7", "loss"], {"town.csv": PLAN}, 2,
         'town.csv: no unit has the name "Engine 7". The units are "A", "B". (refusal 85)', command="sweep"),
    Case("a plan that is swept", ["sweep", "town.csv", "A", "loss"], {"town.csv": ""}, 2,
         "town.csv: the text has no record. Is it the file that was meant? (refusal 15)", command="sweep"),
    Case("a plan of a day", ["replay", "town.csv", "day.csv"], {"town.csv": "", "day.csv": ""}, 2,
         "town.csv: the text has no record. Is it the file that was meant? (refusal 15)", command="replay"),
    Case("a plan whose calls are to be reached", ["reach", "town.csv", "480"], {"town.csv": ""}, 2,
         "town.csv: the text has no record. Is it the file that was meant? (refusal 15)"),
    day("90", "call,0,P\n" + "#" * 4194304,
        "day.csv: the file has more than 4,194,304 bytes. Is it the file that was meant? Take out what the "
        "program does not need. (refusal 90)"),
    day("91", many(50000, "note,{}") + "call,0,P\n",
        "day.csv, record 50001 (line 50001): a text has at most 50,000 records, and notes and rows of blanks "
        "count. Take out what is not needed. (refusal 91)"),
    day("92: headings", "kind,second,name\ncall,0,P\n",
        'day.csv, record 1 (line 1): the record that begins with "kind" is neither call,SECOND,ATOM nor '
        "free,SECOND,UNIT. The kind is in small letters. If this is a row of headings, write note, in front "
        "of it. (refusal 92)"),
    day("92: semicolons", "call;0;P\n",
        'day.csv, record 1 (line 1): the record that begins with "call;0;P" is neither call,SECOND,ATOM nor '
        "free,SECOND,UNIT. Fields are separated by commas: save the file with them. (refusal 92)"),
    day("92: a field too many", "call,0,P,A\n",
        'day.csv, record 1 (line 1): the record that begins with "call" is neither call,SECOND,ATOM nor '
        "free,SECOND,UNIT. It has three fields, and a comma in a name separates fields. (refusal 92)"),
    day("92: a time with colons", "call,0:10,P\n",
        'day.csv, record 1 (line 1): the record that begins with "call" is neither call,SECOND,ATOM nor '
        "free,SECOND,UNIT. The second is a whole number of one to nine digits, counted from midnight for "
        "instance, and not a time with colons. (refusal 92)"),
    day("93: another case", "call,0,p\n",
        'day.csv, record 1 (line 1): no atom of the plan has the name "p". The nearest name is "P": capitals,'
        " blanks and accents count. (refusal 93)"),
    day("93: no such unit", "call,0,P\nfree,9,Engine 7\n",
        'day.csv, record 2 (line 2): no unit of the plan has the name "Engine 7". Add it to the plan, or take'
        " the record out. (refusal 93)"),
    day("94", "call,50,P\nnote,x\nfree,49,A\n",
        'day.csv, record 3 (line 3): the second "49" is before the second "50" of record 1 (line 1). Sort the'
        " records by their seconds; after midnight go on counting from 86400. (refusal 94)"),
    day("95", "call,50,P\nfree,59,B\n",
        'day.csv, record 2 (line 2): the unit "B" is free again in second "59", but by the plan\'s lists no '
        "call had been sent to it, or it was free again before. The day may begin while units are busy, or "
        "the unit that really went was another: take the record out, or begin the day later. (refusal 95)"),
)

# The other endings.
ENDINGS = (
    Case("3: a time of a unit", ["solve", "town.csv", "--time-width", "2"], {"town.csv": WIDE}, 3,
         'town.csv: the measure travel-unit of the unit "C" lies between 179.998 and 180.002, which are 0.004 '
         "apart, and --time-width asks for less. Ask for a greater width or leave --time-width out. Fewer "
         "units, or fewer calls for each service, make the ends narrower."),
    Case("3: a share in a study", ["compare", "study.toml", "--width", "2"],
         {"study.toml": STUDY.format("other.csv", "interdistrict"), "town.csv": PLAN, "other.csv": LOADED}, 3,
         "other.csv: the measure interdistrict lies between 0.841810 and 0.871217, which are 0.029407 apart, "
         "and --width asks for less. Ask for a greater width or leave --width out. Fewer units, or fewer calls"
         " for each service, make the ends narrower."),
    Case("4: a fleet", ["fleet", "gone.csv"], {}, 4,
         "there is no file gone.csv in the current folder, where names begin, those in a study too. Is its "
         "name spelled so, with these capitals?"),
    Case("4: in this folder", ["solve", "gone.csv"], {}, 4,
         "there is no file gone.csv in the current folder, where names begin, those in a study too. Is its "
         "name spelled so, with these capitals?"),
    Case("4: elsewhere", ["solve", "/gone/gone.csv"], {}, 4,
         "there is no file /gone/gone.csv. Is its name spelled so, with these capitals?"),
    Case("4: of a study", ["compare", "study.toml"], {"study.toml": STUDY.format("gone.csv", "loss"), "town.csv": PLAN}, 4,
         "there is no file gone.csv in the current folder, where names begin, those in a study too. Is its "
         "name spelled so, with these capitals?"),
    Case("4: a day", ["replay", "town.csv", "gone.csv"], {"town.csv": PLAN}, 4,
         "there is no file gone.csv in the current folder, where names begin, those in a study too. Is its "
         "name spelled so, with these capitals?", command="replay"),
    Case("5: a folder", ["solve", "."], {}, 5,
         ". was not read: it is a folder, it may not be read by you, or its disk failed."),
    Case("5: of a study", ["compare", "study.toml"], {"study.toml": STUDY.format(".", "loss"), "town.csv": PLAN}, 5,
         ". was not read: it is a folder, it may not be read by you, or its disk failed."),
    Case("5: a name that steers a terminal", ["solve", "town.csv/\x1b[31m" + "x" * 60], {"town.csv": PLAN}, 5,
         "town.csv/\\u{1b}[31mxxxxxxxxxxxxxxxxxxxxxxxxxxxxxxxxxxxxxxxxxxxxxxxxxxxxxxxxxxxx was not read: it is "
         "a folder, it may not be read by you, or its disk failed."),
)

# Words that are no command, for each word and option.
USAGES = (
    usage([],
          "no command is given."),
    usage(["sovle", "town.csv"],
          'there is no command "sovle". Write solve.'),
    usage(["town.csv"],
          'there is no command "town.csv". Write solve in front of the name of a plan.'),
    usage(["frobnicate"],
          'there is no command "frobnicate".'),
    usage(["solve"],
          "solve lacks a word. Write solve PLAN."),
    usage(["solve", "my", "town.csv"],
          '"town.csv" is a word too many. Write solve PLAN, and a name with blanks in quotes.'),
    usage(["solve", ""],
          "the name of the plan is empty."),
    usage(["compare", "a" * 256],
          'the name "aaaaaaaaaaaaaaaaaaaaaaaaaaaaaaaaaaaaaaaa"... of the study has 256 bytes, and may have 255.'
          " Go to its folder first."),
    usage(["solve", "town.csv", "--with", "3"],
          'there is no option "--with". Write --width.'),
    usage(["solve", "-x"],
          'there is no option "-x". Write -- in front of a name that begins with a dash.'),
    usage(["solve", "town.csv", "--width"],
          "a number has to follow --width."),
    usage(["solve", "town.csv", "--width", "1"],
          '--width is "1", and has to be a number from 2 to 999,999,999, of at most 9 digits.'),
    usage(["solve", "town.csv", "--time-width=0.5"],
          '--time-width is "0.5", and has to be a number from 2 to 999,999,999, of at most 9 digits.'),
    usage(["compare", "town.csv", "--workers", "17"],
          '--workers is "17", and has to be a number from 1 to 16.'),
    usage(["solve", "town.csv", "--summary=1"],
          "--summary has no value."),
    usage(["solve", "town.csv", "--width", "3", "--width=4"],
          "--width stands there twice."),
    usage(["compare", "town.csv", "--summary"],
          "compare has no option --summary."),
    usage(["make", "2"],
          "make lacks a word. Write make UNITS NUMBER."),
    usage(["make", "two", "7"],
          'UNITS is "two", and has to be a number from 2 to 10.'),
    usage(["make", "2", "7" * 19],
          'NUMBER is "7777777777777777777", and has to be a number from 0 to 4,294,967,295.'),
    usage(["finite", "town.csv"],
          "finite lacks a word. Write finite PLAN PLACES."),
    usage(["finite", "town.csv", "0"],
          'PLACES is "0", and has to be a number from 1 to 1,000, of at most 4 digits.'),
    usage(["finite", "town.csv", "1001"],
          'PLACES is "1001", and has to be a number from 1 to 1,000, of at most 4 digits.'),
    usage(["pairs", "town.csv", "101"],
          'PERCENT is "101", and has to be a number from 0 to 100, of at most 3 digits.'),
    usage(["pairs", "town.csv", "5", "--width", "3"],
          "pairs has no option --width."),
    usage(["sweep", "town.csv", "A"],
          "sweep lacks a word. Write sweep PLAN UNIT MEASURE."),
    usage(["sweep", "town.csv", "A", "queue"],
          'sites are not tried by "queue". Write loss, delay, interdistrict or travel.'),
    usage(["sweep", "town.csv", "x" * 33, "loss"],
          '"xxxxxxxxxxxxxxxxxxxxxxxxxxxxxxxxx" is no name of a unit, which has 1 to 32 bytes.'),
    usage(["replay", "town.csv"],
          "replay lacks a word. Write replay PLAN DAY."),
    usage(["replay", "town.csv", ""],
          "the name of the day is empty."),
    usage(["reach", "town.csv"],
          "reach lacks a word. Write reach PLAN SECONDS."),
    usage(["reach", "town.csv", "eight"],
          'SECONDS is "eight", and has to be a number from 0 to 100,000, of at most 6 digits, or several of them '
          "with commas between."),
    usage(["reach", "town.csv", "240,100001"],
          'SECONDS has "100001" among its numbers, and each has to be a number from 0 to 100,000, of at most 6 '
          "digits."),
    usage(["reach", "town.csv", "480,480"],
          'SECONDS has "480" after a number that is not less. Write the least number first, and each once.'),
    usage(["reach", "town.csv", ",".join(map(str, range(17)))],
          "SECONDS has 17 numbers, and may have 16. Ask in several runs."),
    usage(["reach", "town.csv", "480", "--workers", "2"],
          "reach has no option --workers."),
    usage(["fleet"],
          "fleet lacks a word. Write fleet FLEET."),
    usage(["fleet", "town.csv", "--workers", "2"],
          "fleet has no option --workers."),
    usage(["fleet", "town.csv", "--method=certificate"],
          "fleet has no option --method."),
    usage(["fleet", "town.csv", "--width", "1"],
          '--width is "1", and has to be a number from 2 to 999,999,999, of at most 9 digits.'),
    usage(["solve", "town.csv", "--method"],
          "elimination or certificate has to follow --method."),
    usage(["compare", "town.csv", "--method=gauss"],
          '--method is "gauss", and has to be elimination or certificate.'),
    usage(["pairs", "town.csv", "5", "--method", "certificate"],
          "pairs has no option --method."),
    usage([b"\xff"],
          "a word is not UTF-8, and no command has such a word: rename the file."),
    usage(["--help"],
          ""),
    usage(["-h"],
          ""),
    usage(["help"],
          ""),
    usage(["solve", "--help"],
          ""),
    Case("--version", ["--version"], {}, 1,
         VERSION),
    Case("-V", ["-V"], {}, 1,
         VERSION),
)

CASES = (*PLANS, *FLEETS, *STUDIES, *COMMANDS, *ENDINGS, *USAGES)
