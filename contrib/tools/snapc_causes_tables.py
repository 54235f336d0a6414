"""Why tables aren't in form or break a rule, and how those of two programs differ."""
import sys

sys.dont_write_bytecode = True
from snapc_causes_toml import SWITCH
from snapc_finding import Finding
from snapc_nearest import listed, shown
from snapc_tables import Fault, Tables, read_line

MOST_LINES = 20000  # of tables that are read for causes
FIRST = ["field inport", "field outport"]
NO_LF = "the last line ends with LF, as all others do"
RULES = {
    ("link", 0): "this next hop is a switch with which its own has no link",
    ("loop", 0): "the next hops from here never reach their target",
    ("kind", 1): "this row differs from the first of its number, or leaves the number to a switch that can't decide it",
    ("kind", 2): "this row differs from the first of its number, or the switch of a 'stop' must decide it, or that of a row mustn't",
    ("owner", 1): "an array stands elsewhere than it is asked or updated",
    ("owner", 2): "this array stands at another switch than an earlier one of its rank, or no array has the rank below",
    ("rise", 0): "a test leads to a number that isn't above its own",
    ("order", 0): "a test of a field, or of an array of lesser rank, follows this test of an array",
    ("missing", 0): "this leads to a number and a switch that have no row",
    ("spare", 0): "nothing that comes in at a port leads to this row"}


def head_of(lines):
    """What tables say before their rows, as far as it is in form."""
    tables, stage = Tables(""), 0
    tables.version = 1 if lines[:1] == ["snap-tables 1"] else 2
    try:
        for at, line in enumerate(lines[1:MOST_LINES], 2):
            if line.startswith(("hop ", "row ", "end")):
                break
            stage = read_line(tables, at, line, stage)
    except Fault:
        pass
    return tables


def of_form(lines, number):
    """Why a line isn't in form after those before it, where that is found at just this line."""
    words = f"tables: line {number}"
    if not lines or number > min(len(lines), MOST_LINES):
        return []
    if number == 1:
        near = shown(lines[0][:40])
        return [Finding(1, 1, words, f"the first line is 'snap-tables 1' or 'snap-tables 2', and not {near}")] \
            if lines[0] not in ("snap-tables 1", "snap-tables 2") else []
    tables, stage = Tables(""), 0
    tables.version = 1 if lines[0] == "snap-tables 1" else 2
    for at, line in enumerate(lines[1:number], 2):
        cause = cause_of_line(at, line, at == len(lines)) if at == number else ""
        try:
            stage = stage if cause else read_line(tables, at, line, stage)
        except Fault as fault:
            cause = fault.text
        if at == number == len(lines) and not cause:
            cause = NO_LF
        if cause:
            return [Finding(at, 1, words, cause)] if at == number else []
    return []


def cause_of_line(number, text, last):
    """What may be wrong with a line, besides its entry."""
    if number < 4 and text.startswith("field ") and text != FIRST[number - 2]:
        return f"the first two fields are inport and outport, and this isn't {shown(FIRST[number - 2])}"
    if text.startswith("switch ") and not SWITCH.fullmatch(text[len("switch "):]):
        return "the name of a switch has letters, digits, '_', '.' and '-'"
    if text == "end":
        return NO_LF if last else "more lines are wanted before 'end'"
    if not text:
        return "the last line is 'end', and it is missing" if last else "an empty line stands in no tables"
    if text.startswith("#"):
        return "tables have no comments"
    return "" if text == " ".join(text.split()) else "words have one blank between, and none before or after them"


def of_rule(lines, rule, number):
    """What a broken rule says."""
    version = 1 if lines[:1] == ["snap-tables 1"] else 2
    cause = RULES.get((rule, version)) or RULES.get((rule, 0))
    return [Finding(number, 1, f"tables: rule {rule} line {number}", cause)] if cause else []


def difference(one, other, what):
    """How two lists of names differ: the first place at which they do."""
    for at, (left, right) in enumerate(zip(one, other), 1):
        if left != right:
            return f"{what} {at} is {shown(right)} here, and {shown(left)} in the first"
    few, many = sorted((one, other), key=len)
    if len(few) == len(many):
        return ""
    return f"{what}s {listed(map(shown, many[len(few):]))} stand in the {'first' if many is one else 'other'} alone"


def heads_differ(first, second):
    """How the declarations of two tables differ."""
    fields = [[one.name + (f"/{one.length}" if one.length else "") for one in tables.fields] for tables in (first, second)]
    arrays = [[one.name for one in tables.arrays] for tables in (first, second)]
    return difference(*fields, "field") or difference(*arrays, "array")
