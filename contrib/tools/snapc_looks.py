"""What a file looks like, by its first lines: for calls that have their files in another order."""
import re

MOST = 65536  # bytes that are looked at
ROWS = 20
WORDS = r"[A-Za-z_][\w.-]*=\S+"
SWITCHES = r'"[\w.-]+"'
ONE = {  # a kind, and what its first line with words is
    "tables": r"snap-tables [12]", "report": r"packet 1|array \S+( \d+)+ = \d+", "packets": rf"\d+([ \t]+{WORDS})*[ \t]*",
    "program": r"(field|array|const|let)[ \t]+[A-Za-z_].*|if[ \t(!]+.*\bthen\b.*"}
ALL = {  # a kind, and what each of its lines is
    "schedule": r"inject|step[ \t]+\d+", "changes": r"after[ \t]+\d+[ \t]+\S+", "placement": rf'("[\w.-]+"|[\w-]+)[ \t]*=[ \t]*{SWITCHES}'}
KEYS = {"topology": r"(switches|links)[ \t]*=[ \t]*\[", "demand": r"demand[ \t]*=[ \t]*\["}


def looks_like(lines):
    """The kind of a file of these lines; None where it isn't sure."""
    rows = [line.split("#")[0].strip() for line in lines[:ROWS] if len(line) < MOST and not line.startswith("#")]
    rows = [row for row in rows if row]
    if not rows:
        return None
    for kind, form in KEYS.items():
        if any(re.match(form, row) for row in rows):
            return kind
    for kind, form in ONE.items():
        if re.fullmatch(form, rows[0]):
            return kind
    return next((kind for kind, form in ALL.items() if all(re.fullmatch(form, row) for row in rows)), None)
