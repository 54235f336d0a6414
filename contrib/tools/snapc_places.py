"""Finds the places in files that messages of snapc are about; docs/FORMATS.md lists the messages."""
import re
import sys
from typing import List, NamedTuple

sys.dont_write_bytecode = True
from snapc_call import lines_of
from snapc_causes import causes_of, limit_of
from snapc_finding import Finding


class Found(NamedTuple):
    """A file, and what is wrong with it, that of which snapc says it first; and whether all of the file was looked at."""
    name: str
    findings: List[Finding]
    whole: bool


def place_in_program(found, _):
    return int(found["line"]), int(found["column"]), True


def place_of_line(found, _):
    return int(found["line"]), 1, True


def place_of_packet(found, name):
    """The line of a packet: skipped ones aren't counted."""
    lines = [at for at, line in enumerate(lines_of(name), 1) if line.strip(" \t") and not line.startswith("#")]
    number = int(found["number"])
    return (lines[number - 1], 1, True) if 0 < number <= len(lines) else place_of_whole(found, name)


def place_of_whole(*_):
    """Editors want a place."""
    return 1, 1, False


# A message, what the file is that it is about where it doesn't say so itself, and its place where the cause has none.
MESSAGES = [(re.compile(form), kind, place) for form, kind, place in [
    (r"(?P<line>\d{1,18}):(?P<column>\d{1,18}): (?P<rest>.*)", "program", place_in_program),
    (r"race|differ|declarations differ", "program", place_of_whole),
    (r"(?P<kind>tables|packets|schedule|changes): (rule \w+ )?line (?P<line>\d{1,18})", "", place_of_line),
    (r"tables: version 1", "tables", lambda *_: (1, 1, True)),
    (r"undefined: packet (?P<number>\d{1,18})", "packets", place_of_packet),
    (r"(?P<kind>topology|placement|demand): .*", "", place_of_whole),
    (r"unreachable: \S+ \S+", "topology", place_of_whole)]]


def found_of(call, message):
    """What is found of a message; None where it is about no file."""
    limit = re.fullmatch(r"limit: (\w+) (\d{1,18})", message)
    if limit:
        passed = limit_of(call, limit[1], int(limit[2]))
        return passed and Found(passed[0], [passed[1]], True)
    for form, kind, place in MESSAGES:
        found = form.fullmatch(message)
        kind = (kind or found["kind"]) if found else None
        name = call.file(kind, message) if found else None
        if name:
            line, column, known = place(found, name)
            first = Finding(line, column, found.groupdict().get("rest", message), "", known)
            causes, whole = causes_of(call, kind, name, first)
            if causes and causes[0].words == first.words and (kind != "program" or not known or causes[0][:2] == first[:2]):
                return Found(name, causes, whole)
            return Found(name, [first], True)
    return None
