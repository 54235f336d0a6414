"""Why a line of a packets file is no packet."""
import re
import sys
from typing import Dict, List, NamedTuple, Optional

sys.dont_write_bytecode = True
from snapc_files import number_of, parts_of
from snapc_finding import Finding
from snapc_nearest import hint, listed, shown
from snapc_program import address_fault
from snapc_tables import MOST, Field

LONGEST = 65536  # bytes of a line
MOST_LINES = 10000  # that are read after the first bad one


class Scope(NamedTuple):
    """What a line may name: fields, plain components by their names, and ports where they are known."""
    fields: Dict[str, Field]
    plain: Dict[str, int]
    ports: Optional[List[int]] = None


def scope_of_program(program):
    """The fields of a program that is read."""
    fields, plain, count = {}, {}, 0
    for word, name in program.names.items():
        if name.kind == "split" and name.length:
            fields[word] = Field(word, name.length, count)
        elif name.kind == "plain":
            plain[word], count = count, count + 1
    del plain["inport"]
    return Scope(fields, plain)


def scope_of_tables(tables, ports):
    fields = {one.name: one for one in tables.fields[1:]}
    return Scope(fields, {one: at for at, one in enumerate(tables.components) if at}, sorted(tables.ports) if ports else None)


def sign_cause(word):
    """What no word of a line may hold."""
    if "\r" in word:
        return "a carriage return stands before the end of the line"
    odd = next((one for one in word if one < " " or one > "~"), None)
    if word.startswith("\xef\xbb\xbf"):
        return "a byte order mark stands before the text: save it without one"
    if odd is not None:
        return f"byte {ord(odd):02x} is no sign of ASCII"
    sign = next((one for one in word if one in ",;"), None)
    return f"{shown(sign)} doesn't belong: blanks alone divide words" if sign else ""


def port_cause(word, scope):
    """Why a word is no port; nothing where it is one."""
    if re.fullmatch("[0-9]+", word):
        digits = word.lstrip("0")
        if not digits or len(digits) > 10 or int(digits) >= 2 ** 32:
            return f"a port is a number from 1 to {2 ** 32 - 1}"
        if scope.ports is not None and int(digits) not in scope.ports:
            return f"the tables have no port {digits}; their ports are {listed(map(str, scope.ports))}"
        return ""
    if word.startswith("#"):
        return "a comment begins at the first byte of its line, and a blank stands before this one"
    if sign_cause(word):
        return sign_cause(word)
    return ("the line begins with no port: " if "=" in word else "") + f"{shown(word)} is no port, which is digits alone"


def number_cause(text):
    """Why a text is neither a number nor an address; nothing where it is one."""
    if number_of(text) is not None:
        return ""
    if not text:
        return "a value is missing after '='"
    if re.fullmatch("[0-9]+", text):
        return f"{shown(text)} is above {MOST}"
    if re.fullmatch(r"[0-9.]+/[0-9]*", text):
        return "a packet has an address, without '/' and a length"
    if re.fullmatch("[-+][0-9]+", text):
        return f"{shown(text)} has a sign, and a number is digits alone"
    if re.fullmatch("0[xX][0-9A-Fa-f]+", text):
        return f"{shown(text)} isn't decimal: that is {int(text, 16)}" if len(text) < 18 else f"{shown(text)} isn't decimal"
    if re.fullmatch(r"[0-9.]+", text):
        return address_fault(text)
    return f"{shown(text)} is neither digits nor an address"


def value_cause(name, text, scope):
    """Why a text is no value of a field that is declared; nothing where it is one."""
    if parts_of(name, text, scope.fields, scope.plain) is not None:
        return ""
    if sign_cause(text):
        return sign_cause(text)
    if name in scope.plain:
        if re.fullmatch("[0-9]+:[0-9]+", text):
            return f"{shown(name)} isn't split, so it has no NET:HOST"
        return number_cause(text)
    if re.fullmatch("[0-9]+", text):
        return f"{shown(name)} is split: its value is an address, or NET:HOST"
    if text.count(":") == 1 and text.replace(":", "").isdigit() and not text.startswith(":") and not text.endswith(":"):
        return next(filter(None, map(number_cause, text.split(":"))), "")
    return f"{shown(text)} is neither an address nor NET:HOST" if ":" in text else number_cause(text)


def word_cause(word, scope):
    """Why a word isn't NAME=VALUE."""
    name, equals, text = word.partition("=")
    if not equals:
        left, colon, _ = word.partition(":")
        if word.startswith("#"):
            return "a comment begins at the first byte of its line"
        if sign_cause(word):
            return sign_cause(word)
        if colon and (left in scope.plain or left in scope.fields):
            return f"'=' stands between a field and its value, and not ':': {left}=VALUE"
        return "NAME=VALUE is wanted, and '=' is missing" + (f": {word}=VALUE" if word in scope.plain or word in scope.fields else "")
    if not name:
        return "a name is missing before '='"
    if name == "inport":
        return "the first word of the line is the port, and no other names it"
    if name in scope.plain or name in scope.fields:
        return value_cause(name, text, scope)
    if sign_cause(name):
        return sign_cause(name)
    split, _, rest = name.rpartition(".")
    if rest in ("net", "host") and split in scope.plain:
        return f"{shown(split)} isn't split, so it has no {shown(rest)}"
    names = list(scope.fields) + list(scope.plain)
    return f"field {shown(name)} isn't declared" + (hint(name, names) or f"; declared are {listed(names)}")


def of_words(words, scope):
    """What is wrong with the words of a line, each a column and a text: columns and causes."""
    cause = port_cause(words[0][1], scope)
    found, told = [(words[0][0], cause)] if cause else [], {}
    spaced = False  # whether the word belongs to the '=' before it
    for (column, word), (_, after) in zip(words[1:], words[2:] + [(0, "")]):
        if any(one.startswith("#") for at, one in words if at < column):
            break  # what was meant as a comment
        lone = word == "=" or after.startswith("=") and "=" not in word or word[-1:] == "=" and word.count("=") == 1 and after \
            and "=" not in after
        if lone and not spaced:
            found.append((column, "no blanks stand around '='"))
        elif not spaced:
            cause, (name, _, text) = word_cause(word, scope), word.partition("=")
            inside = text and (name in scope.plain or name in scope.fields)  # the value is what is wrong
            found += [(column + (len(name) + 1 if inside else 0), cause)] if cause else twice(column, word, told, scope)
        spaced = lone or spaced and word == "="
    return found


def twice(column, word, told, scope):
    """What a word sets that another has set."""
    name, _, text = word.partition("=")
    components = [component for component, _ in parts_of(name, text, scope.fields, scope.plain) or []]
    before = next((told[one] for one in components if one in told), None)
    for one in components:
        told.setdefault(one, (column, name))
    if before is None:
        return []
    return [(column, f"field {shown(name)} stands twice: first in column {before[0]}" if before[1] == name else
             f"{shown(name)} sets what {shown(before[1])} sets, in column {before[0]}")]


def of_packets(lines, number, scope):
    """What is wrong with the lines from a number on, and whether all were read."""
    findings = []
    for at, line in enumerate(lines[number - 1:number - 1 + MOST_LINES], number):
        words = [(word.start() + 1, word[0]) for word in re.finditer(r"[^ \t]+", line[:LONGEST + 1])]
        if not words or line.startswith("#"):
            found = []
        elif len(line) > LONGEST:
            found = [(LONGEST + 1, f"the line is longer than {LONGEST} bytes")]
        else:
            found = of_words(words, scope)
        findings += [Finding(at, column, f"packets: line {at}", cause) for column, cause in found]
    return findings, len(lines) < number + MOST_LINES
