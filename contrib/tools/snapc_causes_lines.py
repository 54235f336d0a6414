"""Why a line of a schedule or of a changes file isn't in form, or can't be done."""
import re
import sys

sys.dont_write_bytecode = True
from snapc_finding import Finding
from snapc_nearest import nearest, shown

MOST_LINES = 10000  # that are read after the first bad one


def words_of(line):
    """The words of a line, each with its column; none of a line that is skipped."""
    return [] if line.startswith("#") else [(word.start() + 1, word[0]) for word in re.finditer(r"[^ \t]+", line)]


def first_cause(column, word, known):
    """A word that isn't the one that begins a line."""
    if word.startswith("#"):
        return column, "a comment begins at the first byte of its line, and a blank stands before this one"
    near = nearest(word, known)
    return column, f"a line begins with {' or '.join(map(shown, known))}, and not with {shown(word)}" + (
        f"; did you mean {shown(near)}?" if near else "")


def schedule_form(words):
    """Where a line isn't in the form of a schedule, and why; None where it is."""
    (column, first), rest = words[0], words[1:]
    if first not in ("inject", "step"):
        return first_cause(column, first, ["inject", "step"])
    if first == "inject":
        return (rest[0][0], "nothing follows 'inject': it takes the next packet of the file") if rest else None
    if not rest:
        return column, "a number is missing after 'step': the copy's place among those in flight, from 0"
    if not re.fullmatch("[0-9]+", rest[0][1]):
        return rest[0][0], f"{shown(rest[0][1])} is no number in digits"
    return (rest[1][0], "nothing follows the number of a 'step'") if len(rest) > 1 else None


def of_schedule(lines, number, packets):
    """What is wrong with a schedule from a line on, for so many packets, or None; and whether all was read."""
    words = [words_of(line) for line in lines[:number - 1 + MOST_LINES]]
    injected = sum(one[:1] == [(one[0][0], "inject")] for one in words[:number - 1] if one)
    ended = number > len(lines) or number == len(lines) and not lines[-1]
    findings = []
    here = words[number - 1] if number <= len(words) else []
    if ended or here and schedule_form(here) is None:
        column, cause = undone(here, injected, packets, ended)
        if cause:
            findings.append(Finding(number, column, f"schedule: line {number}", cause))
    for at, one in enumerate(words[number - 1:], number):
        found = schedule_form(one) if one else None
        if found:
            findings.append(Finding(at, found[0], f"schedule: line {at}", found[1]))
    return findings, len(lines) < number + MOST_LINES


def undone(words, injected, packets, ended):
    """Why a line in form, or the end, can't be done here, and in which column."""
    if ended:
        if packets is None or injected > packets:
            return 1, ""
        if injected < packets:
            return 1, f"the schedule ends, and of {packets} packets it has injected {injected}"
        return 1, "the schedule ends, and a copy is still in flight"
    if words[0][1] == "inject":
        return words[0][0], "no packet is left" + (f": the packets file has {packets}" if packets == injected else "")
    place = words[1][1][:20]
    return words[1][0], f"no copy is at place {place}: {place} or fewer are in flight, and places count from 0" if place.strip("0") else \
        "no copy is in flight"


def changes_form(words, before, line):
    """Where a line isn't in the form of a changes file, and why; None where it is."""
    if words[0][1] != "after":
        return first_cause(*words[0], ["after"])
    if len(words) != 3:
        at = words[3] if len(words) > 3 else words[-1]
        return at[0], f"'after', a number and a file are wanted, and {'more' if len(words) > 3 else 'less'} stands here"
    number, name = words[1][1], words[2][1]
    if not re.fullmatch("[0-9]+", number):
        return words[1][0], f"{shown(number)} is no number in digits"
    if len(number.lstrip("0")) > 7 or int(number) > 1000000:
        return words[1][0], f"{shown(number)} is above 1000000, the most packets that a file has"
    if before is not None and int(number) <= before:
        return words[1][0], f"{number} isn't above {before}, at which the change before comes"
    if name.startswith("-"):
        return words[2][0], "the name of a file doesn't begin with '-': ./ before it helps"
    return (words[2][0], "a carriage return stands in the name") if "\r" in name else None


def of_changes(lines, number, differs):
    """What is wrong with a changes file from a line on. `differs` says how the tables of a name differ from the first, or nothing."""
    findings, before = [], None
    for at, line in enumerate(lines, 1):
        words = words_of(line)
        found = changes_form(words, before, at) if words else None
        if words and not found:
            before = int(words[1][1])
            if at == number:
                cause = differs(words[2][1])
                found = (words[2][0], cause) if cause else None
        if found and at >= number:
            findings.append(Finding(at, found[0], f"changes: line {at}", found[1]))
    return findings, True
