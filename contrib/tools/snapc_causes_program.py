"""Why a program isn't one, and over what two parts of it clash."""
import sys

sys.dont_write_bytecode = True
from snapc_finding import Finding
from snapc_nearest import listed, shown
from snapc_program import CHANGES, KEYWORDS, KINDS, RULES, Program, Token

MOST_BYTES = 65536  # of a program that is read for causes
MOST_TOKENS = 3000  # of a program in which one token more, less or another is tried
NAMES = {"name": "a name", "number": "a number", "address": "an address", "end": "the end of the text"}
SIGNS = ["then", "else", ")", "]", "}", ";", "=", "<-", "{", "(", "["]  # what is tried where a token is missing, in turn
BYTES = {
    "<": "there is no less: a test is '=', and '<-' assigns", ">": "there is no greater: a test is '='",
    ",": "each part of an index has brackets of its own, as s[inport][outport]", "~": "'!' negates", "^": "'!' negates",
    ":": "'<-' assigns, and '=' stands in a 'const'", "\"": "there are no strings", "'": "there are no strings",
    "-": "'--' takes 1 away, '-=' a number, and '<-' assigns", "*": "there is no product", "%": "there is no remainder",
    ".": "a name has a letter, a digit or '_' after each dot", "\0": "this is no text: a byte is 0"}
UTF_16 = ("\xff\xfe", "\xfe\xff")
WORDS = {"and": "'&' stands for 'and'", "or": "'|' stands for 'or'", "not": "'!' stands for 'not'",
         "elif": "'else if' stands for 'elif'"}


def byte_cause(text, at):
    """Why a byte begins no token."""
    one = text[at]
    if text.startswith("\xef\xbb\xbf", at) and at == 0:
        return "a byte order mark stands before the text: save it without one"
    if text[:2] in UTF_16 and at == 0:
        return "this is UTF-16: save the text as ASCII or UTF-8"
    if one in BYTES:
        return BYTES[one]
    if one >= "\x80":
        whole = text[at:at + 4].encode("latin-1").decode(errors="ignore")[:1]
        named = f"U+{ord(whole):04X}" if whole and whole.encode()[:1] == one.encode("latin-1") else f"byte {ord(one):02x}"
        return f"{named} is no sign of ASCII, and stands in comments alone"
    return f"byte {ord(one):02x} isn't printed" if one < " " or one == "\x7f" else f"{shown(one)} is no sign of the language"


def token_cause(program):
    """Why no tree goes on at a token, as far as that is sure."""
    token, wanted = program.broken
    at = program.tokens.index(token)
    before = program.tokens[at - 1] if at else Token("", "", 0)
    after = program.tokens[at + 1] if at + 1 < len(program.tokens) else token
    joined = before.offset + len(before.text) == token.offset
    if token.kind == "end" and at == 0:
        return "the file has no program"
    if before.kind == token.kind and joined and token.kind in ("=", "&", "|"):
        return f"one {shown(token.kind)} is enough"
    if token.kind == after.kind == "/" or token.kind == "/" and before.kind == "/" and joined:
        return "'#' begins a comment"
    for one in (token, before):
        if one.text in WORDS and one.kind == "name" and one.text not in program.names:
            return WORDS[one.text]
    if token.kind in KEYWORDS and wanted == {"name"}:
        return f"{shown(token.text)} is a keyword, and a name is wanted"
    if token.kind == ";" and before.kind == "}":
        return "no ';' follows the '}' of a 'let'"
    if before.kind == ";" and token.kind in ("end", "else", ")", "}"):
        if program.depth == 0 and token.kind == "end" and "field" in wanted:
            return "a policy is wanted after the declarations"
        return "';' stands between two parts, and not after the last"
    if "else" in wanted and token.kind in ("end", ")", "}") or wanted == {"else"}:
        opened = next(one for one in reversed(program.open) if one.kind == "if")
        return f"the 'if' at {program.shown_place(opened.offset)} has no 'else'; 'else id' where nothing is to be done"
    if token.kind == "{":
        return "braces stand around the body of a 'let' alone; '(' and ')' hold parts together"
    name = program.names.get(before.text) if before.kind == "name" else None
    if name and name.kind != "array" and token.kind in CHANGES and token.kind != "<-" and "]" not in wanted:
        return f"{shown(before.text)} is {KINDS[name.kind]}, and arrays alone count"
    value = program.tokens[at - 2].kind in CHANGES + ("=",) if at > 1 else False
    if name and name.kind == "array" and token.kind == "[" and value:
        return "an array isn't read into a field or another array: test its place"
    if token.kind in ("field", "array", "const", "let") and not program.declaring:
        return "declarations stand before the policy"
    if token.kind == "end" and program.open and program.open[-1].kind in ("(", "{"):
        opened = program.open[-1]
        return f"the {shown(opened.kind)} at {program.shown_place(opened.offset)} isn't closed"
    return mended(program, at, wanted) or wanted_cause(token, wanted)


def wanted_cause(token, wanted):
    """What could stand at a token, where that isn't too much."""
    if "!" in wanted:
        return f"a part of a policy is wanted here, and {'the text ends' if token.kind == 'end' else f'{shown(token.text)} begins none'}"
    return f"wanted: {listed(sorted(map(word, wanted)))}" if len(wanted) <= 8 else ""


def word(kind):
    return NAMES.get(kind) or shown(kind)


def mended(program, at, wanted):
    """What makes a text one in form, where one token more, another or less does."""
    tokens, here = program.tokens, program.tokens[at]
    if len(tokens) > MOST_TOKENS:
        return ""
    there = word(here.kind) if here.kind == "end" else shown(here.text)
    signs = [Token(kind, kind, here.offset) for kind in SIGNS if kind in wanted]
    for sign in signs:
        if in_form(program, tokens[:at] + [sign] + tokens[at:]):
            return f"{shown(sign.kind)} is missing before {there}"
    if here.kind == "end":
        return ""
    for sign in signs:
        if in_form(program, tokens[:at] + [sign] + tokens[at + 1:]):
            return f"{shown(sign.kind)} is wanted in place of {there}"
    return f"without {there} the text is in form" if in_form(program, tokens[:at] + tokens[at + 1:]) else ""


def in_form(program, tokens):
    made = Program(program.text, tokens)
    return made.broken is None and not any(one.words == "too deep" for one in made.findings)


def of_program(text):
    """What is wrong with a program, in the order in which snapc says it."""
    if len(text) > MOST_BYTES:
        return []
    program = Program(text)
    first = [one for one in program.findings if one.words in ("bad byte", "bad number", "too deep")]
    first = [one._replace(cause=byte_cause(text, program.starts[one.line - 1] + one.column - 1)) if one.words == "bad byte" else one
             for one in first]
    if text[:2] in UTF_16:
        first = first[:1]
    before = None
    if program.broken:
        token = program.broken[0]
        first = [Finding(*program.place(token.offset), "unexpected token", token_cause(program))]
        before = next((program.place(one.offset) for one, here in zip(program.tokens, program.tokens[1:]) if here is token), None)
    rules = sorted((one for one in program.findings if one.words in RULES and (one.line, one.column) != before),
                   key=lambda one: (one.line, one.column, RULES.index(one.words)))
    rules = [one for before, one in zip([None] + rules, rules) if before is None or before[:2] != one[:2]]
    unsure = {program.place(offset) for offset in program.unsure}
    return first + [one for at, one in enumerate(rules) if at == 0 or (one.line, one.column) not in unsure
                    or one.words != "wrong number of indices"]


def clash_text(program, clash, at=True):
    """How two parts clash at a sign, with its place or without."""
    names = listed(shown(name) for name in sorted(clash.arrays))
    sign = f"{shown(clash.sign.kind)}" + (f" at {program.shown_place(clash.sign.offset)}" if at else "")
    if clash.sign.kind == "+":
        return f"both sides of the {sign} use {names}, and one changes it"
    return f"two packets come to the {sign}, and what follows it changes {names}"


def clashes(program):
    """The parts of a program that may clash, in words; no others do."""
    return [clash_text(program, clash) for _, clash in sorted(program.clashes.items())]


def of_race(text):
    """Where two parts clash that are known to: at the place itself where no other may."""
    program = Program(text) if len(text) <= MOST_BYTES else None
    if not program or program.findings or program.broken or not program.clashes:
        return []
    if len(program.clashes) == 1:
        clash = next(iter(program.clashes.values()))
        return [Finding(*program.place(clash.sign.offset), "race", clash_text(program, clash, False))]
    return [Finding(1, 1, "race", f"one of these: {listed(clashes(program), 3, '; ')}", False)]
