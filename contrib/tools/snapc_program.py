"""A reader of programs, as docs/LANGUAGE.md describes them, that goes on after a broken rule of names and finds all of them.

What it finds comes in the order in which snapc would say it: a text that has no tokens or no tree first, then by place.
"""
import bisect
import re
import sys
from typing import FrozenSet, NamedTuple, Optional

sys.dont_write_bytecode = True
from snapc_finding import Finding
from snapc_nearest import hint, shown

WORD = r"[A-Za-z_](?:[A-Za-z0-9_]|[.-](?=[A-Za-z0-9_]))*"
KEYWORDS = ("field", "array", "const", "let", "if", "then", "else", "id", "drop", "atomic", "True", "False")
TOKEN = re.compile(rf"""(?P<blank>[ \t\r\n]+|\#[^\n]*) | (?P<word>{WORD}) | (?P<figure>[0-9][A-Za-z0-9_.]*)
    | (?P<sign>\+\+|--|\+=|-=|<-|[\[\](){{}}=!&|+;/])""", re.X)
UNREAD = re.compile(r"""\"[^\"\n]*\" | '[^'\n]*' | [\x80-\xff]+ | .""", re.X | re.S)  # what is one bad byte and what hangs on it
DEEPEST = 128
MOST = 2 ** 64 - 1
RULES = ["unknown name", "declared twice", "wrong kind", "wrong number of indices", "number too wide", "wrong prefix"]
CHANGES = ("<-", "++", "--", "+=", "-=")
KINDS = {"plain": "a plain field", "split": "a split field", "array": "an array", "const": "a constant", "let": "a policy"}


class Token(NamedTuple):
    kind: str  # name, number, address or end, or a keyword or a sign itself
    text: str
    offset: int


class Name(NamedTuple):
    kind: str  # plain, split, array, const or let
    offset: int  # where it is declared; -1 for what is declared before the text
    length: Optional[int] = None  # of a split field
    address: bool = False  # whether a constant is one
    part: object = None  # the body of a let


class Value(NamedTuple):
    kind: str  # number, address, prefix, a kind of names, or unknown
    token: Token
    name: Optional[Name] = None
    length: Optional[str] = None  # of an address with one


class Part(NamedTuple):
    """A part of a policy: whether it is a predicate, which arrays it reads and writes, and whether it may make two packets."""
    predicate: bool
    reads: FrozenSet[str] = frozenset()
    writes: FrozenSet[str] = frozenset()
    copies: bool = False

    def touched(self):
        return self.reads | self.writes


class Clash(NamedTuple):
    """A sign at which two parts may clash, and the arrays over which they do."""
    sign: Token
    arrays: FrozenSet[str]


class Unexpected(Exception):
    """No tree goes on at the token at hand."""


def joined(left, right, predicate=False, copies=False):
    return Part(predicate, left.reads | right.reads, left.writes | right.writes, left.copies or right.copies or copies)


def address_fault(text):
    """Why a figure that isn't digits alone is no address; nothing where it is one."""
    parts = text.split(".")
    if not re.fullmatch(r"[0-9.]+", text):
        return "a number has decimal digits alone, and a name begins with a letter"
    if len(parts) != 4 or "" in parts:
        count = len([part for part in parts if part])
        return f"an address has four numbers with dots between, and here {'is 1' if count == 1 else f'are {count}'}"
    part = next((part for part in parts if len(part) > 3 or int(part) > 255), None)
    if part is None:
        return ""
    return f"{shown(part)} has more than three digits" if len(part) > 3 else f"{shown(part)} in it is above 255"


class Program:
    """A text that is read: its tokens, its names, the places where parts may clash, and what is wrong."""

    def __init__(self, text, tokens=None):
        self.text, self.starts = text, [0] + [found.end() for found in re.finditer("\n", text)]
        self.findings, self.clashes, self.names = [], {}, {}
        self.names["inport"] = self.names["outport"] = Name("plain", -1)
        self.counts, self.unsure, self.later = {}, set(), {}
        self.at, self.depth, self.wanted, self.open = 0, 0, set(), []
        self.declaring = True
        self.broken = None  # the token at which no tree goes on, and the kinds of tokens at which one would
        self.tokens = tokens if tokens is not None else self.lexed()
        if self.findings:
            return
        self.later = {here.text: here.offset for before, here in zip(self.tokens, self.tokens[1:])
                      if before.kind in ("field", "array", "const", "let") and here.kind == "name"}
        limit = sys.getrecursionlimit()
        sys.setrecursionlimit(max(limit, 4000))
        try:
            self.declarations()
            self.declaring = False
            self.policy()
            self.need("end")
        except Unexpected:
            if self.depth <= DEEPEST:
                self.broken = self.tokens[self.at], frozenset(self.wanted)
        finally:
            sys.setrecursionlimit(limit)

    # Tokens.

    def lexed(self):
        tokens, at = [], 0
        while at < len(self.text):
            found = TOKEN.match(self.text, at)
            if not found:
                self.find("bad byte", at, "")
                at = UNREAD.match(self.text, at).end()
                continue
            word = found[0]
            if found.lastgroup == "figure":
                if not word.isdigit() and address_fault(word):
                    self.find("bad number", at, address_fault(word))
                tokens.append(Token("number" if word.isdigit() else "address", word, at))
            elif found.lastgroup != "blank":
                tokens.append(Token("name" if found.lastgroup == "word" and word not in KEYWORDS else word, word, at))
            at = found.end()
        return tokens + [Token("end", "", len(self.text))]

    def place(self, offset):
        line = bisect.bisect_right(self.starts, offset)
        return line, offset - self.starts[line - 1] + 1

    def shown_place(self, offset):
        return ":".join(map(str, self.place(offset)))

    def find(self, words, offset, cause):
        self.findings.append(Finding(*self.place(offset), words, cause))

    def sees(self, *kinds):
        self.wanted.update(kinds)
        return self.tokens[self.at].kind in kinds

    def take(self):
        self.at, self.wanted = self.at + 1, set()
        return self.tokens[self.at - 1]

    def need(self, *kinds):
        if not self.sees(*kinds):
            raise Unexpected
        return self.take()

    def deeper(self):
        self.depth += 1
        if self.depth > DEEPEST:
            self.find("too deep", self.tokens[self.at].offset, f"at most {DEEPEST} of 'if', '!', '(' and '{{' stand in each other")
            raise Unexpected
        self.open.append(self.tokens[self.at])
        self.take()

    def ended(self):
        self.depth -= 1
        self.open.pop()

    # Declarations.

    def declarations(self):
        while self.sees("field", "array", "const", "let"):
            kind = self.take().kind
            name = self.need("name")
            if kind == "let":
                self.need_body(name)
                continue
            made = Name("array" if kind == "array" else "plain", name.offset)
            inner = []
            if kind == "field" and self.sees("/"):
                self.take()
                inner, length = [f"{name.text}.net", f"{name.text}.host"], self.need("number")
                made = Name("split", name.offset, self.length(length))
            elif kind == "const":
                self.need("=")
                value = self.need("number", "address", "True", "False")
                made = Name("const", name.offset, address=value.kind == "address")
                self.wide(value)
            self.need(";")
            self.declare(name, made, inner)

    def need_body(self, name):
        if not self.sees("{"):
            raise Unexpected
        self.deeper()
        part = self.policy()
        self.need("}")
        self.ended()
        self.declare(name, Name("let", name.offset, part=part), [])

    def declare(self, name, made, inner):
        for word in [name.text] + inner:
            if word in self.names:
                before = self.names[word].offset
                where = "before the text" if before < 0 else f"at {self.shown_place(before)}"
                self.find("declared twice", name.offset, f"{shown(word)} is declared {where} already")
                break
        for word, kind in [(name.text, made)] + [(word, Name("plain", name.offset)) for word in inner]:
            self.names.setdefault(word, kind)

    def length(self, token):
        if self.wide(token):
            return None
        if not 1 <= int(token.text) <= 31:
            self.find("wrong prefix", token.offset, "a field is split at a length from 1 to 31")
            return None
        return int(token.text)

    def wide(self, token):
        wide = token.kind == "number" and (len(token.text.lstrip("0")) > 20 or int(token.text) > MOST)
        if wide:
            self.find("number too wide", token.offset, f"the greatest number is {MOST}")
        return wide

    # Policies.

    def policy(self):
        part = self.sequence()
        while self.sees("+"):
            sign, right = self.take(), self.sequence()
            self.may_clash(sign, part.writes & right.touched() | right.writes & part.touched())
            part = joined(part, right, copies=True)
        return part

    def sequence(self):
        part = self.choice()
        while self.sees(";"):
            sign, right = self.take(), self.choice()
            self.may_clash(sign, right.writes if part.copies else frozenset())
            part = joined(part, right)
        return part

    def may_clash(self, sign, arrays):
        if arrays:
            self.clashes[sign.offset] = Clash(sign, arrays)

    def choice(self):
        if not self.sees("if"):
            return self.either()
        self.deeper()
        part = self.operand(self.either)
        self.need("then")
        part = joined(part, self.policy())
        self.need("else")
        part = joined(part, self.choice())
        self.ended()
        return part

    def either(self):
        return self.row("|", lambda: self.row("&", self.single))

    def row(self, sign, inner):
        """Parts with a sign between, which are predicates where there are several."""
        first, part = self.tokens[self.at], inner()
        several = False
        while self.sees(sign):
            if not several:
                self.predicate(part, first)
            self.take()
            part, several = joined(part, self.operand(inner), True), True
        return part

    def operand(self, inner):
        first = self.tokens[self.at]
        part = inner()
        self.predicate(part, first)
        return part

    def predicate(self, part, first):
        if not part.predicate:
            self.find("wrong kind", first.offset, "a test is wanted here, and this does more than test")

    def single(self):
        if self.sees("!"):
            self.deeper()
            part = self.operand(self.single)
            self.ended()
            return part._replace(predicate=True)
        if self.sees("id", "drop"):
            self.take()
            return Part(True)
        if self.sees("("):
            return self.bracket()
        if self.sees("atomic"):
            self.take()
            if not self.sees("("):
                raise Unexpected
            return self.bracket()._replace(predicate=False)
        return self.named(self.need("name"))

    def bracket(self):
        self.deeper()
        part = self.policy()
        self.need(")")
        self.ended()
        return part

    def named(self, token):
        name = self.known(token)
        if self.sees("["):
            return self.placed(token, name)
        if self.sees("=", "<-"):
            sign = self.take().kind
            if name and name.kind not in ("plain", "split"):
                brackets = "an index in brackets follows it" if name.kind == "array" else "a field is wanted here"
                self.find("wrong kind", token.offset, f"{shown(token.text)} is {KINDS[name.kind]}: {brackets}")
                name = None
            self.fits(name, sign, self.value())
            return Part(sign == "=")
        if name and name.kind != "let":
            uses = "a policy is wanted here" if name.kind == "const" else "an index in brackets follows it"
            if name.kind in ("plain", "split"):
                uses = "'=' tests it and '<-' changes it"
            self.find("wrong kind", token.offset, f"{shown(token.text)} is {KINDS[name.kind]}: {uses}")
        return name.part if name and name.part else Part(True)

    def known(self, token, values=False):
        """What a name stands for; where it isn't declared, that is found."""
        if token.text in self.names:
            return self.names[token.text]
        split, _, rest = token.text.rpartition(".")
        name = self.names.get(split)
        if token.text in self.later:
            cause = f"it is declared at {self.shown_place(self.later[token.text])}, and counts from there on"
            if self.later[token.text] < token.offset:
                cause = "no policy uses itself"
        elif rest in ("net", "host") and name and name.kind != "split":
            cause = f"{shown(split)} isn't split: 'field {split}/24;' would give it a net and a host"
        else:
            cause = f"{shown(token.text)} isn't declared" + hint(token.text, list(self.names) + ["True", "False"] * values)
        self.find("unknown name", token.offset, cause)
        return None

    def placed(self, token, name):
        count, unsure = 0, []
        while self.sees("["):
            self.take()
            value = self.value(index=True)
            count += 2 if value.kind == "split" else 1
            unsure += [value.token] * (value.kind in ("unknown", "let", "array", "prefix"))
            self.need("]")
        if name and name.kind != "array":
            self.find("wrong kind", token.offset, f"{shown(token.text)} is {KINDS[name.kind]}, and an array alone has an index")
        elif name:
            self.counted(token, count, unsure)
        reads = writes = frozenset()
        if self.sees(*CHANGES):
            writes, sign = frozenset([token.text]), self.take().kind
            if sign not in ("++", "--"):
                self.array_value(sign, self.value())
            return Part(False, reads, writes)
        if self.sees("="):
            self.take()
            self.array_value("=", self.value())
        return Part(True, frozenset([token.text]), writes)

    def counted(self, token, count, unsure):
        first, where, before = self.counts.setdefault(token.text, (count, token.offset, unsure))
        if count != first:
            cause = f"{shown(token.text)} has {count} here, and {first} at its first use, {self.shown_place(where)}"
            unknown = next((one.text for one in unsure + before if one.kind == "name" and one.text not in self.names), None)
            if unknown:
                cause += f"; {shown(unknown)} isn't declared"
            elif any(name.kind == "split" for name in self.names.values()):
                cause += "; a split field counts as two"
            self.find("wrong number of indices", token.offset, cause)
            if unsure or before:
                self.unsure.add(token.offset)

    # Values.

    def value(self, index=False):
        token = self.need("number", "address", "True", "False", "name")
        if token.kind == "name":
            name = self.known(token, values=True)
            found = Value(name.kind if name else "unknown", token, name)
        elif token.kind == "address" and self.sees("/"):
            self.take()
            found = Value("prefix", token, None, self.need("number").text.lstrip("0") or "0")
        else:
            found = Value("address" if token.kind == "address" else "number", token)
        if index:
            if found.kind in ("array", "let"):
                self.find("wrong kind", token.offset, f"{shown(token.text)} is {KINDS[found.kind]}; an index has numbers and fields")
            if found.kind == "prefix":
                self.find("wrong prefix", token.offset, "an index has no address with a length")
            self.wide(token)
        return found

    def fits(self, name, sign, value):
        """Whether a value may be compared with a field, or put into it."""
        if name is None:
            if value.kind == "prefix":
                self.find("wrong prefix", value.token.offset, "it is compared with no split field")
            self.wide(value.token)
            return
        allowed, cause = ["number", "address", "const"], "a plain field is compared with a number, an address or a constant alone"
        if name.kind == "plain" and sign == "<-":
            allowed, cause = allowed + ["plain"], "a plain field takes a number, an address, a constant or a plain field"
        if name.kind == "split":
            allowed, cause = ["address", "const"], "a split field takes an address, or a constant that is one"
            if sign == "=":
                allowed, cause = allowed + ["prefix"], cause + f", or address/{name.length or 'length'}"
            else:
                allowed, cause = allowed + ["split"], cause + ", or a split field of the same length"
        if value.kind == "unknown":
            return
        if value.kind not in allowed or name.kind == "split" and value.kind == "const" and not value.name.address:
            self.find("wrong kind", value.token.offset, f"{self.what(value)}; {cause}")
        elif value.kind == "split" and None not in (value.name.length, name.length) and value.name.length != name.length:
            self.find("wrong kind", value.token.offset, f"{shown(value.token.text)} is split at {value.name.length}, and the field that it "
                      f"is put into at {name.length}")
        elif value.kind == "prefix" and name.length is not None and value.length != str(name.length):
            self.find("wrong prefix", value.token.offset, f"the field is split at {name.length}, and not at {value.length[:20]}")
        else:
            self.wide(value.token)

    def array_value(self, sign, value):
        allowed, cause = ["number", "address", "const"], "a number, an address or a constant stands here"
        if sign in ("=", "<-"):
            allowed, cause = allowed + ["plain"], "a number, an address, a constant or a plain field stands here"
        if value.kind == "prefix" and sign in ("=", "<-"):
            self.find("wrong prefix", value.token.offset, "an array's number is compared with no address/length")
        elif value.kind not in allowed + ["unknown"]:
            self.find("wrong kind", value.token.offset, f"{self.what(value)}; {cause}")
        else:
            self.wide(value.token)

    def what(self, value):
        kind = {"prefix": "an address with a length", "number": "a number", "address": "an address"}.get(value.kind)
        return f"{shown(value.token.text)} is {kind or KINDS[value.kind]}"

