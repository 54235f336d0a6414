"""A reader of the TOML that topologies, demands and placements are made of: keys, strings, whole numbers, arrays and tables.

Python has its own reader from 3.11 on, which refuses line ends in inline tables; snapc takes them. What no file for snapc needs,
as dates and strings of several lines, is a fault that says so, an `Unread`: it may be TOML all the same.
"""
import re

from snapc_nearest import shown
from snapc_tool import Fault

TOKEN = re.compile(r"""(?P<blank>[ \t]+|\#[^\n]*) | (?P<end>\r?\n) | (?P<three>\"{3}|'{3})
    | "(?P<basic>(?:[^"\\\n]|\\.)*)" | '(?P<literal>[^'\n]*)' | (?P<bare>[A-Za-z0-9_+-]+) | (?P<sign>[\[\]{}=,.:])""", re.X)
ESCAPES = {"b": "\b", "t": "\t", "n": "\n", "f": "\f", "r": "\r", "e": "\x1b", '"': '"', "\\": "\\"}
CONTROL = re.compile("[\\x00-\\x08\\x0a-\\x1f\\x7f]")
DEEPEST = 80


class Unread(Fault):
    """What this reader doesn't read."""


def unescaped(text, fault):
    """A basic string without its escapes, as bytes of UTF-8."""

    def one(found):
        code = found[1] or found[2] or found[3]
        try:
            return chr(int(code, 16)).encode().decode("latin-1") if code else ESCAPES[found[4]]
        except (KeyError, ValueError, OverflowError):
            raise fault("no escape of a string") from None

    return re.sub(r"\\(?:x([0-9A-Fa-f]{2})|u([0-9A-Fa-f]{4})|U([0-9A-Fa-f]{8})|(.))", one, text)


class Reader:
    """A text, how far it is read, and the places of keys and of values by their paths, as of `a` in `("links", 0, 1)`."""

    def __init__(self, text, file):
        self.file, self.line, self.tokens, at, first = file, 1, [], 0, 0
        self.keys, self.values = {}, {}
        while at < len(text):
            found, self.column = TOKEN.match(text, at), at - first + 1
            if not found:
                raise self.fault("a string has no end on its line" if text[at] in "\"'" else "no sign of TOML outside of a string")
            if found.lastgroup == "three":
                raise self.fault("strings of three quotes aren't read", Unread)
            if CONTROL.search(found[0].rstrip("\r\n") if found.lastgroup in ("blank", "end") else found[0]):
                raise self.fault("a sign that isn't printed stands in a string or a comment")
            kind, value, at = found.lastgroup, found[found.lastgroup], found.end()
            if kind == "basic":
                value = unescaped(value, self.fault)
            if kind != "blank":
                self.tokens.append((kind, value, self.line, self.column))
            if kind == "end":
                self.line, first = self.line + 1, at
        self.tokens += [(kind, "", self.line, len(text) - first + 1) for kind in ("end", "none")]
        self.at = 0

    def fault(self, text, kind=Fault):
        fault = kind(self.file, self.line, text)
        fault.column = self.column
        return fault

    def next(self):
        kind, value, self.line, self.column = self.tokens[self.at]
        self.at = min(self.at + 1, len(self.tokens) - 1)
        return kind, value

    def takes(self, kind, value=None):
        """Whether the next token is this, which is then read."""
        found = self.tokens[self.at]
        self.at += found[0] == kind and kind != "none" and value in (None, found[1])
        return found[0] == kind and value in (None, found[1])

    def needs(self, kind, value=None):
        if not self.takes(kind, value):
            self.line, self.column = self.tokens[self.at][2:]
            raise self.fault(f"{shown(value) if value else 'a new line'} is missing")

    def skip_ends(self):
        while self.takes("end"):
            pass

    def key(self):
        parts = []
        while not parts or self.takes("sign", "."):
            kind, value = self.next()
            if kind not in ("bare", "basic", "literal"):
                raise self.fault("a key is wanted", Unread if value == "[" else Fault)
            if kind == "bare" and "+" in value:
                raise self.fault(f"the key {shown(value)} has no quotes, so it has letters, digits, '_' and '-' alone")
            parts.append(value)
        return parts

    def value(self, depth, path):
        kind, value = self.next()
        self.values[path] = self.line, self.column
        if depth > DEEPEST:
            raise self.fault("nested too deep")
        if kind in ("basic", "literal"):
            return value
        if kind == "bare" and re.fullmatch(r"[+-]?(0|[1-9](_?[0-9])*)", value) and self.tokens[self.at][1] not in (".", ":"):
            return int(value.replace("_", ""))
        if kind == "bare" and value in ("true", "false"):
            return value == "true"
        if kind == "bare":
            word = re.fullmatch("[A-Za-z_].*", value) and value not in ("inf", "nan")
            raise self.fault("a string has quotes" if word else "no value that is read here", Fault if word else Unread)
        if (kind, value) not in (("sign", "["), ("sign", "{")):
            raise self.fault("a value is missing")
        return self.array(depth, path) if value == "[" else self.table(depth, path)

    def array(self, depth, path):
        values = []
        self.skip_ends()
        while not self.takes("sign", "]"):
            values.append(self.value(depth + 1, path + (len(values),)))
            self.skip_ends()
            if not self.takes("sign", ","):
                self.needs("sign", "]")
                break
            self.skip_ends()
        return values

    def table(self, depth, path):
        table = {}
        self.skip_ends()
        while not self.takes("sign", "}"):
            self.entry(table, depth + 1, path)
            self.skip_ends()
            if not self.takes("sign", ","):
                self.needs("sign", "}")
                break
            self.skip_ends()
        return table

    def inner(self, table, keys):
        for key in keys:
            table = table.setdefault(key, {})
            if not isinstance(table, dict):
                raise self.fault(f"{key} is no table")
        return table

    def placed_key(self, path):
        """The parts of a key, whose places are kept."""
        at = self.tokens[self.at][2:]
        keys = self.key()
        for count in range(1, len(keys) + 1):
            self.keys.setdefault(path + tuple(keys[:count]), at)
        return keys

    def entry(self, table, depth, path):
        at = self.tokens[self.at][2:]
        keys = self.placed_key(path)
        self.needs("sign", "=")
        self.line, self.column = at
        table = self.inner(table, keys[:-1])
        if keys[-1] in table:
            raise self.fault(f"{shown(keys[-1])} stands twice")
        table[keys[-1]] = self.value(depth, path + tuple(keys))

    def document(self):
        whole, table, told, path = {}, None, set(), ()
        table = whole
        while self.tokens[self.at][0] != "none":
            if self.takes("end"):
                continue
            if self.takes("sign", "["):
                keys = path = tuple(self.placed_key(()))
                self.needs("sign", "]")
                table = self.inner(whole, keys)
                if keys in told:
                    raise self.fault(f"[{'.'.join(keys)}] stands twice")
                told.add(keys)
            else:
                self.entry(table, 0, path)
            self.needs("end")
        return whole


def read_toml(text, file):
    """The tables of a text, as dictionaries."""
    return Reader(text, file).document()
