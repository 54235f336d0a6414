"""A call of snapc: its files, what each of them is, and their lines."""
import functools
import os
import subprocess
import sys

sys.dont_write_bytecode = True
from snapc_tool import BYTES

# What the files are that follow a command, in turn.
FILES = {
    "obs": ["program", "packets"], "deps": ["program"], "check": ["program"], "equal": ["program", "program"],
    "routes": ["topology"], "compile": ["program", "topology", "placement"], "place": ["program", "topology", "demand"],
    "trace": ["tables", "packets"]}
VALUED = ("--schedule", "--changes", "--workers")
FLAGS = ("--", "--hops", "--ordered", "--on-demand")


def text_of(name):
    """The text of a file, with a character for each byte; an empty one of what can't be read once more."""
    try:
        if not os.path.isfile(name):
            return ""
        with open(name, "rb") as file:
            return file.read().decode(BYTES)
    except (OSError, ValueError):
        return ""


@functools.lru_cache(maxsize=8)
def lines_of(name):
    """The lines of a file without their ends."""
    text = text_of(name)
    return [line[:-1] if line.endswith("\r") else line for line in text.split("\n")] if text else []


class Call:
    """The words before a command, the command, and the files after it, each with what it is."""

    def __init__(self, words):
        at = next((at for at, word in enumerate(words) if at and word in FILES), len(words))
        self.words, self.before, self.files, self.names = words, words[:at], [], []
        self.command = words[at] if at < len(words) else ""
        rest = [word for word in words[at + 1:] if word not in FLAGS]
        while rest:
            option, sign, value = rest.pop(0).partition("=")
            if option not in VALUED:
                self.names.append(option + sign + value)
            elif sign or rest:
                self.files.append((option[2:], value if sign else rest.pop(0)))
        self.files += zip(FILES.get(self.command, []), self.names)

    def named(self, kind):
        """The files of a kind, in the order in which snapc reads them."""
        names = [name for one, name in self.files if one == kind]
        if kind == "tables":
            changes = [line.split() for name in self.named("changes") for line in lines_of(name)]
            names += [os.fsdecode(words[2].encode(BYTES)) for words in changes if words[:1] == ["after"] and len(words) == 3]
        return names

    def text(self, kind):
        """The text of the first file of a kind; an empty one where there is none."""
        return next(map(text_of, self.named(kind)), "")

    def form(self):
        """The command with what its files are."""
        return " ".join(["snapc", self.command] + [kind.upper() for kind in FILES[self.command]])

    def says(self, words, message):
        """Whether snapc says just this on other words."""
        try:
            done = subprocess.run(self.before + words, stdin=subprocess.DEVNULL, stdout=subprocess.DEVNULL, stderr=subprocess.PIPE)
        except (OSError, ValueError):
            return False
        return done.stderr.split(b"\n")[0].decode(BYTES) == "snapc: " + message

    def file(self, kind, message):
        """The file of a kind that a message is about: of several the first of which snapc says the same alone, or else the last."""
        names = self.named(kind)
        for name in names[:-1]:
            command = "trace" if kind == "tables" else "check" if message == "race" else "deps"
            if self.says([command, name] + ["/dev/null"] * (kind == "tables"), message):
                return name
        return names[-1] if names else None
