"""What the tools share: how one begins and ends, its options, its files, its faults, and calls of snapc.

A tool is a file `snapc-NAME`, whose docstring is what `--help` prints, and which ends with `run(__doc__, body)`. The body is lent
the words of the call, and answers the whole output and perhaps a status. So nothing goes out before all was read and judged.
Every file is text with one character for each byte, so that columns count bytes and no byte is refused.

    1  the words are no call: what --help prints first, on the standard error
    2  a file can't be read, or isn't in form: `snapc-NAME: FILE:LINE: what is wrong`
    3  the output can't be written
"""
import os
import sys

sys.dont_write_bytecode = True
BYTES = "latin-1"


class Fault(Exception):
    """What is wrong with a file, and at which line, which counts from 1; 0 where it is no line."""

    def __init__(self, file, line, text):
        shown = os.fsencode(file).decode(BYTES)
        super().__init__(f"{shown}:{line}: {text}" if line else f"{shown}: {text}")
        self.line, self.text = line, text


class Usage(Exception):
    """The words are no call of the tool."""


def options(words, flags=(), valued=()):
    """What isn't an option, and a dictionary of the options. Behind `--` stands none. Each may stand once and anywhere."""
    rest, told, words = [], {}, list(words)
    while words:
        word = words.pop(0)
        if word == "--":
            rest += words
            break
        if word in told or word in valued and not words:
            raise Usage
        if word in flags:
            told[word] = True
        elif word in valued:
            told[word] = words.pop(0)
        elif word.startswith("-") and word != "-":
            raise Usage
        else:
            rest.append(word)
    return rest, told


def read_text(name):
    """The text of a file."""
    try:
        if name in ("-", "/dev/stdin"):
            return sys.stdin.buffer.read().decode(BYTES)
        with open(name, "rb") as file:
            return file.read().decode(BYTES)
    except (OSError, ValueError):
        raise Fault(name, 0, "cannot be read") from None


def snapc(words):
    """What snapc writes on these words; a fault where it doesn't end with 0. $SNAPC names another program than `snapc`."""
    import subprocess  # takes as long to load as all else together, and most tools don't call snapc

    program = os.environ.get("SNAPC", "snapc")
    try:
        done = subprocess.run([program] + list(words), stdin=subprocess.DEVNULL, stdout=subprocess.PIPE, stderr=subprocess.PIPE)
    except (OSError, ValueError):
        raise Fault(program, 0, "cannot be run") from None
    if done.returncode != 0:
        said = done.stderr.decode(BYTES).rstrip("\n") or f"ended with {done.returncode}"
        raise Fault(" ".join([program] + list(words[:1])), 0, said[len("snapc: "):] if said.startswith("snapc: ") else said)
    return done.stdout.decode(BYTES)


def write(text):
    """Writes the whole output; a status."""
    try:
        sys.stdout.buffer.write(text.encode(BYTES, "replace"))
        sys.stdout.buffer.flush()
        return 0
    except (OSError, ValueError):
        sys.stdout = None  # so that Python doesn't try again at its end
        return 3


def run(doc, body, usage=1):
    """Ends the program with the status of a tool: `body(words)` answers its output, or its output and a status.

    `usage` is the status where the words are no call, for tools whose 1 means something else.
    """
    name, words = os.path.basename(sys.argv[0]), sys.argv[1:]
    if "--help" in words[:1]:
        sys.exit(write(doc))
    status, said = 2, None
    try:
        done = body(words)
        text, status = done if isinstance(done, tuple) else (done, 0)
        if write(text):
            status, said = 3, "cannot write"
    except Usage:
        status, said = usage, "usage\n" + doc.split("\n\n")[1].rstrip()
    except Fault as fault:
        said = str(fault)
    except RecursionError:
        said = "the input is nested too deep"
    except MemoryError:
        said = "out of memory"
    except KeyboardInterrupt:
        status = 130
    if said is not None:
        said = "".join(one if one >= " " or one == "\n" else "?" for one in said)
        sys.stderr.buffer.write(f"{name}: {said}\n".encode(BYTES, "replace"))
    sys.exit(status)
