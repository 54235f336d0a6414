"""What all drawings share: texts in the language of Graphviz, tables of cells, colours, and pictures made by `dot`."""
import math

from snapc_draw_widths import text_width
from snapc_tool import BYTES, Fault

FONT = "Helvetica,Arial,sans-serif"
LIGHT = ["#b9d7ea", "#c9e7b0", "#fdd3a0", "#d9c8e8", "#fbc1bf", "#f7f0a5"]  # what stands at a rank
DARK = ["#1f78b4", "#2e8b2a", "#d96c00", "#6a3d9a", "#d0161a", "#8f7a00"]  # what goes to it
INK = ["#b2182b", "#2166ac", "#762a83", "#1b7837", "#8c510a", "#01665e"]  # packets, where several are drawn
PLAIN = "#333333"
PALE = "#999999"
PADDING = 4  # points around the text of a cell


def of(colours, number):
    return colours[number % len(colours)]


def printable(text):
    """A text without the control characters that no picture can show."""
    return "".join(one if " " <= one != "\x7f" or one == "\n" else "?" for one in text)


def quoted(text):
    """A text as a label in quotes; its lines are centred."""
    text = printable(text).replace("\\", "\\\\").replace('"', '\\"').replace("&", "&amp;")
    return '"' + text.replace("\n", "\\n") + '"'


def escaped(text):
    """A text between the tags of a table of cells."""
    for sign, entity in (("\\", "\\\\"), ("&", "&amp;"), ("<", "&lt;"), (">", "&gt;"), ('"', "&quot;"), ("\n", "<BR/>")):
        text = text.replace(sign, entity)
    return printable(text)


def cell(text, colour="white", bold=False, port=None):
    """A row with one cell, whose colour is behind its text; an edge may begin at its port. The text stands at the left: `dot` tells
    where its lines begin, so that in the middle a wider font than that of `dot` would go beyond the right side only."""
    width = math.ceil(text_width(text, bold=bold)) + 2 * (PADDING + 1)
    text = escaped(text)
    text = f"<B>{text}</B>" if bold else text
    more = f' PORT="{port}"' if port is not None else ""
    return f'<TR><TD BGCOLOR="{colour}"{more} WIDTH="{width}" ALIGN="LEFT" BALIGN="LEFT">{text}</TD></TR>'


def cells(rows):
    """A label of rows, one below the other."""
    return f'<<TABLE BORDER="0" CELLBORDER="1" CELLSPACING="0" CELLPADDING="{PADDING}">' + "".join(rows) + "</TABLE>>"


def edge(source, target, **settings):
    told = ", ".join(f"{key}={quoted(str(value))}" for key, value in settings.items())
    return f"  {source} -> {target}" + (f" [{told}];" if told else ";")


def graph(name, settings, lines):
    """The whole text of a drawing. Names of another encoding than UTF-8 are taken as Latin-1, which has all bytes."""
    text = f"digraph {name} {{\n" + "".join(f"  {line};\n" for line in [
        *settings, f'graph [fontname="{FONT}", fontsize=12]', f'node [shape=plain, fontname="{FONT}", fontsize=12]',
        f'edge [fontname="{FONT}", fontsize=11, arrowsize=0.7]']) + "\n".join(lines) + "\n}\n"
    try:
        text.encode(BYTES).decode()
    except UnicodeDecodeError:
        text = text.replace("{\n", "{\n  charset=latin1;\n", 1)
    return text


def picture(text, kind):
    """What `dot` makes of a drawing: the bytes of an SVG or PNG picture, as a text of them."""
    import subprocess  # as in snapc_tool

    try:
        done = subprocess.run(["dot", f"-T{kind}"], input=text.encode(BYTES), stdout=subprocess.PIPE, stderr=subprocess.PIPE)
    except OSError:
        raise Fault("dot", 0, f"cannot be run; without --{kind} the text goes out that it reads") from None
    if done.returncode != 0 or not done.stdout:
        said = done.stderr.decode(BYTES).strip().split("\n")
        raise Fault("dot", 0, said[-1] or f"ended with {done.returncode}")
    return done.stdout.decode(BYTES)
