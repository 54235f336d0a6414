"""How wide a text is in DejaVu Sans, the widest of the common fonts without serifs.

Boxes are made for it, since a picture may be seen with other fonts than those of the machine that draws it.
"""
from snapc_tool import BYTES

# The signs of ASCII of a width, in parts of the font's size: each is at most so wide.
REGULAR = {
    0.3: "'IJijl", 0.35: " ,./:;\\f|", 0.4: "!()-[]rt", 0.5: '"', 0.55: "*?_`csz", 0.6: "FLTkvxy",
    0.65: "$0123456789EPSYabdeghnopqu{}", 0.7: "BCKRVXZ", 0.75: "AU", 0.8: "&DGHNOQ", 0.85: "#+<=>^w~", 0.9: "M",
    1.0: "%@Wm",
}
BOLD = {
    0.35: " 'ijl", 0.4: ",./:;IJ\\|", 0.45: "-f", 0.5: "!()[]rt", 0.55: '"*_`', 0.6: "?csz", 0.65: "Lx",
    0.7: "$0123456789EFSaekovy", 0.75: "CPTYZbdghnpqu{}", 0.8: "ABKRVX", 0.85: "#+<=>DGHNOQU^~", 0.9: "&", 0.95: "w",
    1.0: "@M", 1.05: "%m", 1.15: "W",
}
OTHER = 1.2  # a sign beyond ASCII


def by_sign(widths):
    return {sign: width for width, signs in widths.items() for sign in signs}


SIGNS = {False: by_sign(REGULAR), True: by_sign(BOLD)}


def text_width(text, size=12, bold=False):
    """The width in points of the longest line of a text."""
    text = text.encode(BYTES).decode(errors="replace")
    return max(sum(SIGNS[bold].get(sign, OTHER) for sign in line) for line in text.split("\n")) * size
