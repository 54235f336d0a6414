"""The nearest of some names to one that isn't among them, and words as messages show them."""
import difflib
import functools

WIDEST = 40  # signs of a word that are shown


def shown(word):
    """A word in quotes, without signs that aren't printed."""
    text = "".join(one if " " <= one <= "~" else "?" for one in word)
    return f"'{text[:WIDEST]}..'" if len(text) > WIDEST else f"'{text}'"


def nearest(word, names):
    """The name that is nearest to a word; None where none is near."""
    return nearest_of(word, tuple(names))


@functools.lru_cache(maxsize=256)
def nearest_of(word, names):
    by_small = {name.lower(): name for name in sorted(names, reverse=True)}
    found = difflib.get_close_matches(word[:WIDEST].lower(), list(by_small), 1) if len(word) <= WIDEST else []
    return by_small[found[0]] if found else None


def hint(word, names):
    """`; did you mean 'NAME'?`, or nothing."""
    name = nearest(word, names)
    return f"; did you mean {shown(name)}?" if name else ""


def listed(names, most=8, between=", "):
    """Some names one after the other, and how many more there are."""
    names = list(names)
    return between.join(names[:most]) + (f" and {len(names) - most} more" if len(names) > most else "")
