"""What a reader finds wrong with a file: where, in which words snapc says so, and the cause."""
from typing import NamedTuple


class Finding(NamedTuple):
    line: int
    column: int
    words: str  # those of snapc, without a place in a program
    cause: str = ""
    known: bool = True  # whether what is wrong stands at the place, and not in the file as a whole

    def message(self):
        return self.words + (f": {self.cause}" if self.cause else "")
