"""Why a file is refused."""
from typing import Optional, Sized, Tuple, TypeVar

from ._interface import NUMBERS, Item, Kind

S = TypeVar('S', bound=Sized)


class Refused(ValueError):
    """A file, or a part of it, is refused. `str` of it is the library's text.

    `kind` is the `Kind`, and `numbers` are those that belong to the kind. `item` is what it is about, or `None` if the kind says that.
    `offset` is where in the file the thing begins that is refused, in bytes: 0 for the header, the start of a list of headers, of a table
    or of a string table, or the offset of the string, the note, the bytes, or the field of a number that does not fit.
    """

    def __init__(self, text: str, kind: int, item: int, numbers: Tuple[int, ...], offset: int) -> None:
        super().__init__(text, kind, item, numbers, offset)
        self.kind = Kind(kind)
        self.item: Optional[Item] = Item(item) if item else None
        self.numbers = numbers[:NUMBERS.get(self.kind, len(numbers))]
        self.offset = offset

    def __str__(self) -> str:
        return str(self.args[0])


class Unknown(Exception):
    """What a fact needs is not in the file, or longer than is read."""


def within(most: int, found: Optional[S]) -> S:
    """Returns what was found. Raises `Unknown` if there is none, or if it has more than some length."""
    if found is None or len(found) > most:
        raise Unknown
    return found
