"""The arguments of commands, and what these say to a person."""
import argparse
import contextlib
import os
import stat
import sys
from typing import Any

from ._elf import Elf


def put(text: str, stream: Any) -> None:
    """Writes a text to a stream, which may be closed, at once. One that does not take it is closed: Python would write to it again at its end,
    and change the exit status."""
    try:
        stream.write(text)
        stream.flush()
    except (AttributeError, OSError, ValueError):
        with contextlib.suppress(AttributeError, OSError):
            stream.close()


def opened(path: str) -> Elf:
    """Opens a file that a person names. Raises an OSError also if it is no ordinary file, as one that has no end or waits for another program."""
    status = os.stat(path)
    if not stat.S_ISREG(status.st_mode) and not stat.S_ISDIR(status.st_mode):
        raise OSError(0, 'it is no ordinary file', path)
    # (of the kernel's files, which have no size, some wait)
    return Elf.open(path) if status.st_size else Elf(b'')


class Parser(argparse.ArgumentParser):
    """A parser that ends the program with the same exit status if what it says can't be written."""

    def _print_message(self, message: str, file: Any = None) -> None:
        put(message, file or sys.stderr)
