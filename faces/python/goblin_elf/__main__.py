"""Prints what a person wants to know first of ELF files: python -m goblin_elf [--json] FILE..

Those of each file are printed once it is read. What it does not hold is unknown. The exit status is 0, or 1 if a file can't be read, or it or a
part of it is refused, or 2 if the output can't be written. What is printed is not proved, but tested.
"""
import contextlib
import io
import json
import signal
import sys
from typing import Any, Dict, Iterator, List, Optional, Set

from ._arguments import Parser, opened, put
from ._facts import facts, refusal
from ._refused import Refused


def described(path: str) -> Dict[str, Any]:
    """Returns the facts of a file, or why there are none."""
    try:
        return {'file': path, **facts(opened(path))}
    except Refused as error:
        return {'file': path, **refusal(error)}
    except OSError as error:
        return {'file': path, 'error': error.strerror or str(error)}


def lines(found: Dict[str, Any]) -> Iterator[str]:
    """Yields the facts of a file as lines for a person, without what a terminal takes as a command."""
    for name, value in {**found, **(found.get('sizes') or {})}.items():
        if name in found.get('unknown', ()):
            value = 'unknown'
        elif isinstance(value, bool):
            value = 'yes' if value else 'no'
        elif isinstance(value, list):
            value = ', '.join(map(str, value)) or 'none' * (name != 'numbers')
        elif name in ('entry', 'offset'):
            value = f'{value:#x}'
        if (value not in (None, '') or name == 'file') and name != 'unknown' and (name != 'sizes' or value == 'unknown'):
            line = value if name == 'file' else f'  {name.replace("_", " "):16} {value}'
            yield ''.join(sign if sign.isprintable() else '\N{REPLACEMENT CHARACTER}' for sign in line)


def as_json(found: Dict[str, Any]) -> str:
    """Returns the facts of a file as JSON. A byte that is not UTF-8 is U+FFFD: strict readers refuse the surrogate that it is decoded as."""
    text = json.dumps([found], ensure_ascii=False).encode('utf-8', 'surrogateescape').decode('utf-8', 'replace')
    return json.dumps(json.loads(text), indent=1)[2:-2]


def texts_of(paths: List[str], is_json: bool, statuses: Set[int]) -> Iterator[str]:
    """Yields what is printed of each file as it is read, and adds its status."""
    start = '[\n'
    for found in map(described, paths):
        statuses.add(int('refused' in found or 'error' in found))
        yield start + as_json(found) if is_json else ''.join(f'{line}\n' for line in lines(found))
        start = ',\n'
    yield '\n]\n' * is_json


def main(arguments: Optional[List[str]] = None) -> int:
    parser = Parser(prog='python -m goblin_elf', description='Prints what a person wants to know first of ELF files.')
    parser.add_argument('--json', action='store_true', help='print a list of objects, one for each file')
    parser.add_argument('files', nargs='+', metavar='FILE')
    options = parser.parse_args(arguments)
    statuses: Set[int] = set()
    try:
        if sys.stdout is None:
            raise OSError(0, 'it is closed')
        for text in texts_of(options.files, options.json, statuses):
            print(text, end='', flush=True)
    except OSError as error:
        put(f'{parser.prog}: the output can not be written: {error.strerror}\n', sys.stderr)
        with contextlib.suppress(AttributeError, OSError):
            sys.stdout.close()  # (Python would write it again at its end)
        return 2
    return max(statuses)


if __name__ == '__main__':
    signal.signal(signal.SIGPIPE, signal.SIG_DFL)  # (a reader such as head may leave)
    if signal.getsignal(signal.SIGINT) is signal.default_int_handler:  # (else it is ignored, as in the background)
        signal.signal(signal.SIGINT, signal.SIG_DFL)
    if isinstance(sys.stdout, io.TextIOWrapper):
        sys.stdout.reconfigure(errors='replace')  # (it need not take each sign)
    sys.exit(main())
