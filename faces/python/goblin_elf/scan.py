"""Examines all ELF files below some folders, and writes a report with a row for each: goblin-scan DIR.. -o report.csv

The report is a .csv, a .json, or where pyarrow is installed a .parquet. Files are examined by a process for each processor (--workers), or
by the workers of a scheduler of Dask that runs already (--scheduler HOST:PORT), which need this package and the same files at the same
paths. The report is the same in each case. This command listens on no port, and runs nothing of the folders. `python -m goblin_elf.scan` is the
same command, but Python then takes modules of the current folder first.

A cell is empty if such a file does not have the fact, or if it is unknown, and then the column `unknown` names it. If a part of a file is
refused, `refused` and the columns after it say why.

Files are mapped, and symbolic links below the folders are not followed. Members of `.a` and `.deb` archives, and of a `.a` in a
`.deb`, are examined, too: those of a `.deb` if they have at most 64 MiB and Python can unpack its data. A batch whose worker ends is tried
again by other ones; a file that ends one worker after another is a row with the refusal WORKER_LOST. With --resume, files of the report but
the last one are left out.
"""
import argparse
import collections
import contextlib
import csv
import fcntl
import functools
import importlib
import itertools
import json
import mmap
import os
import pathlib
import re
import secrets
import stat
import sys
import tarfile
import time
from typing import IO, Any, Callable, Dict, FrozenSet, Iterator, List, Optional, Set, TextIO, Tuple

from . import _workers as workers
from ._arguments import Parser, put
from ._elf import Elf, content_of
from ._facts import facts, refusal
from ._refused import Refused

Row = Dict[str, Any]
Part = Tuple[str, Row]  # of a file in a package: what comes after its name in the row, if it is a static library, and the row
Result = List[Tuple[str, List[Row], float]]  # of each file of a batch its path, its rows, and the seconds that it took
SIZES = ['code', 'data', 'read_only', 'zeros', 'not_loaded']
COUNTS = ['sections', 'segments', 'symbols', 'dynamic_symbols', *SIZES]
COLUMNS = ['file', 'member', 'class', 'order', 'type', 'kind', 'machine', 'build_id', 'interpreter', 'soname', 'rpath', 'runpath', 'needed', 'pie',
           'nx', 'relro', 'bind_now', 'writable_code', 'canary', 'control_flow', 'compilers', 'stripped', 'cut', *COUNTS, 'unknown', 'refused',
           'numbers', 'offset', 'text']
# What pyarrow calls the types of those that are no texts. Which are lists in a .json, and what stands between their texts elsewhere.
TYPES = {**dict.fromkeys([*COUNTS, 'offset'], 'uint64'),
         **dict.fromkeys(['pie', 'nx', 'bind_now', 'writable_code', 'canary', 'stripped', 'cut'], 'bool_')}
LISTS, BETWEEN = ('needed', 'control_flow', 'compilers', 'unknown', 'numbers'), {'compilers': '; '}
MAGIC, AR, THIN = b'\x7fELF', b'!<arch>\n', b'!<thin>\n'
TAKEN = 'another goblin-scan writes it'
DAMAGED = 'the archive is damaged or cut: it may have more members'
# The most bytes of a member that is unpacked into memory, of the data of a package, of a member's name, and of one that is unpacked.
MEMBER, PACKAGE, NAME, NAME_READ = 64 << 20, 4 << 30, 4096, 1 << 16
# The most headers of a package: of members, of long names of them, and of members of static libraries. (4 GiB of them would take minutes.)
HEADERS = 1 << 19
# The most characters of a file's rows. (A package of a few kilobytes may have rows of hundreds of megabytes.)
ROWS = 64 << 20
# How many rows of a .parquet are in memory at a time.
GROUP = 1 << 16
# Of each form of packed data its first bytes, and Python's module for it, where there is one.
PACKED = {b'\x1f\x8b\x08': 'gzip', b'BZh': 'bz2', b'\xfd7zXZ': 'lzma', b']\0\0\x80': 'lzma', b'(\xb5/\xfd': 'compression.zstd'}


def row_of(path: str, member: Optional[str], elf_of: Callable[[], Elf]) -> Row:
    """Returns the row of a file, or of a member of an archive."""
    try:
        found = facts(elf_of())
        found.update(found['sizes'] or {})
        found['unknown'] = [name for fact in found['unknown'] for name in (SIZES if fact == 'sizes' else [fact])]
    except Refused as error:
        found = refusal(error)
    return row_with(path, member, **{column: value for column, value in found.items() if column in COLUMNS})


def row_with(path: str, member: Optional[str], **columns: Any) -> Row:
    """Returns a row with some columns."""
    cells = {**dict.fromkeys(COLUMNS), **columns}
    row = {column: escaped(value) if isinstance(value, str) else [escaped(text) if isinstance(text, str) else text for text in value]
           if isinstance(value, list) else value for column, value in cells.items()}
    return {**row, 'file': named(path), 'member': member and named(member[:NAME])}


def named(path: str) -> str:
    """Returns a path, or a member's name, as a report has it: in each locale the same."""
    return escaped(os.fsencode(path).decode('utf-8', 'surrogateescape'))


# A report's texts are safe to show. Each byte of a character that does not print, or of a backslash, is written as \\xNN, and so is a byte
# that is not UTF-8. In a CSV a sign ' stands before each of = + - @ ' that begins a cell or follows a semicolon, with or without spaces and
# quotation marks between: so no spreadsheet runs it as a formula, whether it splits lines at commas or at semicolons.
FORMULA = r"""(?=[ "]*[=+\-@'\uff1d\uff0b\uff0d\uff20])"""


def escaped(text: str) -> str:
    """Returns a text without characters that do not print."""
    return ''.join(map(shown, text))


@functools.lru_cache(1 << 12)
def shown(sign: str) -> str:
    """Returns a character, or its bytes if it does not print."""
    return sign if sign.isprintable() and sign != '\\' else ''.join(f'\\x{byte:02x}' for byte in sign.encode('utf-8', 'surrogateescape'))


def joined(row: Row) -> Row:
    """Returns a row with texts in place of lists."""
    return {name: BETWEEN.get(name, ' ').join(map(str, value)) if isinstance(value, list) else value for name, value in row.items()}


def guarded(cell: Any) -> Any:
    """Returns a cell of a CSV in which nothing is a formula."""
    return re.sub(f'(^|;){FORMULA}', r"\1'", cell) if isinstance(cell, str) else cell


def unguarded(cell: str) -> str:
    """Returns the text of a guarded cell."""
    return re.sub(f"(^|;)'{FORMULA}", r'\1', cell)


def opened(path: str, folders: FrozenSet[str], flags: int) -> int:
    """Opens a path as `os.open` does, but follows no link below the last of some folders, given without a slash at their ends, that it is or is
    below, or else below the one that it is in: since the path was found, a link may have come in the place of a part of it."""
    os.lstat(path)  # (it may be too long)
    folder = path
    while folder and folder not in folders:
        folder = folder.rpartition('/')[0]
    if folder not in folders:
        folder = os.path.dirname(path)
    names = [name for name in path[len(folder):].split('/') if name]
    if not names:
        return os.open(path, flags)
    at = os.open(folder or ('/' if path[:1] == '/' else '.'), os.O_PATH)
    try:
        for name in names[:-1]:
            at, above = os.open(name, os.O_PATH | os.O_DIRECTORY | os.O_NOFOLLOW, dir_fd=at), at
            os.close(above)
        return os.open(names[-1], flags | os.O_NOFOLLOW, dir_fd=at)
    finally:
        os.close(at)


def rows_of(path: str, folders: FrozenSet[str] = frozenset()) -> Iterator[Row]:
    """Yields the rows of a file: one if it is an ELF file, one for each such member if it is an archive, else none."""
    # (a FIFO may have come in its place, at which an open would wait)
    with open(path, 'rb', opener=lambda name, flags: opened(name, folders, flags | os.O_NONBLOCK)) as file:
        status = os.fstat(file.fileno())
        # (of the kernel's files, which have no size, some can't be read to an end)
        start = file.read(len(AR)) if stat.S_ISREG(status.st_mode) and status.st_size else b''
        if start[:4] == MAGIC:
            file.seek(0)
            yield row_of(path, None, lambda: Elf(content_of(file)))
        elif start == AR and path.endswith(('.a', '.deb')):
            left = 'a package without data' if path.endswith('.deb') else ''
            for name, member in members(memoryview(mmap.mmap(file.fileno(), 0, access=mmap.ACCESS_READ))):
                if member is None:
                    left = DAMAGED
                elif member[:4] == MAGIC:
                    yield row_of(path, name, lambda: Elf(member))
                elif path.endswith('.deb') and name.startswith('data.tar'):
                    yield from unpacked(path, member)
                    return  # (as dpkg reads no further)
            if left:
                yield row_with(path, None, refused='LEFT_OUT', text=left)
        elif start == THIN and path.endswith('.a'):
            yield row_with(path, None, refused='LEFT_OUT', text='a thin archive, whose members are files of their own')
        elif path.endswith('.deb'):
            yield row_with(path, None, refused='LEFT_OUT', text='no archive, which a package is')


def members(content: memoryview) -> Iterator[Tuple[str, Optional[memoryview]]]:
    """Yields the members of an `ar` archive, each after its name, up to its end or the first damaged one: that is `None`."""
    end, names = len(AR), memoryview(b'')
    while end + end % 2 < len(content):
        start = end + end % 2 + 60
        header = bytes(content[start - 60:start])
        name, size = header[:16].rstrip(), header[48:58].strip()
        if header[58:] != b'`\n' or not size.isdigit():
            break
        member, end = content[start:start + int(size)], start + int(size)
        if name == b'//':
            names = member
        elif name[:1] == b'/' and name[1:].isdigit():
            at = int(name[1:])
            name = bytes(names[at:at + NAME]).split(b'\n')[0]
        elif name[:3] == b'#1/' and name[3:].isdigit():
            # (as BSD's ar writes a long name: before the content)
            at = int(name[3:])
            name, member = bytes(member[:min(at, NAME)]).rstrip(b'\0'), member[at:]
        yield os.fsdecode(name.rstrip(b'/')), member
    # (a byte may fill up the last one)
    if end not in (len(content) - 1, len(content)):
        yield '', None


def of_library(path: str, content: bytes, stream: 'Unpacked') -> Iterator[Part]:
    """Yields the rows of the members of a static library in a package."""
    for name, member in members(memoryview(content)):
        stream.count_header()
        if member is None:
            yield '', row_with(path, None, refused='LEFT_OUT', text=DAMAGED)
        elif member[:4] == MAGIC:
            yield f'({name})', row_of(path, None, lambda: Elf(member))


class Member(tarfile.TarInfo):
    """A member of a tar. It is refused if its header is damaged or cut, which Python takes for the end."""

    @classmethod
    def fromtarfile(cls, archive: tarfile.TarFile) -> Any:
        try:
            return super().fromtarfile(archive)
        except tarfile.HeaderError as error:
            raise error if type(error).__name__ == 'EOFHeaderError' else tarfile.ReadError(str(error))

    def _proc_member(self, archive: Any) -> Any:
        archive.fileobj.fileobj.count_header()
        # (for headers of POSIX.1-2001, sparse files and names without a bound, which dpkg refuses, too, Python may take hours or all memory)
        most = NAME_READ if self.type in (tarfile.GNUTYPE_LONGNAME, tarfile.GNUTYPE_LONGLINK) else PACKAGE
        is_read = self.type in tarfile.SUPPORTED_TYPES and self.type != tarfile.GNUTYPE_SPARSE
        if not is_read or not 0 <= self.size <= most:
            raise tarfile.ReadError('a header has a type or size that is not read')
        return super()._proc_member(archive)  # type: ignore[misc] # (which tarfile calls for each header)


class Content:
    """Some bytes as a file that is read once."""

    def __init__(self, left: memoryview) -> None:
        self.left = left

    def read(self, size: int) -> bytes:
        part, self.left = bytes(self.left[:size]), self.left[size:]
        return part


def unpacker(name: str) -> Any:
    """Returns Python's module for a form of packed data. Raises a ValueError if there is none."""
    try:
        return importlib.import_module(name)
    except ImportError:
        form, since = ('zstd', ' 3.14 or later') if name == 'compression.zstd' else (name, '')
        raise ValueError(f'it is packed by {form}, which needs Python{since} with its module {name}') from None


class Unpacked:
    """The data of a package as a file that is unpacked in small parts as it is read. Each byte counts, whatever headers say."""

    def __init__(self, data: memoryview) -> None:
        content = Content(data)
        name = next((name for start, name in PACKED.items() if data[:len(start)] == start), None)
        # (`read` of these modules would lose what comes before damaged data)
        self.part = unpacker(name).open(content).read1 if name else content.read
        self.left, self.headers = PACKAGE, 0

    def count_header(self) -> None:
        self.headers += 1
        if self.headers > HEADERS:
            raise ValueError(f'it has more than {HEADERS} headers')

    def read(self, size: int) -> bytes:
        part: bytes = self.part(min(size, self.left or 1))
        if len(part) > self.left:
            raise ValueError('it has more than 4 GiB')
        self.left -= len(part)
        return part


def of_member(path: str, member: tarfile.TarInfo, file: IO[bytes], stream: Unpacked) -> Iterator[Part]:
    """Yields the rows of a file in a package."""
    start = file.read(len(AR))
    is_library = start == AR and member.name.endswith('.a')
    if not is_library and start[:4] != MAGIC:
        return
    if member.size > MEMBER:
        yield '', row_with(path, None, refused='LEFT_OUT', text='a member of a package with more than 64 MiB')
    elif is_library:
        yield from of_library(path, start + file.read(), stream)
    else:
        content = start + file.read()
        yield '', row_of(path, None, lambda: Elf(content))


def unpacked(path: str, data: memoryview) -> Iterator[Row]:
    """Yields the rows of the files in a package's data. A hard link has those of its file."""
    parts: Dict[str, List[Part]] = {}
    try:
        stream: Any = Unpacked(data)
        archive: Any = tarfile.open(fileobj=stream, mode='r|', tarinfo=Member)
        for member in archive:
            archive.members.clear()  # (which it would keep)
            found: Iterator[Part] = iter(())
            if member.isreg():
                found = of_member(path, member, archive.extractfile(member), stream)
            elif member.islnk():
                is_library = member.name.endswith('.a')
                found = ((part, row) for part, row in parts.get(member.linkname, []) if not part or is_library)
            own: List[Part] = []
            for part, row in found:
                own.append((part, {**row, 'member': named((member.name + part)[:NAME])}))
                yield own[-1][1]
            parts.pop(member.name, None)
            if own:
                parts[member.name] = own
    except MemoryError:  # (the rows before it may take most of the memory)
        raise
    except Exception as error:  # (Python's modules for archives raise many types of exceptions at damaged data)
        yield row_with(path, None, refused='LEFT_OUT', text=f'its data can not be unpacked: {str(error) or type(error).__name__}')


def bounded(path: str, rows: Iterator[Row]) -> Iterator[Row]:
    """Yields the rows of a file up to ROWS."""
    left = ROWS
    for row in rows:
        left -= len(str(row))
        if left < 0:
            yield row_with(path, None, refused='LEFT_OUT', text='its rows have more than 64 MiB')
            return
        yield row


def examine(paths: List[str], folders: FrozenSet[str] = frozenset()) -> Result:
    """Examines a batch of files, and follows no link below these folders."""
    results = []
    for path in paths:
        start = time.perf_counter()
        try:
            rows = list(bounded(path, rows_of(path, folders)))
        except (OSError, ValueError) as error:  # (the latter at a file that was emptied meanwhile)
            rows = [row_with(path, None, refused='UNREADABLE', text=getattr(error, 'strerror', None) or 'it can not be read')]
        except MemoryError:
            if len(paths) > 1:
                raise  # (the others may have taken it: each is then a batch of its own)
            rows = [row_with(path, None, refused='LEFT_OUT', text='it takes more memory than a worker may take')]
        results.append((path, rows, time.perf_counter() - start))
    return results


def apart(folders: List[str]) -> Tuple[List[str], Set[str]]:
    """Returns each folder once, and which paths below them are others of them."""
    places: Dict[str, str] = {}
    for folder in folders:
        places.setdefault(os.path.realpath(folder), folder)
    return list(places.values()), {os.path.join(places[above], os.path.relpath(place, above)) for place in places
                                   for above in map(str, pathlib.PurePath(place).parents) if above in places}


def found_below(folder: str, others: Set[str]) -> Iterator[str]:
    """Yields the regular files below a folder as they are found, those of each folder in order, and the folders that can not be read. It leaves
    out others, which are given as paths."""
    left = [(folder, True)]
    while left:
        path, is_folder = left.pop()
        if not is_folder:
            yield path
            continue
        try:
            at = opened(path, frozenset([folder.rstrip('/')]), os.O_DIRECTORY)
            try:
                with os.scandir(at) as scanned:
                    entries = sorted(scanned, key=lambda entry: entry.name, reverse=True)
                    kinds = [(os.path.join(path, entry.name), entry.is_dir(follow_symlinks=False), entry.is_file(follow_symlinks=False))
                             for entry in entries]
            finally:
                os.close(at)
            left += [(below, is_dir) for below, is_dir, is_file in kinds if (is_dir or is_file) and below not in others]
        except NotADirectoryError:
            pass
        except OSError:
            yield path  # (which is then examined, and is a row that says why it can't be read)


def is_row(row: Any, has_lists: bool = False) -> bool:
    """Whether what is in a report is a row of it, and has lists, where it may have none of the texts that older versions wrote."""
    return isinstance(row, dict) and list(row) == COLUMNS and isinstance(row['file'], str) \
        and not (has_lists and any(isinstance(row[name], str) for name in LISTS))


def lock(file: IO[Any]) -> None:
    """Locks a file until it is closed. Raises an OSError if another process has locked it. (Some file systems have no locks.)"""
    try:
        fcntl.flock(file, fcntl.LOCK_EX | fcntl.LOCK_NB)
    except BlockingIOError:
        raise OSError(TAKEN) from None
    except OSError:
        pass


class Report:
    """A report that is written row by row, each in a line. A .parquet is made of a .json at the end."""

    def __init__(self, path: str, resume: bool) -> None:
        self.is_csv, self.is_parquet = path.endswith('.csv'), path.endswith('.parquet')
        self.path = path = os.path.realpath(path)
        self.lines_path = path + '.goblin-scan.json' if self.is_parquet else path
        # (a FIFO or a device would be replaced, also one that a link names)
        if any(os.path.exists(place) and not os.path.isfile(place) for place in (path, self.lines_path)):
            raise OSError('it is no regular file')
        self.known: Set[str] = set()
        self.held: List[Row] = []  # those of the last file that was there, until it is examined again
        self.count = 0
        # (no other file has this name)
        new = os.path.join(os.path.dirname(path), f'goblin-scan-{secrets.token_hex(8)}.new')
        with contextlib.ExitStack() as held:
            there = held.enter_context(open(self.lines_path, 'rb')) if os.path.exists(self.lines_path) else None
            if there:
                lock(there)
            old = self.read() if resume and (there or os.path.exists(path)) else iter(())
            self.file: TextIO = open(new, 'x', newline='', encoding='utf-8')
            try:
                lock(self.file)
                # (only root may give it to another user)
                with contextlib.suppress(OSError):
                    status = os.stat(path if os.path.exists(path) else self.lines_path)
                    os.fchmod(self.file.fileno(), stat.S_IMODE(status.st_mode))
                    os.fchown(self.file.fileno(), status.st_uid, status.st_gid)
                self.begin(old)
                self.put_in_place(new, there)
            except BaseException:
                self.file.close()
                os.remove(new)
                raise

    def put_in_place(self, new: str, there: Optional[IO[bytes]]) -> None:
        """Gives the new file, which is locked as long as it is written, the report's name, unless another one came there meanwhile."""
        if there and os.path.exists(self.lines_path) and os.path.samestat(os.fstat(there.fileno()), os.stat(self.lines_path)):
            os.replace(new, self.lines_path)
            return
        try:
            os.link(new, self.lines_path)
            os.remove(new)
        except FileExistsError:
            raise OSError(TAKEN) from None
        except OSError:  # (a file system may have no links)
            os.replace(new, self.lines_path)

    def begin(self, old: Iterator[Row]) -> None:
        """Writes what is there of the report."""
        if self.is_csv:
            self.write(dict(zip(COLUMNS, COLUMNS)))
        for file, rows in itertools.groupby(old, lambda row: str(row['file'])):
            # (of the last file there may be more rows, if it is an archive)
            held, self.held = self.held, list(rows)
            for row in held:
                self.known.add(row['file'])
                self.write(row)
        self.file.flush()

    def read(self) -> Iterator[Row]:
        """Yields the rows of the report that is there. Its last line may be a part of one."""
        if not os.path.exists(self.lines_path):
            import pyarrow.parquet
            with contextlib.suppress(ValueError):
                parts = pyarrow.parquet.ParquetFile(self.path)
                for index in range(parts.num_row_groups):
                    yield from filter(is_row, parts.read_row_group(index).to_pylist())
            return
        csv.field_size_limit(sys.maxsize)  # (a list of libraries may be long)
        with open(self.lines_path, newline='\n', encoding='utf-8-sig', errors='replace') as file:
            for line in file:
                # (what is no row is left out)
                with contextlib.suppress(ValueError, RecursionError, csv.Error):
                    row = self.row(line)
                    if is_row(row, not self.is_csv and not self.is_parquet):
                        yield row

    def row(self, line: str) -> Any:
        """Returns the row in a line of the report."""
        if not self.is_csv:
            return json.loads(line.rstrip(',\n'))
        cells = next(csv.reader([line], strict=True)) if line.endswith('\n') else COLUMNS
        return dict(zip(COLUMNS, map(unguarded, cells))) if len(cells) == len(COLUMNS) and cells != COLUMNS else None

    def write(self, row: Row) -> None:
        if self.held and row['file'] == self.held[0]['file']:
            self.held = []
        if self.is_csv:
            csv.writer(self.file, lineterminator='\n').writerow(map(guarded, joined(row).values()))
        else:
            self.file.write((',\n' if self.count else '[\n') + json.dumps(row))
        self.count += 1

    def end(self) -> None:
        for row in self.held:
            self.write(row)
        self.file.write('' if self.is_csv else '\n]\n' if self.count else '[]\n')
        self.file.flush()
        if self.is_parquet:
            import pyarrow.parquet
            schema = pyarrow.schema([(name, getattr(pyarrow, TYPES.get(name, 'string'))()) for name in COLUMNS])
            # (a sum of sizes may pass 64 bits, if a file is damaged)
            most = (1 << 64) - 1
            rows = ({name: min(value, most) if type(value) is int else value for name, value in joined(row).items()} for row in self.read())
            with pyarrow.parquet.ParquetWriter(self.path, schema) as writer:
                for some in iter(lambda: list(itertools.islice(rows, GROUP)), []):
                    writer.write_table(pyarrow.Table.from_pylist(some, schema=schema))
            os.remove(self.lines_path)
        self.file.close()


def lost(path: str) -> Result:
    """Returns the result for a file that ended one worker after another."""
    return [(path, [row_with(path, None, refused='WORKER_LOST', text='each worker that examined it ended')], 0.0)]


def is_shown() -> bool:
    """Whether the progress is shown: on a terminal."""
    return sys.stderr is not None and sys.stderr.isatty()


def say(*lines: str) -> None:
    """Ends the line of the progress, and prints lines for a person, who may have left."""
    put('\n'.join([*[''] * is_shown(), *lines, '']), sys.stderr)


def report_on(results: workers.Results, report: Report) -> None:
    """Writes the rows, shows the progress on a terminal, and prints a summary."""
    start, files = time.perf_counter(), 0
    refused: 'collections.Counter[str]' = collections.Counter()
    slowest: List[Tuple[float, str]] = []
    for batch, result in results:
        for path, rows, seconds in lost(*batch) if result is None else result:
            for row in rows:
                report.write(row)
            refused.update(row['refused'] for row in rows if row['refused'])
            slowest = sorted([*slowest, (seconds, escaped(path))], reverse=True)[:10]
        report.file.flush()
        files += len(batch)
        if is_shown():
            print(f'\r{files} files, {files / (time.perf_counter() - start):.0f} a second    ', end='', file=sys.stderr, flush=True)
    report.end()
    seconds = time.perf_counter() - start
    say(f'{files} files, {sum(refused.values())} refused, {seconds:.1f} seconds, {files / seconds:.0f} files a second',
        *(f'  refused: {count} {kind}' for kind, count in sorted(refused.items())),
        *(f'  slow: {taken * 1000:.1f} ms {path}' for taken, path in slowest))


def runner_of(options: argparse.Namespace) -> Callable[[Iterator[workers.Batch]], workers.Results]:
    """Returns what examines batches."""
    function = functools.partial(examine, folders=frozenset(folder.rstrip('/') for folder in options.folders))
    if options.scheduler:
        return workers.Scheduled(function, options.scheduler).results
    if options.workers:
        return workers.Workers(function, options.workers, options.memory).results
    return functools.partial(workers.in_turn, function, options.memory)


def natural(text: str, least: int = 0) -> int:
    """Returns the number that an argument is."""
    if not text.isdecimal() or not least <= int(text) <= 1 << 32:
        raise argparse.ArgumentTypeError(f'{text} is not a number from {least} to {1 << 32}')
    return int(text)


def memory(text: str) -> int:
    """Returns the number of bytes that an argument is, such as 512MiB."""
    match = re.fullmatch(r'(\d+)(KiB|MiB|GiB)', text)
    if not match:
        raise argparse.ArgumentTypeError(f'{text} is not a number with KiB, MiB or GiB after it')
    return min(int(match[1]) << {'K': 10, 'M': 20, 'G': 30}[match[2][0]], sys.maxsize)


def options_of(arguments: Optional[List[str]]) -> argparse.Namespace:
    """Returns the options, or ends the program with a line that says what is wrong."""
    parser = Parser(prog='goblin-scan', description=(__doc__ or '').split('\n')[0])
    parser.add_argument('folders', nargs='+', metavar='DIR')
    parser.add_argument('-o', '--output', required=True, metavar='REPORT', help='a .csv, .json or .parquet')
    parser.add_argument('--scheduler', metavar='HOST:PORT', help='a scheduler of Dask that runs already')
    parser.add_argument('--workers', type=natural, metavar='N', default=len(os.sched_getaffinity(0)),
                        help='processes that examine files (default: one for each processor); 0: this process does')
    parser.add_argument('--memory', type=memory, default='1GiB', help='the memory that each of these processes may take (default: 1GiB)')
    parser.add_argument('--batch', type=lambda text: natural(text, 1), default=256, metavar='N', help='the most files in a batch (default: 256)')
    parser.add_argument('--resume', action='store_true', help='leave out the files of the report')
    options = parser.parse_args(arguments)
    if not options.output.endswith(('.csv', '.json', '.parquet')):
        parser.error('the report must end with .csv, .json or .parquet')
    if options.output.endswith('.parquet'):
        try:
            import pyarrow.parquet  # noqa: F401
        except ImportError:
            parser.error('pyarrow is not installed, which writes a .parquet')
    for folder in options.folders:
        try:
            os.stat(folder)
        except FileNotFoundError:
            parser.error(f'{folder} is not there')
        except (OSError, ValueError) as error:
            parser.error(f'{folder} can not be read: {getattr(error, "strerror", error)}')
    try:
        os.chdir(os.getcwd())
    except OSError as error:
        # (a worker, which starts in /, can't go back to a folder that is removed, or that its user may not enter)
        if not all(map(os.path.isabs, [*options.folders, options.output])):
            parser.error(f'the current folder can not be entered, so that each path must start with /: {error.strerror}')
        os.chdir('/')
    return options


def main(arguments: Optional[List[str]] = None) -> int:
    options, begun = options_of(arguments), ''
    try:
        run = runner_of(options)
        folders, others = apart(options.folders)
        report = Report(options.output, options.resume)
        begun = options.output
        found = ([folder] if os.path.isfile(folder) else found_below(folder, others) for folder in folders)
        paths = (path for path in itertools.chain.from_iterable(found) if named(path) not in report.known)
        # (the first batches are small, so that a few files, such as large packages, are for all processors)
        sizes = (min(options.batch, 1 + index // 16) for index in itertools.count())
        with report.file, contextlib.closing(run(iter(lambda: list(itertools.islice(paths, next(sizes))), []))) as results:
            report_on(results, report)
    except KeyboardInterrupt:
        return stopped('interrupted', begun, 130)
    except workers.Stopped as error:
        return stopped(str(error), begun, 2)
    except OSError as error:
        return stopped(f'{options.output} can not be read or written: {error.strerror or error}', '', 2)
    return 0


def stopped(why: str, report: str, status: int) -> int:
    """Prints why this ends before all files are examined, and returns the exit status."""
    say(f'goblin-scan: {why}{report and f"; --resume goes on with {report}"}')
    return status


if __name__ == '__main__':
    from goblin_elf import scan  # (workers find what they run by the module's name)
    sys.exit(scan.main())
