"""Tests of goblin_elf.scan: the same report by one process, by workers of which some are killed, and in parts. Nothing listens meanwhile."""
import asyncio
import bz2
import contextlib
import csv
import errno
import functools
import gzip
import importlib.machinery
import io
import itertools
import json
import lzma
import os
import random
import resource
import shutil
import signal
import subprocess
import sys
import tarfile
import tempfile
import time
import tracemalloc
import types
import unittest
import unittest.mock
import zlib

import made
from goblin_elf import _workers as workers
from goblin_elf import scan as module
from goblin_elf._library import LIBRARY
from parts import started

try:
    import distributed
except ImportError:
    distributed = None

SCAN = [sys.executable, '-m', 'goblin_elf.scan']
# A script that runs a scan by its arguments, with a limit.
LIMITED = 'import resource, runpy, sys; resource.setrlimit(*{}); sys.argv = sys.argv[1:]; runpy.run_module("goblin_elf.scan", run_name="__main__")'
SMALL, LARGE = made.ALL[0].bytes, made.ALL[3].bytes
LEFT, CANT, TAKEN = 'LEFT_OUT', 'its data can not be unpacked: ', 'another goblin-scan writes it'
DAMAGED, MEMORY = 'the archive is damaged or cut: it may have more members', 'it takes more memory than a worker may take'
PATHS = {'PYTHONPATH': os.pathsep.join(filter(None, sys.path))}
OTHER_LOCALE = {'LC_ALL': 'C', 'PYTHONUTF8': '0', 'PYTHONCOERCECLOCALE': '0'}
patched = functools.partial(unittest.mock.patch.object, module)


def setUpModule():
    # (workers import this module, too; a line of its own is found by checks/faces/python.sh)
    if not distributed:
        print('\ndistributed is not installed, so Dask is not tested')


def ended(*arguments):
    """Runs it in this process, and returns its exit status and what it printed."""
    with contextlib.redirect_stderr(io.StringIO()) as said:
        try:
            status = module.main(list(arguments))
        except SystemExit as error:
            status = error.code
    return status, said.getvalue()


def run(*command, **more):
    """Runs a command, and returns how it ended. Other variables of the environment may be given."""
    env = {**os.environ, **more.pop('env', {})}
    return subprocess.run(command, stderr=subprocess.PIPE, universal_newlines=True, env=env, **more)


def read(path):
    with open(path, 'rb') as file:
        return file.read()


def write(path, content):
    with open(path, 'wb') as file:
        file.write(content if isinstance(content, (bytes, bytearray)) else content.encode())


def columns(rows, *names):
    """Returns a column of some rows, or more of them."""
    return [row[names[0]] if len(names) == 1 else tuple(row[name] for name in names) for row in rows]


def archive(*members):
    """Returns an `ar` archive. A name of more than 15 bytes is in its table of names. One that starts with # is as BSD's ar writes it."""
    long = ''.join(f'{name}/\n' for name, _ in members if len(name) > 15)
    entries = [('//', long.encode())] if long else []
    entries += [(f'/{long.index(name)}' if len(name) > 15 else name if name[:1] in '#/' else f'{name}/', content) for name, content in members]
    bytes_of = bytearray(b'!<arch>\n')
    for name, content in entries:
        bytes_of += f'{name:16}{0:<12}{0:<6}{0:<6}{"644":8}{len(content):<10}`\n'.encode() + content + b'\n' * (len(content) % 2)
    return bytes(bytes_of)


def tarred(*members, mode='w'):
    """Returns a tar of members, in the form that dpkg writes, each with its name, its content, and what else its header says."""
    data = io.BytesIO()
    with tarfile.open(fileobj=data, mode=mode, format=tarfile.GNU_FORMAT, encoding='utf-8') as tar:
        for name, content, *fields in members:
            member = tarfile.TarInfo(name)
            for field, value in [('size', len(content)), *fields]:
                setattr(member, field, value)
            tar.addfile(member, io.BytesIO(content) if content else None)
    return data.getvalue()


def package(content, name='./usr/bin/made'):
    """Returns a .deb whose data has a file."""
    return archive(('debian-binary', b'2.0\n'), ('data.tar.xz', tarred((name, content), mode='w:xz')))


def linked(needed, soname, interpreter):
    """Returns a program with a dynamic section, of names in bytes."""
    return made.linked(*((1, name) for name in needed), (14, soname), interpreter=interpreter)


def texts(row):
    """Returns a row of a .json with texts in place of lists, as other reports have them."""
    return {name: {'compilers': '; '}.get(name, ' ').join(map(str, value)) if isinstance(value, list) else value for name, value in row.items()}


class StandInForPyarrow(types.ModuleType):
    """What the scan uses of pyarrow, which Debian does not have: it writes a table as JSON, and takes the values alone that pyarrow takes
    for the types of the columns. It can't show that pyarrow itself takes them."""

    class Table(list):
        @classmethod
        def from_pylist(cls, rows, schema):
            takes = {'string': lambda value: isinstance(value, str), 'bool': lambda value: isinstance(value, bool),
                     'uint64': lambda value: type(value) is int and 0 <= value < 1 << 64}
            if len(rows) > module.GROUP:
                raise MemoryError
            for row, (name, kind) in itertools.product(rows, schema):
                if row[name] is not None and not takes[kind](row[name]):
                    raise TypeError(f'{name} is {row[name]!r}')
            return cls({name: row[name] for name, _ in schema} for row in rows)

        def to_pylist(self):
            return list(self)

    def __init__(self):
        super().__init__('pyarrow')
        self.__spec__, self.schema = importlib.machinery.ModuleSpec('pyarrow', None), list
        self.string, self.bool_, self.uint64 = lambda: 'string', lambda: 'bool', lambda: 'uint64'
        self.parquet = types.ModuleType('pyarrow.parquet')
        self.parquet.ParquetWriter, self.parquet.ParquetFile = self.writer, self.reader

    def modules(self):
        return {'pyarrow': self, 'pyarrow.parquet': self.parquet}

    @contextlib.contextmanager
    def writer(self, path, schema):
        rows = []
        yield types.SimpleNamespace(write_table=rows.extend)
        write(path, json.dumps(rows))

    def reader(self, path):
        rows = json.loads(read(path).decode())
        groups = [self.Table(rows[start:start + 7]) for start in range(0, len(rows), 7)]
        return types.SimpleNamespace(num_row_groups=len(groups), read_row_group=groups.__getitem__)


class Folder(unittest.TestCase):
    """A test with a folder of files."""

    def setUp(self):
        folder = tempfile.TemporaryDirectory()
        self.addCleanup(folder.cleanup)
        self.folder, self.files = folder.name, os.path.join(folder.name, 'files')
        os.makedirs(self.path('sub'))

    def out(self, name):
        return os.path.join(self.folder, name)

    def path(self, name):
        return os.path.join(self.files, name)

    def put(self, **contents):
        """Writes files. In a name _ is a dot, and that of one in the folder sub begins with sub__."""
        for name, content in contents.items():
            write(self.path(name.replace('__', '/').replace('_', '.')), content)

    def put_data(self, data):
        self.put(x_deb=archive(('data.tar', data)))

    def put_many(self, count):
        for index in range(count):
            content = made.ALL[index % 4].bytes
            write(self.path(f'{index:05}'), content[:len(content) - index % 7 // 6])

    def enter(self, folder):
        self.addCleanup(os.chdir, '/')
        os.chdir(folder)

    def scan(self, *arguments, name='r.csv', folders=None):
        """Scans the files, or others, and returns what is printed."""
        status, said = ended(*(folders or [self.files]), '-o', self.out(name), '--workers', '0', *arguments)
        self.assertEqual(status, 0, said)
        return said

    def rows(self, name='r.csv'):
        with open(self.out(name), newline='', encoding='utf-8') as file:
            return list(csv.DictReader(file)) if name.endswith('.csv') else json.load(file)

    def scanned(self, *names, options=(), **given):
        """Scans the files, or others, and returns columns of the report."""
        self.scan(*options, **given)
        return columns(self.rows(), *names)

    def unpacked(self, *names):
        """Returns columns of the rows of a package."""
        return columns(module.rows_of(self.path('x.deb')), *names)

    def check_same(self, one, other):
        self.assertEqual(read(self.out(one)), read(self.out(other)))


class Scan(Folder):
    """What a report has, made by one process."""

    def test_rows(self):
        self.put(b_o=LARGE, text=b'no ELF file', y_deb=package(LARGE), z_deb=archive(('data.tar.xz', b'no such data')), **{'a\n': LARGE[:-1]},
                 sub__x_a=archive(('x.o', LARGE), ('a_name_that_is_long.o', LARGE), ('no.o', b'odd')),
                 # (as BSD's ar writes a long name, and a thin one, which holds the names of its members alone)
                 sub__y_a=archive(('#1/20', b'a long name.o\0\0\0\0\0\0\0' + LARGE)), sub__z_a=b'!<thin>\n')
        os.symlink('b.o', self.path('link'))
        said = self.scan()
        rows = self.rows()
        self.assertEqual([(os.path.relpath(row['file'], self.files), row['member'], row['refused']) for row in rows],
                         [('a\\x0a', '', 'TOO_BIG'), ('b.o', '', ''), ('sub/x.a', 'x.o', ''), ('sub/x.a', 'a_name_that_is_long.o', ''),
                          ('sub/y.a', 'a long name.o', ''), ('sub/z.a', '', LEFT), ('y.deb', './usr/bin/made', ''), ('z.deb', '', LEFT)])
        self.assertEqual(columns(rows[1:2], 'class', 'order', 'type', 'build_id', 'symbols', 'code'),
                         [('ELF64', 'big', 'REL', made.BUILD_ID.hex(), '7', '128')])
        self.assertEqual(columns(rows[:1], 'numbers', 'text'), [('64 63', 'type is too big (64) for 63')])
        for line in ('8 files, 3 refused', '  refused: 1 TOO_BIG', '  refused: 2 LEFT_OUT'):
            self.assertIn(line, said)

    def test_static_libraries_of_packages(self):
        library = archive(('a.o', LARGE), ('text', b'odd'), ('b.o', LARGE))
        self.put_data(tarred(('./x.a', library), ('./cut.a', library[:1422]), ('./text', library), ('./c', LARGE)))
        with patched('MEMBER', len(library)):
            self.assertEqual(self.scanned('member', 'text'),
                             [('./x.a(a.o)', ''), ('./x.a(b.o)', ''), ('./cut.a(a.o)', ''), ('./cut.a', DAMAGED), ('./c', '')])
        with patched('MEMBER', len(library) - 1):
            self.assertEqual(self.unpacked('text')[0], 'a member of a package with more than 64 MiB')

    def test_hard_links_of_packages(self):
        """Each name of a file has the rows that it has in a folder, also if it is a link to a link."""
        library = archive(('a.o', LARGE), ('b.o', LARGE))
        cut, large = library[:-len(LARGE)], LARGE.ljust(len(library) + 1)
        files = [('./a', LARGE), ('./text', b'odd'), ('./x.a', library), ('./cut.a', cut), ('./large', large)]
        links = [('./b', './a'), ('./c', './b'), ('./d', './text'), ('./y.a', './x.a'), ('./y', './x.a'), ('./z.a', './y.a'), ('./cut2.a', './cut.a'),
                 ('./l', './large'), ('./c', './c'), ('./d', './absent')]
        made_of = [(name, b'', ('type', tarfile.LNKTYPE), ('linkname', file)) for name, file in links]
        self.put_data(tarred(*files, *made_of, ('./a', b'odd'), made_of[0]))
        with patched('MEMBER', len(library)):
            rows = list(module.rows_of(self.path('x.deb')))
        first = {row['member']: {**row, 'member': None} for row in rows[:6]}
        self.assertEqual(list(first), ['./a', './x.a(a.o)', './x.a(b.o)', './cut.a(a.o)', './cut.a', './large'])
        expected = [('./b', './a'), ('./c', './a'), ('./y.a(a.o)', './x.a(a.o)'), ('./y.a(b.o)', './x.a(b.o)'), ('./z.a(a.o)', './x.a(a.o)'),
                    ('./z.a(b.o)', './x.a(b.o)'), ('./cut2.a(a.o)', './cut.a(a.o)'), ('./cut2.a', './cut.a'), ('./l', './large'), ('./c', './a')]
        self.assertEqual(rows[6:], [{**first[file], 'member': name} for name, file in expected])

    def test_long_names_of_members(self):
        """Of a name at most as many bytes are in a row as a path has."""
        name = 'x' * 5000
        self.put(a_a=archive((name, LARGE), (name, LARGE)), b_a=archive(('#1/5000', name.encode() + LARGE)), c_deb=package(LARGE, name))
        self.assertEqual(self.scanned('member', 'symbols'), [('x' * 4096, '7')] * 4)

    def test_names_of_members_in_another_locale(self):
        """They are in the report as in each other one."""
        self.put(a_a=archive(('..x.o', LARGE)).replace(b'..x', 'éx'.encode()), b_deb=package(LARGE, 'éx.o'))
        run(*SCAN, self.files, '-o', self.out('r.csv'), '--workers', '0', env=OTHER_LOCALE, check=True)
        self.assertEqual(columns(self.rows(), 'member'), ['éx.o'] * 2)

    def test_bounds_of_packages(self):
        """What is unpacked of a package is bounded, whatever its headers say, and only its first data is."""
        files = [(str(index), LARGE) for index in range(8)]
        one = tarred(files[0])
        self.put(a_deb=archive(('data.tar', tarred(*files))), d_deb=archive(*[('data.tar', one)] * 3),
                 b_deb=archive(('data.tar', tarred(('less', b'', ('type', tarfile.DIRTYPE), ('size', -1 << 62)), *files))),
                 c_deb=archive(('data.tar', tarred(*[('empty', b'')] * 64, *files))), e_deb=archive(('data.tar', b''), ('none', one)),
                 f_deb=archive(('#1/8', b'data.tar' + one)))
        # (each file has 2,048 bytes with its header)
        with patched('PACKAGE', 4 * 2048):
            self.scan()
        found = [(os.path.basename(row['file'])[:1], row['member'] or row['refused']) for row in self.rows()]
        self.assertEqual(found, [*[('a', str(index)) for index in range(4)], *((name, LEFT) for name in 'abc'), ('d', '0'), ('e', LEFT), ('f', '0')])
        # (the rows of any file have few characters together)
        self.put(a_a=archive(*files))
        for path in (self.path('a.deb'), self.path('a.a')):
            with patched('ROWS', 2 * len(str(next(module.rows_of(path))))):
                (_, rows, _), = module.examine([path])
            self.assertEqual([row['member'] or row['text'] for row in rows], ['0', '1', 'its rows have more than 64 MiB'])

    def test_headers_that_no_package_has(self):
        """Python may take hours or all memory for some that dpkg refuses, too. What comes before one is in the report."""
        headers = [(kind, b'1' * 4096) for kind in (tarfile.XHDTYPE, tarfile.XGLTYPE, tarfile.SOLARIS_XHDTYPE, tarfile.GNUTYPE_SPARSE, b'V')]
        headers += [(kind, b'x' * 65537) for kind in (tarfile.GNUTYPE_LONGNAME, tarfile.GNUTYPE_LONGLINK)]
        for fields in (*[(content, ('type', kind)) for kind, content in headers], (b'', ('type', tarfile.DIRTYPE), ('size', -1024))):
            self.put_data(tarred(('a', LARGE), ('b', *fields), ('c', LARGE)))
            self.assertEqual(self.unpacked('member', 'text'), [('a', None), (None, CANT + 'a header has a type or size that is not read')])

    def test_headers_without_a_bound(self):
        """Millions of them would take minutes: those of the tar, also for long names, and those of static libraries in it count."""
        a, b, long = ('a', LARGE), ('b', b''), ('x' * 200, LARGE)
        refused = CANT + 'it has more than 3 headers'
        for files, expected in (([a, b, ('c', LARGE)], ['a', 'c']), ([a, b, b, b], ['a', refused]), ([long, ('b', LARGE)], [long[0], 'b']),
                                ([long, long], [long[0], refused]), ([('x.a', archive(a, b, ('c', LARGE)))], ['x.a(a)', refused])):
            self.put_data(tarred(*files))
            with patched('HEADERS', 3):
                self.assertEqual([member or text for member, text in self.unpacked('member', 'text')], expected)

    def test_memory_for_packages(self):
        """A package is unpacked in small parts, and none of them is kept."""
        zeros = tarred(('zeros', bytes(1 << 22)))
        packed = gzip.compress(zeros), bz2.compress(zeros), lzma.compress(zeros, preset=0)
        tracemalloc.start()
        self.addCleanup(tracemalloc.stop)
        for data in (*packed, tarred(('empty', b''))[:512] * 2048 + bytes(1024)):
            self.put_data(data)
            tracemalloc.clear_traces()
            self.assertEqual(self.unpacked('file'), [])
            self.assertLess(tracemalloc.get_traced_memory()[1], 1 << 20)
        with patched('row_of', side_effect=MemoryError):
            self.put(x_deb=package(SMALL))
            (_, (row,), _), = module.examine([self.path('x.deb')])
            # (of a batch the other files may have taken it)
            self.assertRaises(MemoryError, module.examine, [self.path('x.deb')] * 2)
        self.assertEqual((row['refused'], row['text']), (LEFT, MEMORY))

    def test_memory_without_workers(self):
        """It is bounded as that of a worker, and is that of one file at a time."""
        data = bytearray(lzma.compress(tarred(('a', LARGE))))
        # (in the header of its block: a dictionary of 256 MiB, which is taken before anything is unpacked)
        data[16] = 32
        data[20:24] = zlib.crc32(data[12:20]).to_bytes(4, 'little')
        self.put_data(data)
        for number in '01':
            self.assertEqual(self.scanned('text', options=['--workers', number, '--memory', '192MiB']), [MEMORY])
        # (a limit of the shell, in KiB, that is less counts, too)
        run('sh', '-c', 'ulimit -S -d 196608; exec "$@"', 'sh', *SCAN, self.files, '-o', self.out('r.csv'), '--workers', '1', check=True)
        self.assertEqual(columns(self.rows(), 'text'), [MEMORY])
        self.put_many(3)
        with patched('examine', side_effect=module.examine) as examine:
            self.assertEqual(self.scanned('member'), ['', '', '', 'a'])
        self.assertEqual([len(given.args[0]) for given in examine.call_args_list], [1] * 4)

    def test_damaged_archives(self):
        """What is not read of one is said."""
        whole, tar = archive(('a.o', LARGE), ('text', b'odd'), ('b.o', LARGE)), tarred(('a', LARGE), ('b', LARGE))
        # (it is cut in a header and in a member, or a size is no number)
        for content, expected in ((whole, ('b.o', '')), (whole + b'\n', ('b.o', '')), (whole[:1422], ('', DAMAGED)), (whole[:1418], ('', DAMAGED)),
                                  (whole.replace(b'3         `', b'3x        `'), ('', DAMAGED))):
            self.put(x_a=content)
            self.assertEqual(self.scanned('member', 'text'), [('a.o', ''), expected])
        os.remove(self.path('x.a'))
        for data, count in ((tar, 2), (tar[:2048], 1), (tar[:2100], 1), (tar[:2048] + b'c' + tar[2049:], 1), (tar[:4096], 2)):
            for mode, packed in (('', bytes), ('.gz', gzip.compress), ('.xz', lzma.compress)):
                self.put(x_deb=archive((f'data.tar{mode}', packed(data))))
                self.assertEqual(self.unpacked('member'), ['a', 'b'][:count] + [None] * (data != tar))
        without, other = 'a package without data', 'no archive, which a package is'
        for content, text in ((whole[:1418], DAMAGED), (b'!<arch>\n', without), (archive(('control.tar', tar)), without), (tar, other), (b'', other)):
            self.put(x_deb=content)
            self.assertEqual(self.unpacked('text')[-1:], [text])
        # (it may be packed in pieces)
        for packed in (gzip.compress, bz2.compress, lzma.compress):
            self.put_data(packed(tar[:2048]) + packed(tar[2048:]))
            self.assertEqual(self.unpacked('member'), ['a', 'b'])

    def test_packages_that_this_python_can_not_unpack(self):
        """As one by zstd, whose first bytes are those of RFC 8878, before Python 3.14."""
        for content, name, path, since in ((b'\x28\xb5\x2f\xfd', 'zstd', 'compression.zstd', ' 3.14 or later'), (b'BZh', 'bz2', 'bz2', '')):
            self.put_data(content)
            with unittest.mock.patch.dict(sys.modules, {path: None}):
                said = f'it is packed by {name}, which needs Python{since} with its module {path}'
                self.assertEqual(self.unpacked('refused', 'text'), [(LEFT, CANT + said)])

    def test_folders_that_are_deep_or_can_not_be_read(self):
        self.put(a_o=SMALL)
        self.addCleanup(subprocess.run, ['rm', '-rf', self.path('d')], check=True)
        self.enter(self.files)
        # (in the end the path has more bytes than a path may have)
        for depth in range(2100):
            os.mkdir('d')
            os.chdir('d')
            if depth == 1200:
                write('deep.o', SMALL)
        os.chdir('/')
        self.assertEqual([(os.path.basename(file), *more) for file, *more in self.scanned('file', 'refused', 'text')],
                         [('a.o', '', ''), ('d', 'UNREADABLE', 'File name too long'), ('deep.o', '', '')])

    def test_files_without_a_size_are_not_read(self):
        """Of the kernel's files, which say so, some block a reader."""
        class Unread(io.FileIO):
            def read(self, size=-1):
                raise AssertionError('it is read')

        self.put(empty=b'')
        with patched('open', Unread, create=True):
            self.assertEqual(list(module.rows_of(self.path('empty'))), [])

    def test_files_that_are_replaced(self):
        """What comes in the place of a file that was found is neither waited for nor followed, and one file is read for a row."""
        def late(*_):
            raise AssertionError('it waits')

        def replaced(path, *arguments, **given):
            file = open(path, *arguments, **given)
            os.replace(self.path('b.o'), path)
            return file

        self.put(a_o=SMALL, b_o=LARGE)
        os.mkfifo(self.path('fifo'))
        os.symlink('a.o', self.path('link'))
        self.assertEqual(self.scanned('class', folders=[self.path('link')], options=['--workers', '1']), ['ELF32'])
        self.addCleanup(signal.signal, signal.SIGALRM, signal.signal(signal.SIGALRM, late))
        self.addCleanup(signal.alarm, 0)
        signal.alarm(8)
        found = module.examine([self.path('fifo'), self.path('link')])
        with patched('open', replaced, create=True):
            found += module.examine([self.path('a.o')])
        self.assertEqual([columns(rows, 'class', 'text') for _, rows, _ in found], [[], [(None, os.strerror(errno.ELOOP))], [('ELF32', None)]])

    def test_folders_that_are_replaced(self):
        """No link is followed that comes in the place of a folder, before it is read or before its files are."""
        os.makedirs(self.out('elsewhere/below'))
        os.mkdir(self.path('sub/below'))
        for name in ('files/a.o', 'files/sub/a.o', 'files/sub/below/b.o', 'elsewhere/below/b.o'):
            write(self.out(name), SMALL)
        os.symlink('files', self.out('named'))
        every = [self.out(f'named/{name}') for name in ('a.o', 'sub/a.o', 'sub/below/b.o')]
        for count, replaced, by, left in ((1, 'sub', 'elsewhere', 0), (1, 'sub/below', 'elsewhere/below', 1), (2, 'sub', 'elsewhere', 0),
                                          (3, 'sub', 'elsewhere', 0)):
            paths = module.found_below(self.out('named'), set())
            self.assertEqual(list(itertools.islice(paths, count)), every[:count])
            os.rename(self.path(replaced), self.out('old'))
            os.symlink(self.out(by), self.path(replaced))
            self.assertEqual(list(paths), every[count:count + left])
            found = module.examine([every[0], every[2]], frozenset([self.out('named')]))
            self.assertEqual([row for _, rows, _ in found for row in columns(rows, 'class', 'text')],
                             [('ELF32', None), (None, os.strerror(errno.ENOTDIR))])
            os.remove(self.path(replaced))
            os.rename(self.out('old'), self.path(replaced))

    def check_resumed(self, name, sizes, *arguments, **given):
        """Whether a report is the same again if it was written up to any of some sizes, and returns it."""
        whole = read(self.out(name))
        for size in sizes(len(whole)):
            write(self.out(name), whole[:size])
            self.scan('--resume', *arguments, name=name, **given)
            self.assertEqual(read(self.out(name)), whole)
        return whole

    def test_resumed(self):
        self.put_many(40)
        write(self.path('00020.a'), archive(*((f'{index}.o', SMALL) for index in range(5))))
        for name in ('r.csv', 'r.json'):
            self.scan('--batch', '3', name=name)
            whole = self.check_resumed(name, lambda length: (0, 50, length // 2, length // 2 + 200, length // 2 + 431, length - 1, length))
            # (a program for tables may have saved it with a mark at its start)
            write(self.out(name), b'\xef\xbb\xbf' + whole)
            # (the last file of the report is not below the second folder)
            for folder in (self.files, self.path('sub')):
                self.scan('--resume', name=name, folders=[folder])
                self.assertEqual(read(self.out(name)), whole)
        self.assertEqual(columns(self.rows('r.json'), 'file'), columns(self.rows(), 'file'))

    def test_a_report_that_is_replaced(self):
        """Its mode and owner stay, and so does what is beside it."""
        for name, mode in (('r.csv', 0o660), ('r.csv.new', 0o600)):
            write(self.out(name), name)
            os.chmod(self.out(name), mode)
            with contextlib.suppress(PermissionError):
                os.chown(self.out(name), 1, 1)
        before = os.stat(self.out('r.csv'))
        self.scan()
        after = os.stat(self.out('r.csv'))
        self.assertEqual((after.st_mode, after.st_uid, after.st_gid), (before.st_mode, before.st_uid, before.st_gid))
        self.assertEqual((read(self.out('r.csv.new')), self.rows(), len(os.listdir(self.folder))), (b'r.csv.new', [], 3))
        # (until a .parquet is made, its rows are in a file of the same mode and owner)
        os.rename(self.out('r.csv'), self.out('r.parquet'))
        report = module.Report(self.out('r.parquet'), False)
        report.file.close()
        self.assertEqual((os.stat(report.lines_path).st_mode, os.stat(report.lines_path).st_uid), (before.st_mode, before.st_uid))

    def test_two_scans_into_one_report(self):
        """The second one is refused, also if it comes between the moments at which the first one looks for a report and makes it."""
        self.put_many(1200)
        self.scan(name='one.csv')
        taken = f'goblin-scan: {self.out("many.csv")} can not be read or written: {TAKEN}\n'
        command = [*SCAN, self.files, '-o', self.out('many.csv'), '--workers', '1', '--batch', '8']
        for more in ([], ['--resume']):
            with subprocess.Popen(command, stderr=subprocess.DEVNULL) as running:
                while not os.path.exists(self.out('many.csv')) or os.path.getsize(self.out('many.csv')) == 0:
                    self.assertIsNone(running.poll())
                second = run(*command, *more)
            self.assertEqual((second.returncode, second.stderr, running.returncode), (2, taken, 0))
            self.check_same('many.csv', 'one.csv')
            os.remove(self.out('many.csv'))

        def came(*_):
            with open(self.out('many.csv'), 'x', encoding='utf-8') as file:
                file.write('another')

        with unittest.mock.patch.object(module.Report, 'begin', came):
            self.assertEqual(ended(self.files, '-o', self.out('many.csv'), '--workers', '0'), (2, taken))
        self.assertEqual((read(self.out('many.csv')), sorted(os.listdir(self.folder))), (b'another', ['files', 'many.csv', 'one.csv']))

    def test_a_parquet_that_is_made(self):
        """Until all of its rows are in it, no other scan may write it."""
        self.put(a_o=SMALL)
        arguments = self.files, '-o', self.out('r.parquet'), '--workers', '0'
        with unittest.mock.patch.dict(sys.modules, StandInForPyarrow().modules()) as modules:
            writer, found = modules['pyarrow.parquet'].ParquetWriter, []

            def late(*given):
                if not found:
                    found.append(ended(*arguments))
                return writer(*given)

            modules['pyarrow.parquet'].ParquetWriter = late
            self.assertEqual(ended(*arguments)[0], 0)
        self.assertEqual([(status, TAKEN in said) for status, said in found], [(2, True)])
        self.assertEqual(columns(json.loads(read(self.out('r.parquet'))), 'file'), [self.path('a.o')])

    def test_parquet(self):
        self.put_many(40)
        file = made.ALL[2]
        huge = bytearray(file.bytes)
        for index in (1, 7):
            # (sections without bytes in the file, whose sizes together pass 64 bits)
            start = file.shoff + index * file.size(made.SHDR)
            huge[start + 4:start + 8], huge[start + 8:start + 16] = (8).to_bytes(4, 'little'), (2).to_bytes(8, 'little')
            huge[start + 32:start + 40] = b'\xff' * 8
        self.put(huge=huge)
        self.scan(name='r.json')
        # (which is another report, and stays)
        self.scan(name='r.parquet.json', folders=[self.path('sub')])
        path, most = self.out('r.parquet'), (1 << 64) - 1
        with unittest.mock.patch.dict(sys.modules, StandInForPyarrow().modules()), patched('GROUP', 7):
            for resume in ([], ['--resume']):
                self.scan(*resume, name='r.parquet')
                self.assertEqual((sorted(os.listdir(self.folder)), read(self.out('r.parquet.json'))),
                                 (['files', 'r.json', 'r.parquet', 'r.parquet.json'], b'[]\n'))
                rows, expected = json.loads(read(path)), self.rows('r.json')
                self.assertEqual((rows[-1]['file'], rows[-1]['zeros']), (self.path('huge'), most))
                self.assertEqual((rows[:-1], expected[-1]['zeros']), ([texts(row) for row in expected[:-1]], 2 * most))
            # (files of a report with other columns, as of an older version, are examined again, and so are those of one that can't be read)
            older = [{name: value for name, value in row.items() if name != 'unknown'} for row in rows]
            for content in (json.dumps(older), 'PAR1'):
                write(path, content)
                self.scan('--resume', name='r.parquet')
                self.assertEqual(json.loads(read(path)), rows)
        # (a module that is None can not be found)
        for modules in ({'pyarrow': None}, {'pyarrow': StandInForPyarrow(), 'pyarrow.parquet': None}):
            with unittest.mock.patch.dict(sys.modules, modules):
                self.check_refused(self.files, '-o', self.out('s.parquet'), why='pyarrow is not installed')

    def check_refused(self, *arguments, why):
        status, said = ended(*arguments)
        self.assertEqual((status, why in said), (2, True), said)

    def test_sizes_of_batches(self):
        """The first ones are small, so that a few files are for all workers."""
        self.put_many(60)
        for most, expected in (('256', [1] * 16 + [2] * 16 + [3] * 4), ('2', [1] * 16 + [2] * 22)):
            sizes = []

            def examine(batches):
                for batch in batches:
                    sizes.append(len(batch))
                    yield batch, module.examine(batch)

            with patched('runner_of', return_value=examine):
                self.scan('--batch', most)
            self.assertEqual(sizes, expected)

    def test_folders_that_are_named_twice(self):
        """Each file has one row, also of folders and files that are below others, or that a link names."""
        self.put(a_o=SMALL, b_o=SMALL, sub__c_o=SMALL)
        os.symlink('sub', self.path('link'))
        os.symlink('b.o', self.path('b'))
        self.enter(self.files)
        for folders, expected in ((['.', '.'], ['./a.o', './b.o', './sub/c.o']), (['sub', './sub/', 'sub/c.o'], ['sub/c.o']),
                                  (['.', 'sub', 'b.o'], ['./a.o', 'sub/c.o', 'b.o']), (['link', self.files], ['link/c.o', 'F/a.o', 'F/b.o']),
                                  (['b', '../files/'], ['b', '../files/a.o', '../files/sub/c.o'])):
            self.assertEqual([file.replace(self.files, 'F') for file in self.scanned('file', folders=folders)], expected)

    def test_lists(self):
        """In a .json they are lists. Those of an older version, which are texts, are examined again."""
        self.put(a=linked(needed=[b'a b', b'\1'], soname=b'', interpreter=b''), b=b'\x7fELF')
        self.scan(name='r.json')
        rows = self.rows('r.json')
        self.assertEqual(columns(rows, 'needed', 'numbers', 'compilers'), [(['a b', '\\x01'], None, []), (None, [], None)])
        write(self.out('r.json'), '[\n' + json.dumps({**rows[0], 'needed': 'a b \\x01'}) + ',\n' + json.dumps(rows[1]) + '\n]\n')
        self.scan('--resume', name='r.json')
        self.assertEqual(sorted(self.rows('r.json'), key=lambda row: row['file']), rows)

    def test_folders_that_may_not_be_entered(self):
        os.symlink('loop', self.out('loop'))
        self.addCleanup(os.seteuid, os.geteuid())
        os.chmod(self.folder, 0o700)
        with contextlib.suppress(PermissionError):  # (a test need not be root's, and then the folder below is one that is closed)
            os.seteuid(65534)
        if os.geteuid() != 65534:
            os.chmod(self.folder, 0)
            self.addCleanup(os.chmod, self.folder, 0o700)
        self.check_refused(self.files, '-o', '/tmp/r.csv', why=f'{self.files} can not be read: {os.strerror(errno.EACCES)}\n')
        os.seteuid(os.getuid())
        os.chmod(self.folder, 0o700)
        why = f'{self.out("loop")} can not be read: {os.strerror(errno.ELOOP)}\n'
        self.check_refused(self.out('loop'), '-o', self.out('r.csv'), why=why)

    def test_a_missing_package(self):
        """It is the one that is missing, which Dask may need, and there is no report to go on with."""
        os.makedirs(self.out('path/distributed'))
        write(self.out('path/distributed/__init__.py'), 'import missing_one')
        found = run(*SCAN, self.files, '-o', self.out('r.csv'), '--scheduler', 'x:1',
                    env={'PYTHONPATH': os.pathsep.join([self.out('path'), *filter(None, sys.path)])})
        self.assertEqual((found.returncode, found.stderr), (2, 'goblin-scan: missing_one is not installed, which --scheduler needs\n'))

    def test_progress(self):
        """On a terminal the number of files is shown from the first batch on."""
        with contextlib.redirect_stderr(io.StringIO()) as said, patched('is_shown', return_value=True):
            module.report_on(iter([([str(index)] * count, [('a', [], 0.5)] * count) for index, count in enumerate((3, 2997, 38000))]),
                             module.Report(self.out('r.csv'), False))
        rates = ''.join(rf'\r{count} files, \d+ a second *' for count in (3, 3000, 41000))
        self.assertRegex(said.getvalue(), rf'^{rates}\n41000 files, 0 refused')

    def test_what_is_not_there(self):
        self.check_refused(self.files, self.out('absent'), '-o', self.out('r.csv'), why=f'{self.out("absent")} is not there')
        for option in ('--batch', '--workers'):
            self.check_refused(self.files, '-o', self.out('r.csv'), option, str(1 << 63), why=f'{1 << 63} is not a number from ')
        self.put(a_o=SMALL)
        self.assertEqual(self.scanned('file', folders=[self.path('a.o')]), [self.path('a.o')])
        with unittest.mock.patch.object(sys, 'stderr', None), contextlib.redirect_stdout(io.StringIO()):
            self.assertEqual(module.main([self.path('a.o'), '-o', self.out('s.csv'), '--workers', '0']), 0)
        # (and a reader of what it prints may have left)
        ends = os.pipe()
        os.close(ends[0])
        for name, status in (('t.csv', 0), ('absent/t.csv', 2)):
            command = [*SCAN, self.path('a.o'), '-o', self.out(name), '--workers', '0']
            self.assertEqual(subprocess.run(command, stderr=ends[1]).returncode, status)
        os.close(ends[1])
        self.check_same('s.csv', 'r.csv')
        self.check_same('t.csv', 'r.csv')

    def test_hostile_files(self):
        # sparse files of 256 MiB: with 4 million section headers, with notes without an end, and with a path as long
        size = 1 << 28
        file = made.ALL[2]
        for name, shoff, phnum, more in [('sections', 4096, 0, [(4096 + 32, (size - 4096) // 64)]),
                                         ('notes', 0, 1, [(file.phoff, 4), (file.phoff + 8, 4096), (file.phoff + 32, size - 4096)]),
                                         ('interpreter', 0, 1, [(file.phoff, 3), (file.phoff + 8, 0), (file.phoff + 32, size)])]:
            content = bytearray(file.bytes.ljust(8192, b'\0'))
            content[40:48], content[56:58], content[60:62] = shoff.to_bytes(8, 'little'), phnum.to_bytes(2, 'little'), bytes(2)
            for offset, number in more:
                content[offset:offset + 8] = number.to_bytes(8, 'little')
            self.put(**{name: content})
            os.truncate(self.path(name), size)
        # (members whose names all begin in one table of 4 MiB)
        self.put(x_a=archive(('//', b'\n' * (1 << 22)), *[('/0', b'')] * 5000, ('x.o', file.bytes)))
        # (and names as long as the sparse files: all of such a table, and one before a member)
        for name, start in (('y.a', '//'), ('z.a', f'#1/{size}')):
            with open(self.path(name), 'wb') as sparse:
                sparse.write(b'!<arch>\n' + f'{start:48}{size:<10}`\n'.encode())
                sparse.seek(size, os.SEEK_CUR)
                sparse.write(archive(('x.o', file.bytes))[8:])
        limit = LIMITED.format('(resource.RLIMIT_DATA, (120 << 20, 120 << 20))')
        run(sys.executable, '-c', limit, 'scan', self.files, '-o', self.out('r.csv'), '--workers', '0', check=True, timeout=120)
        self.assertEqual([os.path.basename(row['file']) + row['member'] for row in self.rows()],
                         ['interpreter', 'notes', 'sections', 'x.ax.o', 'y.ax.o', 'z.ax.o'])
        self.assertEqual(self.rows()[2]['sections'], str((size - 4096) // 64))

    def test_names_of_any_bytes(self):
        names = b'caf\xe9.so', b'\xe2\x80\xae\x1b[1m\\', '\u00e9\u0085'.encode()
        # (of names that have more than 65,536 characters together none is in the row)
        few, many = ([b'\1' * 4000] * count for count in (16, 17))
        self.put(**{'\udce9': linked(needed=names, soname=b'lib\xff\n', interpreter=b'/ld\xe9')}, b=linked(few, b'', b''), c=linked(many, b'', b''),
                 d=SMALL)
        for name in ('r.csv', 'r.json'):
            self.scan(name=name)
            self.check_resumed(name, lambda length: (length, length // 2, 0))
            rows = {row['file'][len(self.files) + 1:]: row for row in map(texts, self.rows(name))}
            row = rows['\\xe9']
            self.assertEqual((row['needed'], row['soname'], row['interpreter']),
                             ('caf\\xe9.so \\xe2\\x80\\xae\\x1b[1m\\x5c \u00e9\\xc2\\x85', 'lib\\xff\\x0a', '/ld\\xe9'))
            self.assertEqual((rows['b']['needed'], rows['d']['class']), (' '.join(['\\x01' * 4000] * 16), 'ELF32'))
            self.assertEqual((rows['c']['needed'] or '', rows['c']['unknown']), ('', f"needed {rows['b']['unknown']}"))
        # (what is there and no report is no row of it)
        for junk in (b'\0\xff"\n,,\n', b'[\n{"file": 1},\n7\n', b'[' * 100000, json.dumps({**dict.fromkeys(module.COLUMNS), 'file': []})):
            for end in ('.csv', '.json'):
                write(self.out('junk' + end), junk)
                self.scan('--resume', name='junk' + end)
                self.check_same('junk' + end, 'r' + end)

    def test_formulas(self):
        for index, start in enumerate(('=', '+', '-', '@', ' =', '"=', "'", '\uff1d', '\t=')):
            bad = f'{start}1+1'.encode()
            self.put(**{f'{index}': linked(needed=[bad + b';' + bad, b';;"' + bad], soname=bad, interpreter=b'/a;' + bad)})
        self.put(**{';=1': SMALL, ";'=1": SMALL})
        self.enter(self.files)
        os.rename('0', '=0')
        folders = ['=0', *'12345678', '.']
        self.scan(folders=folders)
        for separator in ',;':
            with open(self.out('r.csv'), newline='', encoding='utf-8') as file:
                for cells in csv.reader(file, delimiter=separator):
                    self.assertFalse([cell for cell in cells if cell.strip(' "')[:1] in tuple('=+-@\uff1d')], cells)
        rows = self.rows()
        self.assertEqual([rows[0][column] for column in ('file', 'soname', 'interpreter')], ["'=0", "'=1+1", "/a;'=1+1"])
        self.assertEqual(columns(rows[-2:], 'file'), ["./;''=1", "./;'=1"])
        self.check_resumed('r.csv', lambda length: range(0, length, 97), folders=folders)


class Workers(Folder):
    """Processes of this machine."""

    def start(self, *arguments, **given):
        """Starts a scan of the files in a process group of its own."""
        command = [*SCAN, self.files, '-o', self.out('many.csv'), '--workers', '3', '--batch', '8', *arguments]
        # (a test that runs in the background ignores SIGINT, and so would what it starts)
        running = subprocess.Popen(command, stderr=subprocess.PIPE, universal_newlines=True, start_new_session=True,
                                   preexec_fn=lambda: signal.signal(signal.SIGINT, signal.SIG_DFL), **given)
        self.addCleanup(running.communicate)
        self.addCleanup(running.kill)
        return running

    def check_ended(self, running, status=0):
        said = running.communicate(timeout=120)[1]
        self.assertEqual(running.returncode, status, said)
        self.assertNotIn('Traceback', said)
        return said

    def check_run(self, *command, **more):
        """Runs a command in the folder that scans a file by a worker."""
        self.put(a_o=SMALL)
        run(*command, check=True, cwd=self.folder, **more)
        self.assertEqual(columns(self.rows(), 'file'), ['files/a.o'])

    def test_killed_workers(self):
        """Whenever some are killed, the report stays the same."""
        self.put_many(1200)
        self.scan(name='one.csv')
        killed = set()

        def kill_first(running):
            for process in [process for process in workers_of(running) if process not in killed][:3 - len(killed)]:
                killed.add(process)
                os.kill(process, signal.SIGKILL)

        def kill_at_rows(running):
            with contextlib.suppress(FileNotFoundError):
                if len(killed) < 3 * os.path.getsize(self.out('many.csv')) // os.path.getsize(self.out('one.csv')):
                    kill_next(running)

        def kill_next(running):
            processes = workers_of(running)
            if processes:
                process = random.choice(processes)
                killed.add(process)
                with contextlib.suppress(ProcessLookupError):
                    os.kill(process, signal.SIGKILL)

        def kill_often(running):
            time.sleep(random.random() / 10)
            if len(killed) < 12:
                kill_next(running)

        for kill in (kill_first, kill_at_rows, kill_often):
            killed.clear()
            # (on a busy machine a scan may end before its workers are seen)
            for _ in range(20):
                with contextlib.suppress(FileNotFoundError):
                    os.remove(self.out('many.csv'))
                running = self.start()
                while running.poll() is None:
                    kill(running)
                self.check_ended(running)
                self.check_same('many.csv', 'one.csv')
                if killed:
                    break
            self.assertTrue(killed)

    def test_files_that_end_workers(self):
        batches = [['1', 'end', '2'], ['3'], ['end'], ['4', '5']]
        found = list(workers.Workers(end_or_echo, 2, 1 << 30).results(iter(batches)))
        self.assertEqual(found, [(['1'], ['1']), (['end'], None), (['2'], ['2']), (['3'], ['3']), (['end'], None), (['4', '5'], ['4', '5'])])
        self.assertRaisesRegex(workers.Stopped, '16 workers ended as they started, the last one with exit code 7',
                               list, workers.Workers(EndsWorkers(), 2, 1 << 30).results(iter(batches)))
        self.put(a=SMALL)
        report = module.Report(self.out('r.csv'), False)
        with contextlib.redirect_stderr(io.StringIO()) as said:
            module.report_on(iter([(['a'], module.examine([self.path('a')])), (['b'], None)]), report)
        self.assertEqual(columns(self.rows(), 'refused'), ['', 'WORKER_LOST'])
        self.assertIn('2 files, 1 refused', said.getvalue())

    def test_a_folder_that_can_not_be_entered(self):
        """As one that is removed, and one of another user."""
        self.put(a_o=SMALL)
        os.mkdir(self.out('gone'))
        self.enter(self.out('gone'))
        os.rmdir(self.out('gone'))
        status, said = ended('.', '-o', self.out('r.csv'), '--workers', '1')
        self.assertEqual((status, 'the current folder can not be entered' in said), (2, True))
        self.assertEqual(self.scanned('file', options=['--workers', '1']), [self.path('a.o')])

    def test_threads(self):
        """The current folder, which is that of all threads, stays the same."""
        self.put(a_o=SMALL)
        self.enter(self.folder)
        with contextlib.redirect_stderr(io.StringIO()):
            threads = started(lambda number: module.main(['files', '-o', self.out(f'{number}.csv'), '--workers', '2']), (0, 1))
            seen = {os.getcwd() for _ in iter(lambda: any(thread.is_alive() for thread in threads), False)}
        self.assertEqual((seen, len(self.rows('0.csv'))), ({os.path.realpath(self.folder)}, 1))
        self.assertEqual(self.rows('0.csv'), self.rows('1.csv'))

    def test_limits_in_threads(self):
        """Without workers the limit of this process is the same again once all threads are done, and each one's function has its own."""
        before, seen = resource.getrlimit(resource.RLIMIT_DATA), []
        self.addCleanup(resource.setrlimit, resource.RLIMIT_DATA, before)

        def look(batch):
            time.sleep(0.002)
            seen.append((*batch, resource.getrlimit(resource.RLIMIT_DATA)[0]))

        for thread in started(lambda memory: list(workers.in_turn(look, memory << 30, iter([[str(memory)]] * 20))), (1, 2)):
            thread.join()
        self.assertEqual(resource.getrlimit(resource.RLIMIT_DATA), before)
        # (the shell may have a lower limit; that which is none is -1)
        own = [(str(memory), min(memory << 30, before[0] % (1 << 64))) for memory in (1, 2)]
        self.assertEqual(sorted(seen), [own[0]] * 20 + [own[1]] * 20)

    def test_flags_of_python(self):
        """Workers have the same ones, and so take names for the same bytes."""
        self.put(**{'\u00e9': SMALL})
        run(sys.executable, '-X', 'utf8', *SCAN[1:], 'files', '-o', 'r.csv', '--workers', '1', check=True, cwd=self.folder, env=OTHER_LOCALE)
        self.assertEqual(columns(self.rows(), 'file', 'class'), [('files/\u00e9', 'ELF32')])

    def test_a_package_of_the_current_folder(self):
        """Workers import the one that a script finds by a path that does not start with /, though they start elsewhere."""
        os.symlink(os.path.dirname(os.path.dirname(module.__file__)), self.out('own'))
        script = "import sys; sys.path.insert(0, 'own'); from goblin_elf import scan; " \
                 "sys.exit(scan.main(['files', '-o', 'r.csv', '--workers', '1']))"
        self.check_run(sys.executable, '-c', script, env={'PYTHONPATH': ''})

    def test_a_library_of_the_current_folder(self):
        """Workers load the same one, though they start elsewhere."""
        shutil.copy(LIBRARY._name, self.out('own.so'))
        self.check_run(*SCAN, 'files', '-o', 'r.csv', '--workers', '1', env={'GOBLIN_ELF_LIBRARY': './own.so'})

    def test_nothing_of_the_folder_is_run(self):
        """The command of the wheel takes no modules of the current folder, and neither do its workers."""
        self.put(a_o=SMALL, multiprocessing_py=f'open({self.out("run")!r}, "w")')
        write(self.out('goblin-scan'), "import sys\nfrom goblin_elf.scan import main\nif __name__ == '__main__':\n    sys.exit(main())\n")
        run(sys.executable, self.out('goblin-scan'), '.', '-o', '../r.csv', '--workers', '1', check=True, cwd=self.files)
        self.assertEqual((columns(self.rows(), 'file'), os.path.exists(self.out('run'))), (['./a.o'], False))

    def test_little_memory(self):
        (_, found), = workers.Workers(take_memory, 1, 256 << 20).results(iter([['128', '512']]))
        self.assertEqual(found, ['128', 'MemoryError'])
        # (a batch whose results do not fit into a message is divided, and no worker prints anything)
        script = 'import test_scan, sys; from goblin_elf import _workers; ' \
                 'print([len(*found) for _, found in _workers.Workers(test_scan.zeros, 1, 256 << 20).results(iter([["60", "61"]]))])'
        ran = run(sys.executable, '-c', script, stdout=subprocess.PIPE, env=PATHS)
        self.assertEqual((ran.stdout.splitlines()[-1], 'Traceback' in ran.stdout + ran.stderr), (str([60 << 20, 61 << 20]), False))

    def test_results_that_wait(self):
        """Those that come before the one that is next are few and small, since they are held."""
        divided = [batch for batch, _ in workers.Workers(zeros, 1, 256 << 20).results(iter([['40', '41'], ['20', '21']]))]
        self.assertEqual(divided, [['40'], ['41'], ['20', '21']])
        running = workers.Workers(zeros, 2, 1 << 30)
        running.tasks = [workers.Task([str(index)]) for index in range(60)]
        running.workers = [types.SimpleNamespace(is_ready=True, task=None, give=lambda task: setattr(task, 'is_given', True))] * 2
        for _ in running.tasks:
            running.give()
        self.assertEqual([task.is_given for task in running.tasks], [True] * 8 + [False] * 52)

    def test_nothing_listens(self):
        self.put_many(1200)
        running, seen = self.start(), 0
        while running.poll() is None:
            processes = workers_of(running)
            seen += len(processes) == 3
            self.assertFalse(sockets_of([running.pid, *processes]) & listening())
        self.check_ended(running)
        self.assertGreater(seen, 0)

    def test_interrupted(self):
        self.put_many(1200)
        self.scan(name='one.csv')
        for begin in (workers_of, lambda running: os.path.getsize(self.out('many.csv')) > 2000):
            write(self.out('many.csv'), b'')
            # (in this mode Python prints which files nobody closed)
            running = self.start(env={**os.environ, 'PYTHONDEVMODE': '1'})
            while not begin(running):
                self.assertIsNone(running.poll())
            processes = workers_of(running)
            os.killpg(running.pid, signal.SIGINT)
            self.assertEqual(self.check_ended(running, 130), f'goblin-scan: interrupted; --resume goes on with {self.out("many.csv")}\n')
            self.assertFalse([process for process in processes if os.path.exists(f'/proc/{process}/fd')])
            self.scan('--resume', name='many.csv')
            self.check_same('many.csv', 'one.csv')

    def test_workers_end_with_the_scan(self):
        """Whatever ends it, and though they examine a file."""
        for number in (signal.SIGTERM, signal.SIGKILL):
            begun = self.out(f'begun by {number}')
            script = 'import test_scan; from goblin_elf import _workers; ' \
                     f'list(_workers.Workers(test_scan.wait, 1, 1 << 30).results(iter([[{begun!r}]])))'
            running = subprocess.Popen([sys.executable, '-c', script], stderr=subprocess.PIPE, env={**os.environ, **PATHS})
            self.addCleanup(running.stderr.close)
            self.addCleanup(running.kill)
            while not os.path.exists(begun):
                self.assertIsNone(running.poll())
                time.sleep(0.05)
            running.send_signal(number)
            # (the pipe is read to its end, and its workers have it, too)
            running.communicate(timeout=60)
            self.assertEqual(running.returncode, -number)

    def test_reports_that_can_not_be_written(self):
        self.put_many(100)
        os.mkdir(self.out('folder.csv'))
        os.mkfifo(self.out('fifo'))
        os.symlink('fifo', self.out('fifo.csv'))
        said = lambda name, why: f'goblin-scan: {self.out(name)} can not be read or written: {why}\n'
        for name, why, options in (('absent/r.csv', 'No such file or directory', []), ('absent/r.csv', 'No such file or directory', ['--resume']),
                                   *((name, 'it is no regular file', []) for name in ('fifo.csv', 'folder.csv')),
                                   ('fifo.csv', 'it is no regular file', ['--resume'])):
            self.assertEqual(self.check_ended(self.start('-o', self.out(name), *options), 2), said(name, why))
        limit = LIMITED.format('(resource.RLIMIT_FSIZE, (9999, 9999))')
        for number in ('0', '2'):
            found = run(sys.executable, '-c', limit, 'scan', self.files, '-o', self.out('r.csv'), '--workers', number)
            self.assertEqual((found.returncode, found.stderr), (2, said('r.csv', 'File too large')))
        # (the report that a link names is written)
        self.scan()
        os.symlink('r.csv', self.out('link.csv'))
        self.scan(name='link.csv', folders=[self.path('sub')])
        self.assertEqual((self.rows(), os.path.islink(self.out('link.csv'))), ([], True))
        self.assertEqual(sorted(os.listdir(self.folder)), ['fifo', 'fifo.csv', 'files', 'folder.csv', 'link.csv', 'r.csv'])


@unittest.skipUnless(distributed, 'distributed is not installed')
class Scheduler(Folder):
    """The workers of a scheduler of Dask."""

    def run_dask(self, command, *arguments):
        """Starts a scheduler or a worker."""
        with open(self.out('said'), 'ab') as said:
            process = subprocess.Popen([sys.executable, '-m', f'distributed.cli.dask_{command}', '--scheduler-file', self.out('scheduler.json'),
                                        '--no-dashboard', *arguments], stdout=said, stderr=said, cwd=self.folder)
        self.addCleanup(process.wait)
        self.addCleanup(process.kill)
        return process

    def start_scheduler(self):
        """Starts a scheduler, and returns it and its address."""
        scheduler = self.run_dask('scheduler', '--host', '127.0.0.1', '--port', '0')
        while not os.path.exists(self.out('scheduler.json')) or os.path.getsize(self.out('scheduler.json')) == 0:
            self.assertIsNone(scheduler.poll())
            time.sleep(0.05)
        return scheduler, self.rows('scheduler.json')['address']

    def start(self, address, size):
        """Starts a scan by a scheduler, and waits until its report has some bytes."""
        write(self.out('many.csv'), b'')
        command = [*SCAN, self.files, '-o', self.out('many.csv'), '--scheduler', address, '--batch', '4']
        running = subprocess.Popen(command, stderr=subprocess.PIPE, universal_newlines=True)
        self.addCleanup(running.communicate)
        self.addCleanup(running.kill)
        while os.path.getsize(self.out('many.csv')) < size:
            self.assertIsNone(running.poll())
        return running

    def test_a_file_that_ends_each_worker(self):
        """As Dask reports a batch of which it has tried the last worker."""
        self.put_many(7)
        lost, late = self.path('00002'), [asyncio.TimeoutError()]

        class Client(contextlib.nullcontext):
            def wait_for_workers(self, count, timeout):
                pass

            # (as where the last worker has just left)
            def ncores(self):
                return {}

            def submit(self, function, batch, pure):
                def result(timeout):
                    if late:
                        raise late.pop()
                    if lost in batch:
                        raise distributed.KilledWorker('examine', None, 3)
                    if len(batch) == 3:
                        raise MemoryError
                    return function(batch)
                return types.SimpleNamespace(result=result)

        paths = sorted(self.path(name) for name in os.listdir(self.files) if name != 'sub')
        replaced = unittest.mock.patch.object(distributed, 'Client', lambda address, timeout: Client())
        with replaced, contextlib.redirect_stderr(io.StringIO()) as said:
            results = list(workers.Scheduled(module.examine, 'made').results(iter([paths[:4], paths[4:]])))
        self.assertEqual(said.getvalue(), f'goblin-scan: the scheduler made has had no result for {workers.PATIENCE} seconds; waiting\n')
        found = [(path, rows[0]['refused']) for batch, result in results for path, rows, _ in result or module.lost(*batch)]
        self.assertEqual(found, [(path, 'WORKER_LOST' if path == lost else 'TOO_BIG' if path.endswith('6') else None) for path in paths])

    def test_workers_with_another_version(self):
        """They may not know an argument."""
        client = unittest.mock.MagicMock()
        client.ncores.return_value = {}
        client.submit.side_effect = lambda function, batch, pure: types.SimpleNamespace(result=lambda timeout: function(batch))
        with unittest.mock.patch.object(distributed, 'Client', return_value=client):
            results = workers.Scheduled(functools.partial(zeros, later=1), 'made').results(iter([['1']]))
            self.assertRaisesRegex(workers.Stopped, "^a worker of the scheduler made can not run this: zeros.* unexpected .*'later'$", list, results)

    def test_killed_workers(self):
        self.put_many(1200)
        self.scan(name='one.csv')
        scheduler, address = self.start_scheduler()
        processes = [self.run_dask('worker', '--no-nanny', '--nthreads', '1') for _ in range(3)]
        with distributed.Client(address) as client:
            client.wait_for_workers(3, timeout=60)
        third = len(read(self.out('one.csv'))) // 3
        # (the first of them before the first row)
        for process, size in zip(processes, (1, third)):
            running = self.start(address, size)
            process.kill()
            self.assertLess(os.path.getsize(self.out('many.csv')), 3 * third)
            self.assertIn('1200 files', running.communicate(timeout=120)[1])
            self.assertEqual(running.returncode, 0)
            self.check_same('many.csv', 'one.csv')
        # the scheduler itself
        running = self.start(address, third)
        scheduler.kill()
        said = running.communicate(timeout=60)[1]
        self.assertEqual((running.returncode, said),
                         (2, f'goblin-scan: the scheduler {address} is gone; --resume goes on with {self.out("many.csv")}\n'))
        self.scan('--workers', '2', '--resume', name='many.csv')
        self.check_same('many.csv', 'one.csv')

    def test_schedulers_that_can_not_be_used(self):
        self.put_many(1)
        write(self.out('r.csv'), 'old')
        scheduler, address = self.start_scheduler()
        # (on a busy machine a scheduler may take long to answer)
        for patience in (1, 8, 64):
            said = self.stopped(address, patience)
            if 'does not answer' not in said:
                break
        self.check_reason(said, address, 'has no workers')
        scheduler.kill()
        scheduler.wait()
        for gone in (address, '127.0.0.1'):
            self.check_reason(self.stopped(gone, 1), gone, 'does not answer')
        self.assertEqual(read(self.out('r.csv')), b'old')

    def stopped(self, address, patience):
        with unittest.mock.patch.object(workers, 'PATIENCE', patience):
            status, said = ended(self.files, '-o', self.out('r.csv'), '--scheduler', address)
        self.assertEqual(status, 2)
        return said

    def check_reason(self, said, address, why):
        self.assertRegex(said, f'(?m)^goblin-scan: the scheduler {address} {why}[^\n]*\n$')


def end_or_echo(batch):
    """Returns a batch, or ends its process."""
    if 'end' in batch:
        os.kill(os.getpid(), signal.SIGKILL)
    return batch


def take_memory(batch):
    """Returns whether as many MiB can be taken as each path says."""
    found = []
    for path in batch:
        try:
            found.append(str(len(bytearray(int(path) << 20)) >> 20))
        except MemoryError:
            found.append('MemoryError')
    return found


def wait(batch):
    """Makes a file of the path, and waits for two minutes."""
    with open(*batch, 'x'):
        time.sleep(120)


def zeros(batch):
    """Returns as many MiB as each path says."""
    return [bytes(int(path) << 20) for path in batch]


class EndsWorkers:
    """What ends the process that unpickles it."""

    def __reduce__(self):
        return os._exit, (7,)


def workers_of(running):
    """Returns the processes that a scan has started for files, in the order of their numbers."""
    found = []
    for process in filter(str.isdecimal, os.listdir('/proc')):
        with contextlib.suppress(OSError):
            fields = read(f'/proc/{process}/stat').rsplit(b')', 1)[1].split()
            if int(fields[1]) == running.pid and workers.START.encode() in read(f'/proc/{process}/cmdline'):
                found.append(int(process))
    return sorted(found)


def sockets_of(processes):
    """Returns the numbers of the sockets of some processes."""
    links = []
    for process in processes:
        with contextlib.suppress(OSError):
            links += [os.readlink(f'/proc/{process}/fd/{name}') for name in os.listdir(f'/proc/{process}/fd')]
    return {link[8:-1] for link in links if link.startswith('socket:[')}


def listening():
    """Returns the numbers of the sockets that listen, of any kind."""
    tables = {name: read(f'/proc/net/{name}').decode().splitlines()[1:] for name in ('tcp', 'tcp6', 'unix') if os.path.exists(f'/proc/net/{name}')}
    tcp = [line.split() for name in ('tcp', 'tcp6') for line in tables.get(name, [])]
    return {line[9] for line in tcp if line[3] == '0A'} | {line.split()[6] for line in tables['unix'] if line.split()[3] == '00010000'}
