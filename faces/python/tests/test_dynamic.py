"""Tests of the dynamic section and its names. Expected are those of checks/files/facts.json, which were read by readelf, and the numbers that are
read here by the layouts of the System V gABI."""
import json
import os
import shutil
import struct
import subprocess
import sys
import tempfile
import unittest

from goblin_elf import DT, DT_NEEDED, DT_SONAME, DT_STRSZ, PT_DYNAMIC, PT_INTERP, SHT_DYNAMIC, Dyn, Elf, Kind, Refused

import made
from parts import changed, content_of, limit_memory, of_type, put_value, replace, stored

try:
    import numpy
except ImportError:
    numpy = None

FOLDER = os.path.dirname(os.path.abspath(__file__))
# The facts, each with the name of its call.
NAMES = [('needed', 'libraries'), ('soname', 'soname'), ('rpath', 'rpaths'), ('runpath', 'runpaths'), ('interpreter', 'interpreter')]


class Names(unittest.TestCase):
    def test_stored_files(self):
        """What is unknown is refused, and what a file lacks is none."""
        with open(stored('facts.json'), encoding='utf-8') as file:
            rows = json.load(file)
        for name, row in rows.items():
            elf = Elf.open(stored(name))
            for fact, call in NAMES:
                with self.subTest(name, fact=fact):
                    # (that a debug file, or a part of one, is of another file is no matter of its dynamic section)
                    if 'debug' in name:
                        continue
                    if fact in row['unknown']:
                        self.assertRaises(Refused, getattr, elf, call)
                    else:
                        # (there may be more than one search path)
                        wanted = row[fact] if fact not in ('rpath', 'runpath') else [] if row[fact] is None else [row[fact]]
                        self.assertEqual(getattr(elf, call), wanted)


class Entries(unittest.TestCase):
    """The dynamic section."""

    def expected(self, content):
        """Returns the tags and values of the segment of type PT_DYNAMIC, read by hand."""
        is_64, order = content[4] == 2, '<>'[content[5] - 1]
        at, = struct.unpack_from(order + ('Q' if is_64 else 'I'), content, 32 if is_64 else 28)
        count, = struct.unpack_from(order + 'H', content, 56 if is_64 else 44)
        for index in range(count):
            start = at + index * (56 if is_64 else 32)
            head = struct.unpack_from(order + made.PHDR[64 if is_64 else 32], content, start)
            if head[0] == 2:
                offset, filled = (head[2], head[5]) if is_64 else (head[1], head[4])
                width = 'QQ' if is_64 else 'II'
                pairs = list(struct.iter_unpack(order + width, content[offset:offset + filled]))
                return pairs[:[tag for tag, _ in pairs].index(0)]
        return []

    def test_stored_files(self):
        tried = set()
        for name in sorted(os.listdir(stored('made'))):
            if not name.endswith(('.listed', '_debug')):
                content = content_of(stored(f'made/{name}'))
                dynamic, pairs = Elf(content).dynamic_section, self.expected(content)
                self.assertEqual([(entry.d_tag, entry.d_val) for entry in dynamic], pairs)
                self.assertEqual([dynamic.value(tag) for tag in (DT_NEEDED, DT_SONAME, 0, 99)],
                                 [dict(reversed(pairs)).get(tag) for tag in (DT_NEEDED, DT_SONAME, 0, 99)])
                tried.update([(content[4], content[5])] if pairs else [])
        self.assertEqual(tried, {(1, 1), (1, 2), (2, 1), (2, 2)})

    def test_sequence(self):
        elf = changed('facts/full')
        dynamic = elf.dynamic_section
        items = list(dynamic)
        self.assertEqual(([dynamic[index] for index in range(-len(items), len(items))], dynamic[1:3]), (items * 2, items[1:3]))
        self.assertEqual((items[0].string, items[0].d_tag, items[0].index, DT(items[0].d_tag).name), ('libfirst.so.1', 1, 0, 'DT_NEEDED'))
        self.assertRegex(repr(items[0]), r'^Dyn\(d_tag=1, d_val=0?x?[0-9a-f]+, index=0\)$')
        self.assertEqual((isinstance(items[0], Dyn), repr(dynamic)), (True, f'<Dynamic: {len(items)} items>'))
        self.assertRaises(IndexError, lambda: dynamic[len(items)])
        self.assertRaises(TypeError, dynamic.__setitem__, 0, items[0])
        self.assertRaises(ValueError, dynamic.value, -1)

    @unittest.skipUnless(numpy, 'numpy is not installed')
    def test_array(self):
        dynamic = changed('facts/full').dynamic_section
        self.assertEqual(dynamic.array().tolist(), [(entry.d_tag, entry.d_val) for entry in dynamic])

    def test_many_entries(self):
        # more entries than one call reads
        elf, count = changed('facts/full'), 5000
        content = bytearray(elf.bytes) + b''.join(struct.pack('<QQ', 1, index) for index in range(count)) + bytes(16)
        more = Elf(content)
        replace(more, PT_DYNAMIC, p_offset=len(elf.bytes), p_filesz=16 * count + 16)
        self.assertEqual([(entry.d_val, entry.index) for entry in more.dynamic_section], [(index, index) for index in range(count)])
        self.assertEqual([(entry.d_val, entry.index) for entry in more.dynamic_section[2040:2060]], [(index, index) for index in range(2040, 2060)])
        # (without DT_STRTAB they have no names)
        self.assertEqual(self.refusal(lambda: more.libraries), (Kind.NO_STRING, (1, 0), len(elf.bytes)))

    def refusal(self, read):
        with self.assertRaises(Refused) as caught:
            read()
        return caught.exception.kind, caught.exception.numbers, caught.exception.offset

    def test_refusals(self):
        elf, place = changed('facts/full'), of_type(changed('facts/full'), PT_DYNAMIC).p_offset
        # a name past the strings, strings past the file's end, and an entry that is not whole
        put_value(elf, DT_NEEDED, 1 << 40)
        self.assertEqual(self.refusal(lambda: elf.libraries), (Kind.NO_STRING, (1, 1 << 40), place))
        self.assertEqual((elf.runpaths, elf.soname), (['/made/runpath'], None))
        put_value(elf, DT_STRSZ, 1 << 40)
        self.assertEqual(self.refusal(lambda: elf.runpaths)[0], Kind.TOO_BIG)
        self.assertIsNone(elf.soname)
        replace(elf, PT_DYNAMIC, p_filesz=16 + 15)
        self.assertEqual([entry.d_tag for entry in elf.dynamic_section], [DT_NEEDED])
        replace(elf, PT_DYNAMIC, p_offset=len(elf.bytes))
        self.assertEqual(self.refusal(lambda: elf.dynamic_section), (Kind.BAD_OFFSET, (len(elf.bytes),), len(elf.bytes)))
        for offset, size, kind in ((len(elf.bytes) - 3, 4, Kind.STRTAB_RANGE), (len(elf.bytes) + 1, 4, Kind.STRTAB_OFFSET)):
            replace(elf, PT_INTERP, p_offset=offset, p_filesz=size)
            self.assertEqual(self.refusal(lambda: elf.interpreter)[0], kind)

    def test_by_sections(self):
        elf = changed('facts/full')
        replace(elf, PT_DYNAMIC, p_type=0x60000000)
        self.assertEqual((len(elf.dynamic_section), elf.section_by_type(SHT_DYNAMIC).name), (0, '.dynamic'))
        elf = changed('facts/no_segments')
        section = elf.section_by_type(SHT_DYNAMIC)
        self.assertEqual((elf.soname, len(elf.program_headers), elf.dynamic_section.strings.size), ('libtwo.so.1', 0, section.linked_section.sh_size))
        elf.section_headers[section.index] = section.replace(sh_link=0)
        self.assertEqual(self.refusal(lambda: elf.soname)[0], Kind.NO_STRING)
        elf.section_headers[section.index] = section.replace(sh_size=1 << 40)
        self.assertEqual(self.refusal(lambda: elf.soname)[0], Kind.TOO_BIG)

    def test_names_that_are_not_utf_8(self):
        elf = changed('facts/full')
        elf.put_number(bytes(elf.bytes).index(b'libfirst'), 1, 0xff)
        self.assertEqual(elf.libraries, ['\udcffibfirst.so.1', 'libsecond.so.1'])


HOSTILE = r'''
import struct
from goblin_elf import Elf, Refused, Strings, Symbols
count, size, start = 20000, 2 << 20, 64 + 2 * 56
for closing, step, tag in ((b'a', 1, 1), (bytes(1), 1, 1), (bytes(1), 0, 1), (b'a', 1, 29), (bytes(1), 1, 15)):
    strings, offsets = start + 16 * (count + 3), [1 + index * step for index in range(count)]
    content = struct.pack('<16s2HI3QI6H', b'\x7fELF\2\1\1', 3, 62, 1, 0, 64, 0, 0, 64, 56, 2, 64, 0, 0)
    content += struct.pack('<2I6Q2I6Q', 1, 4, 0, 0, 0, strings + size, 0, 1, 2, 4, start, start, 0, strings - start, 0, 8)
    content += b''.join(struct.pack('<QQ', tag, offset) for offset in offsets) + struct.pack('<6Q', 5, strings, 10, size, 0, 0)
    content += b'a' * (size - 1) + closing + b''.join(struct.pack('<IBBHQQ', offset, 0, 0, 0, 0, 0) for offset in offsets)
    elf = Elf(content)
    symbols = Symbols(elf, strings + size, 24 * count, Strings(elf, strings, size))
    for names in (lambda: elf.libraries or elf.rpaths or elf.runpaths, symbols.names, lambda: symbols.strtab.get_all(offsets))[:3 if tag == 1 else 1]:
        try:
            print(len({id(name) for name in names()}), end=' ')
        except Refused as error:
            print(error.kind.name, *error.numbers, error.offset - strings, end=' ')
'''


class Hostile(unittest.TestCase):
    def test_names_that_are_long_or_overlap(self):
        """Those that nothing closes are refused, and those that overlap, of which 20,000 of 2 MiB would take 40 GB. Those at one offset are one."""
        found = subprocess.run([sys.executable, '-c', HOSTILE], stdout=subprocess.PIPE, stderr=subprocess.PIPE, timeout=60, encoding='utf-8',
                               preexec_fn=limit_memory)
        expected = ['OPEN_STRING', '1', '1'] * 3 + ['OVERLAP', '9', str(2 << 20), '0'] * 3 + ['1'] * 3 + ['OVERLAP', '9', str(2 << 20), '0'] * 2
        self.assertEqual((found.stdout.split(), found.stderr), (expected, ''))


class Example(unittest.TestCase):
    script = os.path.join(FOLDER, '..', 'examples', 'lddtree.py')
    # (the example must not search the user's folders, but Python itself may need them)
    code = "import os, runpy, sys; os.environ.pop('LD_LIBRARY_PATH', None); runpy.run_path(sys.argv.pop(1))"

    def test_lddtree_finds_what_ld_so_finds(self):
        """What ldd finds of libraries that gcc made with these names and paths, and for ld.so.conf, what its manual page says."""
        needed, soname, rpath, runpath = (lambda text, tag=tag: (tag, text.encode()) for tag in (DT_NEEDED, DT_SONAME, DT.DT_RPATH, DT.DT_RUNPATH))
        files = {
            # (one is loaded already by its own name, another one for a program above, beside whose DT_RUNPATH its DT_RPATH does not count)
            'prog': [*map(needed, ('libmid.so', 'libone.so', 'libset.so', 'libmore.so')), rpath('/a')],
            'a/libmid.so': [*map(needed, ('libleaf.so', 'libdeep2.so', 'libtwo.so')), rpath('/c'), runpath('/b')],
            'a/libone.so': [soname('libtwo.so')], 'a/libdeep.so': [], 'a/libdeep2.so': [], 'c/libfar.so': [],
            'b/libleaf.so': [needed('libdeep.so'), needed('libfar.so')],
            'usr/local/lib/libset.so': [], 'opt/lib/libmore.so': [],
        }
        with tempfile.TemporaryDirectory() as root:
            for name, names in files.items():
                os.makedirs(os.path.dirname(os.path.join(root, name)), exist_ok=True)
                with open(os.path.join(root, name), 'wb') as file:
                    file.write(made.linked(*names))
            os.makedirs(os.path.join(root, 'etc/conf.d'))
            for name, text in (('ld.so.conf', 'include conf.d/*.conf # more\n\n/usr/local/lib\n'),
                               ('conf.d/opt.conf', '/opt/lib\ninclude /etc/ld.so.conf\n')):
                with open(os.path.join(root, 'etc', name), 'w', encoding='ascii') as file:
                    file.write(text)
            said = subprocess.run([sys.executable, '-c', self.code, self.script, f'{root}/prog', root], stdout=subprocess.PIPE, encoding='utf-8',
                                  timeout=60).stdout.replace(root, '')
        self.assertEqual(said, """/prog (interpreter => None)
    libmid.so => /a/libmid.so
        libleaf.so => /b/libleaf.so
            libdeep.so => /a/libdeep.so
            libfar.so => not found
        libdeep2.so => not found
        libtwo.so => /a/libone.so
    libone.so => /a/libone.so
    libset.so => /usr/local/lib/libset.so
    libmore.so => /opt/lib/libmore.so
""")

    def test_lddtree(self):
        """A system in a folder, with libraries of two machines."""
        with tempfile.TemporaryDirectory() as root:
            for name, source in (('made/runpath/libfirst.so.1', 'branch_targets'), ('lib/libfirst.so.1', 'two_compilers'),
                                 ('made/runpath/libsecond.so.1', 'cut_headers'), ('usr/lib/libsecond.so.1', 'two_compilers')):
                os.makedirs(os.path.dirname(os.path.join(root, name)), exist_ok=True)
                shutil.copy(stored(f'facts/{source}'), os.path.join(root, name))
            # (what a terminal takes as a command is not printed)
            odd = os.path.join(root, 'odd')
            with open(odd, 'wb') as file:
                file.write(content_of(stored('facts/full')).replace(b'libfirst', b'\x1bib\xffirst'))
            # (and at what is no file it does not wait)
            os.mkfifo(os.path.join(root, 'lib/\x1bib\udcffirst.so.1'))
            fifo = os.path.join(root, 'fifo')
            os.mkfifo(fifo)
            said = [subprocess.run([sys.executable, '-c', self.code, self.script, *arguments], stdout=subprocess.PIPE, stderr=subprocess.PIPE,
                                   encoding='utf-8', timeout=60, preexec_fn=limit_memory)
                    for arguments in ([stored('facts/full'), root], [stored('facts/cut_dynamic'), root], [odd, root], ['\x1babsent'], [],
                                      ['/proc/self/mem'], ['/dev/zero'], [fifo])]
            with open('/dev/full', 'w') as full:
                said.append(subprocess.run([sys.executable, self.script, odd], stdout=full, stderr=subprocess.PIPE, encoding='utf-8'))
        path = stored('facts/full')
        self.assertEqual(said[0].stdout, f'{path} (interpreter => /lib/ld-made.so.1)\n    libfirst.so.1 => {root}/lib/libfirst.so.1\n'
                                         f'    libsecond.so.1 => {root}/made/runpath/libsecond.so.1\n'
                                         f'        libfirst.so.1 => {root}/lib/libfirst.so.1\n'
                                         f'        libsecond.so.1 => {root}/made/runpath/libsecond.so.1\n')
        self.assertEqual(said[2].stdout.split('\n')[1], '    \\x1bib\\xffirst.so.1 => not found')
        self.assertEqual([(one.returncode, one.stderr) for one in said],
                         [(0, ''), (1, 'refused: type is too big (384) for 40\n'), (0, ''), (1, '\\x1babsent: No such file or directory\n'),
                          (1, 'usage: lddtree.py FILE [ROOT]\n'), (1, 'refused: Malformed entity: Too small\n'),
                          *((1, f'{path}: it is no ordinary file\n') for path in ('/dev/zero', fifo)), (1, f'{odd}: No space left on device\n')])
