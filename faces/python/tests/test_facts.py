"""Tests of what is said of files. The facts of the stored files are those of checks/files/facts.json, which were read by readelf."""
import contextlib
import csv
import gc
import io
import json
import os
import struct
import tempfile
import unittest
import unittest.mock

from goblin_elf import (DT_JMPREL, DT_NEEDED, DT_PLTRELSZ, DT_STRSZ, EM_MIPS, PT_DYNAMIC, PT_GNU_RELRO, PT_GNU_STACK, PT_INTERP, PT_NOTE, SHT_RELA,
                        SHT_SYMTAB, Elf)
from goblin_elf import __main__ as program
from goblin_elf import _facts as facts_module
from goblin_elf import _marks as marks
from goblin_elf import scan
from goblin_elf._facts import FACTS, SEARCHED, facts

import made
from parts import FILES, changed, content_of, of_type, put_value, replace, stored


def shown(value):
    """Returns how a fact is printed, or `None` if it is not."""
    if value is None or isinstance(value, bool):
        return {None: None, True: 'yes', False: 'no'}[value]
    return ', '.join(value) or 'none' if isinstance(value, list) else str(value)


class Table(unittest.TestCase):
    """The stored table, to which the page is held, too."""

    @classmethod
    def setUpClass(cls):
        with open(stored('facts.json'), encoding='utf-8') as file:
            cls.rows = json.load(file)

    def test_each_stored_file_has_a_row(self):
        found = set()
        for folder, _, names in os.walk(FILES):
            for path in (os.path.join(folder, name) for name in names):
                with open(path, 'rb') as file:
                    if file.read(4) == b'\x7fELF':
                        found.add(os.path.relpath(path, FILES).replace(os.sep, '/'))
        self.assertEqual(found, set(self.rows))

    def test_facts(self):
        for name, row in self.rows.items():
            with self.subTest(name):
                found = facts(Elf.open(stored(name)))
                more = ['type', 'class', 'order', 'machine', 'entry', 'refused', 'item', 'numbers', 'offset', 'text']
                self.assertEqual({fact: value for fact, value in found.items() if fact not in more}, row)
                self.assertEqual('refused' in found, bool(set(row['unknown']) - {'canary'}))

    def test_what_is_printed(self):
        for name, row in self.rows.items():
            with self.subTest(name), contextlib.redirect_stdout(io.StringIO()) as said:
                status = program.main([stored(name)])
                lines = dict(line.strip().split('  ', 1) for line in said.getvalue().splitlines()[1:])
                lines = {fact.strip(): value.strip() for fact, value in lines.items()}
                self.assertEqual(status, int('refused' in lines))
                for fact, value in {**row, **(row['sizes'] or {})}.items():
                    if fact not in ('unknown', 'sizes'):
                        self.assertEqual(lines.get(fact.replace('_', ' ')), 'unknown' if fact in row['unknown'] else shown(value), fact)

    def test_report(self):
        with tempfile.TemporaryDirectory() as folder, contextlib.redirect_stderr(io.StringIO()):
            for name in ('r.csv', 'r.json'):
                self.assertEqual(scan.main([*map(stored, self.rows), '-o', os.path.join(folder, name), '--workers', '0']), 0)
            with open(os.path.join(folder, 'r.csv'), newline='', encoding='utf-8') as file:
                found = list(csv.DictReader(file))
            with open(os.path.join(folder, 'r.json'), encoding='utf-8') as file:
                objects = json.load(file)
        self.assertEqual([row['file'] for row in found], [stored(name) for name in self.rows])
        for line, one, row in zip(found, objects, self.rows.values()):
            expected = {**dict.fromkeys(('code', 'data', 'read_only', 'zeros', 'not_loaded')), **row, **(row['sizes'] or {})}
            del expected['sizes']
            # (each cell that is empty since it is unknown is named)
            unknown = ' '.join(row['unknown']).replace('sizes', 'code data read_only zeros not_loaded')
            expected['unknown'] = unknown.split()
            self.assertEqual([line[name] for name in expected['unknown']], [''] * len(expected['unknown']))
            texts = {fact: {'compilers': '; '}.get(fact, ' ').join(value) if isinstance(value, list) else '' if value is None else str(value)
                     for fact, value in expected.items()}
            self.assertEqual({fact: line[fact] for fact in texts}, texts)
            # (JSON has what the command for some files prints)
            self.assertEqual({fact: one[fact] for fact in expected}, expected)
            described = program.described(one['file'])
            self.assertEqual({fact: described[fact] for fact in one if fact in described and fact != 'unknown'},
                             {fact: value for fact, value in one.items() if fact in described and fact != 'unknown'})


LINKED = ['soname', 'rpath', 'runpath', 'needed', 'pie', 'relro', 'bind_now']


def with_more(elf, more, kind, **fields):
    """Returns a file with more bytes, which are those of the first segment of a type."""
    longer = Elf(bytearray(elf.bytes) + more)
    replace(longer, kind, **{'p_offset': len(elf.bytes), **fields})
    return longer


class Facts(unittest.TestCase):
    def check(self, elf, unknown=None, **expected):
        """Whether some facts of a file are these, and which are unknown."""
        found = facts(elf)
        if unknown is not None:
            expected['unknown'] = unknown
        self.assertEqual({name: found[name] for name in expected}, expected)

    def test_what_is_unknown(self):
        elf, count = changed('facts/full'), 4097
        # a name that is not in the strings, strings and an interpreter that are not in the file, and more entries than are read
        for offset in (1 << 40, elf.dynamic_section.strings.size):
            put_value(elf, DT_NEEDED, offset)
            self.check(elf, ['needed'], refused='NO_STRING')
        put_value(elf, DT_STRSZ, 1 << 40)
        self.check(elf, ['runpath', 'needed'], refused='TOO_BIG')
        replace(elf, PT_INTERP, p_filesz=1 << 40)
        self.check(elf, ['interpreter', 'runpath', 'needed'], refused='STRTAB_RANGE')
        replace(elf, PT_DYNAMIC, p_filesz=0)
        self.check(elf, ['interpreter', *LINKED])
        for entries, unknown in ((count - 1, ['needed']), (count, LINKED)):
            self.check(with_more(changed('facts/full'), struct.pack('<QQ', 1, 1) * count, PT_DYNAMIC, p_filesz=16 * entries), unknown)

    def test_cut_files(self):
        """What is said of a part of a file is true of all of it, or unknown."""
        for name in ('facts/full', 'facts/static_pie', 'made/i386_program', 'made/s390x_library', 'made/x86_64_stripped', 'made/riscv64_object'):
            content = content_of(stored(name))
            whole, unknown = facts(Elf(content)), set()
            for length in range(64, len(content), 13):
                part = facts(Elf(content[:length]))
                said = {fact: part[fact] for fact in FACTS if fact not in part['unknown'] and fact != 'cut'}
                self.assertEqual(said, {fact: 'program or library' if part[fact] == 'program or library' else whole[fact] for fact in said})
                self.assertTrue(part['cut'] and set(whole['unknown']) <= set(part['unknown']))
                unknown.update(part['unknown'])
            self.assertLess({'segments', 'build_id'} if whole['segments'] else {'sections', 'sizes'}, unknown)

    def test_long_names(self):
        """A name is known if it has fewer than 4,096 bytes, and a build ID if it has at most 64."""
        elf = changed('facts/full')
        for name, expected in ((b'\xff' * 4095, '\udcff' * 4095), (b'\xff' * 4096, None), ('\xe9'.encode() * 2048, None)):
            longer = with_more(elf, name + bytes(8), PT_INTERP, p_filesz=len(name) + 1)
            self.check(longer, [] if expected else ['interpreter'], interpreter=expected)
            self.assertEqual(longer.interpreter, name.decode('utf-8', 'surrogateescape'))
        # (what of it would be read is in the file, and not all of it)
        replace(longer, PT_INTERP, p_filesz=len(name) + 100)
        self.check(longer, ['interpreter'], refused='STRTAB_RANGE')
        for size, unknown in ((64, []), (65, ['build_id'])):
            note = struct.pack('<III', 4, size, 3) + b'GNU\0' + b'\xab' * size + bytes(8)
            self.check(with_more(elf, note, PT_NOTE, p_filesz=16 + size, p_align=4), unknown, build_id=None if unknown else 'ab' * size)

    def test_notes_past_those_that_are_read(self):
        """A note is known if it is one of the first 65,536, with the segment that they are in, and its marks if they have at most 65,536 bytes."""
        note = lambda name, kind, desc: struct.pack('<III', 4, len(desc), kind) + name + desc
        elf, mark, build_id = changed('facts/full'), struct.pack('<III', 0xc0000002, 4, 1), 'ab000000'
        for more, size, *expected in ((65533, 12, build_id, ['IBT'], []), (65534, 12, build_id, None, ['control_flow']),
                                      (65535, 12, None, None, ['build_id', 'control_flow']), (0, 65536, build_id, ['IBT'], []),
                                      (0, 65540, build_id, None, ['control_flow'])):
            notes = note(b'ABC\0', 1, b'') * more + note(b'GNU\0', 3, b'\xab\0\0\0') + note(b'GNU\0', 5, mark.ljust(size, b'\0'))
            longer = with_more(elf, notes, PT_NOTE, p_filesz=len(notes), p_align=4)
            self.check(longer, expected[2], build_id=expected[0], control_flow=expected[1])
            self.assertEqual(longer.build_id, b'\xab\0\0\0')

    def test_names_past_those_that_are_read(self):
        """Compilers are known if all have at most 65,536 bytes, and a canary if its name is one of the first 64 that the strings have."""
        elf = changed('facts/two_compilers')
        comment = elf.section_by_name('.comment')
        for size, expected, unknown in ((65536, ['a'], []), (65537, None, ['compilers'])):
            longer = Elf(bytearray(elf.bytes) + (b'a\0' * 32769)[:size])
            longer.section_headers[comment.index] = comment.replace(sh_offset=len(elf.bytes), sh_size=size)
            self.check(longer, unknown, compilers=expected)
        for count, expected, unknown in ((63, True, []), (64, None, ['canary'])):
            self.check(self.with_names(b''.join(b'__stack_chk_guard@%d\0' % number for number in range(count))), unknown, canary=expected)

    def with_names(self, names):
        """Returns a file whose strings have more names, the last of which is that of its symbol of a canary."""
        elf = changed('facts/object')
        symbol, strings = elf.syms.symbol_by_name('__stack_chk_fail@GLIBC_2.4'), elf.section_by_type(SHT_SYMTAB).linked_section
        longer = Elf(bytearray(elf.bytes) + bytes(strings.data) + names)
        longer.section_headers[strings.index] = strings.replace(sh_offset=len(elf.bytes), sh_size=strings.sh_size + len(names))
        longer.syms[symbol.index] = symbol.replace(st_name=strings.sh_size + names.rindex(b'__'))
        return longer

    def test_headers_past_those_that_are_read(self):
        """Segments are known if there are at most 131,072, and sizes if there are at most 1,048,576 sections."""
        for count, known in ((1 << 17, True), ((1 << 17) + 1, False)):
            stack = struct.pack('<' + made.PHDR[64], PT_GNU_STACK, 6, 0, 0, 0, 0, 0, 0)
            elf = Elf(made.head(2, 128, 0xffff, 64, 1) + made.section_header(0, info=count) + bytes(56 * (count - 1)) + stack)
            unknown = ['build_id', 'interpreter', 'nx', 'relro', 'bind_now', 'writable_code', 'canary', 'control_flow', 'cut']
            self.check(elf, ['canary'] if known else unknown, nx=True if known else None, cut=False if known else None, segments=count)
        count = (1 << 20) + 1
        found = facts(Elf(made.head(1, shoff=64) + made.section_header(0, size=count) + bytes(64 * (count - 1))))
        self.assertEqual((found['sizes'], found['sections'], found['unknown'][-2:]), (None, count, ['cut', 'sizes']))

    def test_tables_past_those_that_are_searched(self):
        """A section, a segment or a symbol is looked for in at most 16,777,216, and a canary in 1 GiB of strings. (A sparse file may have more.)"""
        elf = changed('facts/object')
        table = elf.section_by_type(SHT_SYMTAB)
        more = Elf(bytearray(elf.bytes) + bytes(table.data) + bytes(12 * 24))
        more.section_headers[table.index] = table.replace(sh_offset=len(elf.bytes), sh_size=table.sh_size + 12 * 24)
        self.assertEqual((len(more.section_headers), len(more.syms), SEARCHED, marks.STRINGS), (13, 20, 1 << 24, 1 << 30))
        by_section = ['build_id', *LINKED[:4], 'canary', 'control_flow', 'compilers', 'stripped', 'symbols', 'dynamic_symbols']
        size = table.linked_section.sh_size
        for module, name, most, unknown in ((facts_module, 'SEARCHED', 20, []), (facts_module, 'SEARCHED', 19, ['canary']),
                                            (facts_module, 'SEARCHED', 12, by_section), (marks, 'STRINGS', size, []),
                                            (marks, 'STRINGS', size - 1, ['canary'])):
            with unittest.mock.patch.object(module, name, most):
                self.check(more, unknown, canary=None if unknown else True)
        stripped = changed('made/x86_64_stripped')
        self.assertEqual(len(stripped.program_headers), 8)
        for most, unknown in ((8, ['canary']), (7, [*LINKED, 'canary'])):
            with unittest.mock.patch.object(facts_module, 'SEARCHED', most):
                self.check(stripped, unknown)

    def test_more_sections_than_the_header_counts(self):
        count = 0xff10
        content = made.head(1, shoff=64) + made.section_header(0, size=count) + made.section_header(1, size=2) * (count - 1)
        found = facts(Elf(content))
        self.assertEqual((found['sections'], found['sizes']['not_loaded'], found['cut'], found['stripped']), (count, 2 * (count - 1), False, True))

    def test_small_files(self):
        """A section that ends with the file, one that ends after it, and one without bytes that lies past it, all without bytes in memory."""
        for offset, size, cut in ((192, 8, False), (192, 9, True), (200, 1, True), (1 << 60, 0, False)):
            self.check(Elf(made.head(1, shoff=64, shnum=2) + bytes(64) + made.section_header(1, offset, size) + bytes(8)), cut=cut)
        # (only a program or a library has a debug file)
        for kind, expected in ((1, 'object'), (2, 'debug file'), (3, 'debug file')):
            found = facts(Elf(made.head(kind, shoff=64, shnum=2) + bytes(64) + made.section_header(8, 1 << 60, 7, flags=2)))
            self.assertEqual((found['kind'], found['cut'], found['sizes']['zeros']), (expected, False, 7))

    def test_segments(self):
        elf = changed('facts/full')
        replace(elf, PT_GNU_STACK, p_flags=7, p_offset=1 << 40)
        self.check(elf, nx=False, writable_code=False, cut=False)
        # (a segment of type PT_NULL has no bytes)
        for fields, cut in (({'p_filesz': 1}, True), ({'p_type': 0}, False)):
            replace(elf, PT_GNU_STACK, **fields)
            self.check(elf, cut=cut)

    def test_canaries(self):
        # the name is that of a symbol, and all of it
        for change, expected in ((lambda name: name, True), (lambda name: name + 1, False), (lambda name: 0, False)):
            elf = changed('facts/object')
            symbol = elf.syms.symbol_by_name('__stack_chk_fail@GLIBC_2.4')
            elf.syms[symbol.index] = symbol.replace(st_name=change(symbol.st_name))
            self.check(elf, [], canary=expected)
        for name, expected in (('fail', True), ('fail_local', True), ('guard', True), ('guard@@A', True), ('failed', False), ('guards@A', False)):
            elf = changed('facts/object')
            put(elf, b'__stack_chk_fail@GLIBC_2.4', f'__stack_chk_{name}'.encode().ljust(26, b'\0'))
            self.check(elf, canary=expected)
        # (the first of these names in the strings may be that of no symbol)
        self.check(self.with_names(b'__stack_chk_guard\0'), canary=True)
        table = elf.section_by_type(SHT_SYMTAB)
        elf.section_headers[table.index] = table.replace(sh_type=1)
        self.check(elf, ['canary'], canary=None)

    def test_what_the_dynamic_section_says(self):
        """An ET_DYN is a program by DT_DEBUG or by DF_1_PIE, and it is bound at its start by a tag or by a flag of one of two."""
        for tag, value, *expected in ((21, 0, 'program', True, False, 'partial'), (0x6ffffffb, 1 << 27, 'program', True, False, 'partial'),
                                      (0x6ffffffb, 1, 'library', False, True, 'full'), (30, 8, 'library', False, True, 'full'),
                                      (24, 0, 'library', False, True, 'full'), (30, 1 << 27, 'library', False, False, 'partial')):
            elf = changed('facts/full')
            place = of_type(elf, PT_DYNAMIC).p_offset
            places = [place + 16 * entry.index for entry in elf.dynamic_section if entry.d_tag in (21, 30, 0x6ffffffb)]
            for at, number in zip(places, (tag, 0x60000000, 0x60000000)):
                elf.put_number(at, 8, number)
                elf.put_number(at + 8, 8, value)
            self.check(elf, **dict(zip(('kind', 'pie', 'bind_now', 'relro'), expected)))
        elf.put_header(elf.header.replace(e_type=0xfe00))
        self.check(elf, [], kind='other', nx=None)

    def test_slots(self):
        """PT_GNU_RELRO holds a slot exactly if it holds all of its bytes. The table has files whose slots were written at run time."""
        for name in ('closed_slots', 'closed_slots_pie', 'full'):
            elf = changed(f'facts/{name}')
            tables = [section.relocs for section in elf.section_headers if section.sh_type == SHT_RELA]
            slots = [slot.r_offset for table in tables for slot in table if slot.r_type in (7, 37)]
            first, last = min(slots), max(slots)
            for start, end, expected in ((first, last + 8, 'full'), (first + 1, last + 8, 'partial'), (first, last + 7, 'partial')):
                replace(elf, PT_GNU_RELRO, p_vaddr=start, p_memsz=end - start)
                self.check(elf, relro=expected, bind_now=True if name == 'full' else None)
            # (of two loaders take the last one)
            held, empty = of_type(elf, PT_GNU_RELRO).replace(p_memsz=last + 8 - first), of_type(elf, PT_GNU_STACK).replace(p_type=PT_GNU_RELRO)
            self.assertLess(empty.index, held.index)
            for earlier, later, expected in ((empty, held, 'full'), (held, empty, 'partial')):
                elf.program_headers[empty.index], elf.program_headers[held.index] = earlier, later
                self.check(elf, relro=expected)

    def test_slots_that_are_unknown(self):
        """Without tables that say where they are, with tables that are not in the file, and by a machine without a number."""
        elf = changed('facts/closed_slots')
        self.check(elf, ['canary'], relro='full')
        for changes in ({'e_shoff': 0, 'e_shnum': 0, 'e_shstrndx': 0}, {'e_machine': EM_MIPS}):
            elf.put_header(elf.header.replace(**changes))
            self.assertIn('relro', facts(elf)['unknown'])
            elf = changed('facts/closed_slots')
        replace(elf, PT_GNU_STACK, p_type=PT_INTERP, p_filesz=1)
        self.assertIn('relro', facts(elf)['unknown'])
        # (of a section that is not loaded they are no slots, and of one that is not in the file they are unknown)
        for fields, expected in (({'sh_flags': 0}, 'full'), ({'sh_offset': 1 << 40}, None)):
            elf = changed('facts/open_slots')
            section = elf.section_by_type(SHT_RELA)
            elf.section_headers[section.index] = section.replace(**fields)
            self.check(elf, relro=expected)
        for tag in (DT_JMPREL, DT_PLTRELSZ):
            elf = changed('facts/closed_slots_pie')
            put_value(elf, tag, 1 << 40)
            self.check(elf, ['relro', 'canary'])
        # (a slot is read of at most so many relocations, and sections of them)
        for file, name, most, expected in (('closed_slots_pie', 'RELOCATIONS', 2, 'full'), ('closed_slots_pie', 'RELOCATIONS', 1, None),
                                           ('closed_slots', 'ENTRIES', 1, 'full'), ('closed_slots', 'ENTRIES', 0, None)):
            with unittest.mock.patch.object(facts_module, name, most):
                self.check(changed(f'facts/{file}'), relro=expected)

    def test_types_of_slots(self):
        """They are those whose number a machine's supplement of the gABI has for R_.._IRELATIVE."""
        for machine, kind in ((62, 37), (183, 1032), (21, 248), (243, 58), (22, 61), (43, 249), (258, 12)):
            elf = changed('facts/open_slots')
            section = elf.section_by_type(SHT_RELA)
            for other, expected in ((kind, 'partial'), (kind + 1, 'full')):
                section.relocs[0] = section.relocs[0].replace(r_type=other)
                elf.put_header(changed('facts/open_slots').header.replace(e_machine=machine))
                self.check(elf, relro=expected)

    def test_marks(self):
        """The property of a machine may come after others, and end with the note."""
        other, cut = (1, 3, 0x00030303), (0xc0000002, 0, 3)
        for name, machine, wide, order, kind, names in (
                ('facts/full', 62, 8, '<', 0xc0000002, ['IBT', 'SHSTK']), ('made/i386_library', 3, 4, '<', 0xc0000002, ['IBT', 'SHSTK']),
                ('made/s390x_library', 183, 8, '>', 0xc0000000, ['BTI', 'PAC'])):
            for properties, expected in (((other, (kind, 4, 1)), names[:1]), (((kind, 4, 2),), names[1:]), ((other,), []), ((cut,), [])):
                desc = b''.join(struct.pack(order + 'III', *one).ljust(12 + (-4 % wide), b'\0') for one in properties)
                note = struct.pack(order + 'III', 4, len(desc), 5) + b'GNU\0' + desc
                longer = with_more(changed(name), note, PT_NOTE, p_filesz=len(note), p_align=wide)
                longer.put_header(longer.header.replace(e_machine=machine))
                self.check(longer, control_flow=expected)
        elf = changed('facts/full')
        put(elf, b'GNU\0\x02\0\0\xc0', b'GNV\0')
        self.check(elf, control_flow=[])

    def test_nothing_keeps_the_file(self):
        """Without a collection, also if facts are refused or unknown."""
        for name in os.listdir(stored('facts')):
            content = bytearray(content_of(stored(f'facts/{name}')))
            gc.collect()
            gc.disable()
            try:
                facts(Elf(content))
                content.append(0)
            finally:
                gc.enable()

    def test_compilers(self):
        elf = changed('facts/two_compilers')
        comment = bytes(elf.section_by_name('.comment').data)
        put(elf, comment, b'two\0LLD 9\0GNU ld 1\0one\0two\0GNU gold\0mold 1\0\xff'.ljust(len(comment), b'\0'))
        self.check(elf, compilers=['two', 'one', '\udcff'])


def put(elf, old, new):
    """Writes some bytes in place of the first ones that are the same as others."""
    start = bytes(elf.bytes).index(old)
    for index, byte in enumerate(new):
        elf.put_number(start + index, 1, byte)
