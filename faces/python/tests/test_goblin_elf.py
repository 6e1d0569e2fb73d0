"""Tests of goblin_elf over made files, whose values are those that the System V gABI gives their bytes, and over a stored program."""
import base64
import contextlib
import copy
import ctypes
import gc
import hashlib
import json
import mmap
import os
import pickle
import random
import re
import signal
import subprocess
import sys
import tempfile
import tracemalloc
import typing
import unittest
import unittest.mock
import zipfile

import goblin_elf
from goblin_elf import (EM_X86_64, PF_X, SHF_ALLOC, SHF_EXECINSTR, SHT_PROGBITS, SHT_RELA, SHT_SYMTAB, STT_FUNC, Elf, Item, Kind, Notes, Refused,
                        Strings, Symbols)
from goblin_elf import __main__ as program
from goblin_elf import _library, constants

import made
from parts import limit_memory, started

try:
    import numpy
except ImportError:
    numpy = None
    print('numpy is not installed, so arrays are not tested')

FOLDER = os.path.dirname(os.path.abspath(__file__))
MADE = made.ALL[2]


def refusal(function, *arguments, **expected):
    """Returns the refusal that a call raises, of which some fields are as expected. `text` is its text."""
    try:
        function(*arguments)
    except Refused as error:
        found = {name: str(error) if name == 'text' else getattr(error, name) for name in expected}
        if found != expected:
            raise AssertionError(f'{found} is not {expected}') from None
        return error
    raise AssertionError('it is not refused')


@contextlib.contextmanager
def in_file(content):
    """Yields a file on the disk that has some bytes."""
    with tempfile.NamedTemporaryFile() as file:
        file.write(content)
        file.flush()
        yield file


class Read(unittest.TestCase):
    """Each kind of item of the made files, of both classes and byte orders. (That each field is what pyelftools reads is in test_stored.py.)"""

    def each(self):
        return [(file, Elf(file.bytes)) for file in made.ALL]

    def test_header(self):
        for file, elf in self.each():
            header = elf.header
            self.assertEqual((header.ei_osabi, elf.is_64, elf.little_endian), (3, file.bits == 64, file.order == '<'))
            self.assertEqual(repr(elf), f'<Elf: ELF{file.bits} REL X86_64, {len(file.bytes)} bytes>')
            self.assertEqual(bytes(elf.bytes), file.bytes)
            # (what is read would still be that of the file)
            with self.assertRaises(AttributeError):
                elf.header = header.replace(e_shnum=0)
            self.assertEqual((elf.header, len(elf.section_headers)), (header, 9))

    def test_sections(self):
        for file, elf in self.each():
            self.assertEqual([[section.name for section in elf.section_headers], elf.section_headers.names()], [list(made.NAMES)] * 2)
            text, symbols, zeros = elf.section_by_name('.text'), elf.section_by_name(b'.symtab'), elf.section_headers[-2]
            self.assertEqual((text, text.index, bytes(text.data), goblin_elf.sht_to_str(text.sh_type)),
                             (elf.section_headers[1], 1, made.TEXT, 'SHT_PROGBITS'))
            self.assertEqual((symbols.index, symbols.linked_section.name), (2, '.strtab'))
            self.assertEqual((zeros.name, len(zeros.data), zeros.sh_size, zeros.linked_section), ('.bss', 0, 0x100, None))
            self.assertEqual((len(zeros.notes), zeros.strtab.get(0), refusal(zeros.number, 0, 1).kind), (0, None, Kind.BAD_OFFSET))
            self.assertEqual((elf.section_by_name('.debug'), elf.section_by_name('.text', 2), elf.section_by_type(3, 9)), (None, None, None))
            self.assertEqual([elf.section_by_type(*given).index for given in ((SHT_SYMTAB,), (3, 0), (3, 3), (3, 4), (3, 8))], [2, 3, 3, 8, 8])

    def test_segments(self):
        for file, elf in self.each():
            load, note = elf.program_headers
            self.assertEqual((load.p_offset, goblin_elf.pt_to_str(note.p_type)), (file.offsets['.text'][0], 'PT_NOTE'))
            self.assertEqual((bytes(load.data), load.p_flags & PF_X), (made.TEXT, 1))
            self.assertEqual((elf.address_to_offset(0x1010), elf.address_to_offset(0xfff)), (load.p_offset + 16, None))

    def test_symbols(self):
        for _, elf in self.each():
            names = [symbol[0] for symbol in made.SYMBOLS]
            self.assertEqual(([symbol.name for symbol in elf.syms], elf.syms.names()), (names, names))
            main, strings = elf.syms.symbol_by_name('main'), elf.section_by_name('.strtab').strtab
            self.assertEqual((main.index, main.st_type, main.st_bind), (1, STT_FUNC, goblin_elf.STB_GLOBAL))
            self.assertEqual((elf.syms[3].st_visibility, elf.syms.symbol_by_name('été').index), (goblin_elf.STV_HIDDEN, 5))
            found = [elf.syms.symbol_by_name(*given) for given in (('main', 1), ('main', 2), ('absent',))]
            self.assertEqual(found, [main, None, None])
            self.assertEqual((strings.get(main.st_name), strings.get_bytes(main.st_name + 1)), ('main', b'ain'))
            self.assertEqual((len(elf.dynsyms), elf.dynsyms.symbol_by_name('main')), (0, None))

    def test_symbol_of_an_address(self):
        # the address, and the symbol that contains it: after inner it is outer, which goes on, and after main the label
        for address, name in [(0x1003, None), (0x1004, 'main'), (0x100b, 'main'), (0x100c, None), (0x1010, 'label'), (0x101f, 'label'),
                              (0x1020, 'outer'), (0x1028, 'inner'), (0x102c, 'outer'), (0x1040, None), (0x400f, 'été'), (0x4010, None)]:
            for _, elf in self.each():
                loaded = Elf(elf.bytes, elf.header.replace(e_type=goblin_elf.ET_DYN))
                found = [symbol and symbol.name for symbol in (loaded.symbol_by_address(address), elf.symbol_by_address(address))]
                # (the file itself is relocatable, so the label would be at an offset of 0x1010, which is past its section)
                self.assertEqual(found, [name, None if name == 'label' else name], hex(address))

    def test_relocations(self):
        for _, elf in self.each():
            for name, has in [('.rela.text', True), ('.rel.text', False)]:
                table = elf.section_by_name(name).relocs
                expected = [(offset, symbol, addend if has else None, kind) for offset, symbol, kind, addend in made.RELOCATIONS]
                for relocations in (list(table), [table[0], table[1]]):
                    self.assertEqual([tuple(relocation.as_dict().values()) for relocation in relocations], expected)
                self.assertEqual([relocation.symbol.name for relocation in table], ['main', 'outer'])

    def test_notes(self):
        for _, elf in self.each():
            for notes in (elf.notes, elf.section_by_name('.note.gnu.build-id').notes, elf.program_headers[1].notes):
                self.assertEqual(self.words(notes), [(3, 'GNU', made.BUILD_ID)])
            self.assertEqual((elf.build_id, elf.build_id.hex()), (made.BUILD_ID, made.BUILD_ID.hex()))
            # (it may be in a section alone, though there is a segment of notes)
            changed = Elf(bytearray(elf.bytes))
            changed.program_headers[1] = changed.program_headers[1].replace(p_filesz=0)
            self.assertEqual((list(changed.notes), changed.build_id), ([], made.BUILD_ID))

    def words(self, notes):
        return [(note.n_type, note.name, bytes(note.desc)) for note in notes]

    def test_notes_of_any_names(self):
        """Those of annobin and of Go's linker: readelf -n names the owners GA*FORTIFY:0xff, \\xff, Go and GNU."""
        for file, elf in self.each():
            note = lambda name, kind, desc: file.pack('III', len(name), len(desc), kind) + b''.join(part + bytes(-len(part) % 4)
                                                                                                    for part in (name, desc))
            first, go = note(b'GA*FORTIFY\0\xff\0', 0x100, b'at'), note(b'Go\0\0', 4, b'of Go')
            content, places = bytearray(elf.bytes), []
            for notes in (first + note(b'\xff\0', 3, b''), go):
                content += bytes(-len(content) % 8) + notes
                places.append((len(content) - len(notes), len(notes)))
            changed = Elf(content)
            for index, (offset, size) in zip((4, 5), places):
                changed.section_headers[index] = changed.section_headers[index].replace(sh_type=7, sh_offset=offset, sh_size=size, sh_addralign=4)
            changed.program_headers[1] = changed.program_headers[1].replace(p_offset=places[1][0], p_filesz=places[1][1])
            any_names, of_go = [(0x100, 'GA*FORTIFY\0\udcff', b'at'), (3, '\udcff', b'')], [(4, 'Go', b'of Go')]
            self.assertEqual(self.words(changed.section_headers[4].notes), any_names)
            self.assertEqual(changed.section_headers[4].notes[0].name.encode('utf-8', 'surrogateescape'), b'GA*FORTIFY\0\xff')
            for notes in (changed.notes, changed.program_headers[1].notes, changed.section_headers[5].notes):
                self.assertEqual(self.words(notes), of_go)
            self.assertEqual(changed.build_id, made.BUILD_ID)
            changed.program_headers[1] = changed.program_headers[1].replace(p_type=1)
            self.assertEqual(self.words(changed.notes), [*any_names, *of_go, (3, 'GNU', made.BUILD_ID)])
            # (a name or descriptor past the end of its section is damage, whatever the name)
            for at, kind in ((0, Kind.TOO_BIG), (4, Kind.BAD_OFFSET)):
                damaged = Elf(bytearray(content))
                damaged.put_number(places[0][0] + len(first) + at, 4, 64)
                for read in (lambda: damaged.section_headers[4].notes, lambda: list(damaged.notes)):
                    self.assertEqual(refusal(read).kind, kind)

    def test_numbers(self):
        for file, elf in self.each():
            text, expected = elf.section_by_name('.text'), 0x13121110 if file.order == '<' else 0x10111213
            self.assertEqual((elf.number(18, 2), elf.number(24, file.bits // 8), elf.number(4, 1)), (62, 0x1004, file.bits // 32))
            self.assertEqual((text.number(16, 4), elf.program_headers[0].number(16, 4)), (expected, expected))
            self.assertEqual((refusal(text.number, 126, 4).kind, refusal(elf.number, len(file.bytes), 1).kind), (Kind.TOO_BIG, Kind.BAD_OFFSET))
            for width in (0, 3, 16):
                self.assertRaises(ValueError, elf.number, 0, width)


class Sequences(unittest.TestCase):
    def test_indices_and_slices(self):
        elf = Elf(MADE.bytes)
        for table, count in [(elf.section_headers, 9), (elf.program_headers, 2), (elf.syms, 7), (elf.section_by_name('.rela.text').relocs, 2),
                             (elf.section_by_name('.note.gnu.build-id').notes, 1)]:
            items = list(table)
            self.assertEqual((len(table), len(items)), (count, count))
            self.assertEqual([table[index] for index in range(-count, count)], items * 2)
            self.assertEqual((list(reversed(table)), table[::-1], table[1:], table[:-1:2]),
                             (items[::-1], items[::-1], items[1:], items[:-1:2]))
            for index in (count, -count - 1, 2 ** 62):
                self.assertRaises(IndexError, lambda: table[index])
            self.assertRaises(TypeError, lambda: table['0'])
            self.assertIn(items[0], table)
            self.assertEqual((table.index(items[-1]), table.count(items[0])), (count - 1, 1))
            self.assertRegex(repr(table), rf'{count} items')
            if not isinstance(table, Notes):
                self.assertIs(typing.get_type_hints(type(items[0])._public.table.fget)['return'], type(table))

    def test_items(self):
        elf, again = Elf(MADE.bytes), Elf(bytearray(MADE.bytes))
        for table in (lambda of: of.section_headers, lambda of: of.syms, lambda of: of.program_headers):
            item, same = table(elf)[1], table(again)[1]
            self.assertEqual((item, hash(item)), (same, hash(same)))
            self.assertFalse(item != same)
            for one in (item, item.replace(index=0)):
                self.assertRaises(AttributeError, setattr, one, list(item.as_dict())[0], 1)
                self.assertRaises(AttributeError, delattr, one, 'index')
            # (they are no sequences, and what is changed has the same type)
            for one in (item, item.replace(index=7)):
                self.assertNotIsInstance(one, tuple)
                self.assertEqual((one, type(one).__name__), (same, type(item).__name__))
                for use in (lambda: one[2], lambda: list(one), lambda: len(one), lambda: one.replace(other=1)):
                    self.assertRaises(TypeError, use)
            self.assertEqual([name for name in ('index', 'count') if callable(getattr(item, name, None))], [])
            self.assertRaises(TypeError, type(item), **item.as_dict())
        self.assertNotEqual(elf.syms[1], elf.syms[2])
        self.assertNotEqual(elf.syms[1], elf.syms[1].replace(st_other=1))
        self.assertFalse(elf.program_headers[0] == elf.section_headers[1])
        # (their order is that of the fields, too, also of items of two tables)
        first, second = sorted((elf.syms[1], again.syms[2]), key=lambda symbol: list(symbol.as_dict().values()))
        self.assertEqual((first < second, first <= second, first > second, first >= second), (True, True, False, False))
        self.assertEqual((first < first, first <= again.syms[first.index], first >= again.syms[first.index]), (False, True, True))
        self.assertEqual(sorted([*elf.syms, *again.syms])[:2], [elf.syms[0], again.syms[0]])
        self.assertRaises(TypeError, lambda: elf.program_headers[0] < elf.section_headers[1])
        # (that has an addend or none, and whose descriptor is in bytes that can be written)
        relocations = [*again.section_by_name('.rela.text').relocs, *elf.section_by_name('.rel.text').relocs]
        self.assertEqual([relocation.r_addend for relocation in sorted(relocations)], [None, -4, None, 0x7ffffff0])
        note, other = *elf.notes, *again.notes
        self.assertEqual((note, hash(note), {note}), (other, hash(other), {other}))
        less = other.replace(desc=memoryview(b'\0'))
        self.assertEqual((sorted([note, less]), max(less, other), note >= other, note == (3, 'GNU', note.desc)), ([less, note], other, True, False))
        self.assertIn("name='main', st_name=1, st_value=0x1004, st_size=8, st_shndx=1, st_info=0x12", repr(elf.syms[1]))
        self.assertIn("r_offset=0x10, r_sym=1, r_addend=-4, r_type=2, index=0", repr(elf.section_by_name('.rela.text').relocs[0]))
        self.assertIn('e_machine=0x3e', repr(elf.header))
        for value in (-1, 'text', 1.5, [], None):
            self.assertIn(f'Symbol(st_name={value}, st_value=0x1004, ', repr(elf.syms[1].replace(st_name=value)))

    def test_pickled_items(self):
        elf = Elf(MADE.bytes)
        header, note = pickle.loads(pickle.dumps((elf.header, elf.program_headers[1].notes[0])))
        self.assertEqual((header, isinstance(header, goblin_elf.Header), note.n_type, note.name, note.desc.hex()),
                         (elf.header, True, 3, 'GNU', made.BUILD_ID.hex()))
        self.assertEqual(goblin_elf.Header(**header.as_dict()), header)
        for table in (elf.section_headers, elf.program_headers, elf.syms, elf.section_by_name('.rela.text').relocs):
            for what in (elf, table, table[1], table[0], elf.section_by_name('.strtab').strtab, Notes(elf, *elf.program_headers[1]._place, 4)):
                self.assertRaisesRegex(TypeError, '^a file, its tables and their items can not be pickled: ', pickle.dumps, what)
            self.assertEqual(copy.copy(table[1]), table[1])
            self.assertEqual(pickle.loads(pickle.dumps(table[1].as_dict())), table[1].as_dict())

    def test_many_items(self):
        # more symbols than one call reads: each has its index as its value
        count = 3 * 4096 + 5
        entries = b''.join(MADE.pack(made.SYM[64], 0, 0, 0, 1, index, 0) for index in range(count))
        symbols = Symbols(Elf(MADE.bytes + entries), len(MADE.bytes), len(entries) + 23)
        self.assertEqual([symbol.st_value for symbol in symbols], list(range(count)))
        self.assertEqual([symbol.st_value for symbol in reversed(symbols)], list(range(count))[::-1])
        self.assertEqual([(symbol.index, symbol.st_value) for symbol in symbols[4090:8200]], [(i, i) for i in range(4090, 8200)])


class Refusals(unittest.TestCase):
    def test_of_headers(self):
        # the bytes, the kind, its numbers and the text of the library
        magic = MADE.bytes[:4]
        for content, kind, numbers in [
                (b'', Kind.TOO_SMALL, ()), (magic + bytes(11), Kind.TOO_SMALL, ()), (bytes(16), Kind.BAD_MAGIC, (0,)),
                (magic + bytes([3, 1]) + bytes(10), Kind.ELF_CLASS, (3,)), (magic + bytes([2, 3]) + bytes(10), Kind.DATA_TYPE, (3,)),
                (MADE.bytes[:63], Kind.TOO_BIG, (64, 63))]:
            error = refusal(Elf, content)
            self.assertEqual((error.kind, error.numbers, error.offset, error.item), (kind, numbers, 0, None))
            self.assertIsInstance(error, ValueError)
        self.assertEqual(str(refusal(Elf, bytes(16))), 'Invalid magic number: 0x0')
        # (a later library of this interface may have more kinds)
        later = Refused('text', 99, 9, (1, 2, 3, 4), 5)
        self.assertEqual((later.kind, later.kind.name, str(later.item), later.numbers), (99, 'OTHER_99', 'OTHER_9', (1, 2, 3, 4)))
        self.assertRaises(ValueError, Kind, 'BAD_MAGIC')

    def test_of_lists(self):
        cut = Elf(MADE.bytes[:-1])
        for read in (lambda: cut.section_headers, lambda: cut.syms, lambda: cut.section_by_name('.text')):
            refusal(read, kind=Kind.TOO_BIG, numbers=(64, 63), offset=cut.header.e_shoff)
        many = Elf(MADE.bytes, Elf(MADE.bytes).header.replace(e_shnum=60000))
        error = refusal(lambda: many.section_headers)
        self.assertEqual((error.kind, error.item, error.numbers), (Kind.BUFFER_TOO_SHORT, Item.SECTION_HEADERS, (60000,)))
        self.assertEqual(str(error), 'Buffer is too short for 60000 section headers')
        self.assertEqual(refusal(lambda: Symbols(cut, len(MADE.bytes), 24)).kind, Kind.SYMTAB_OFFSET)
        self.assertEqual(refusal(lambda: Symbols(cut, 0, 1 << 20)).kind, Kind.SYMTAB_PAST)

    def test_of_types_and_strings(self):
        elf = Elf(MADE.bytes)
        for name, expected in (('symtab', 'symbols'), ('relocs', 'relocations')):
            error = refusal(getattr, elf.section_by_name('.text'), name)
            self.assertEqual((error.kind, error.numbers, str(error)),
                             (Kind.SECTION_TYPE, (1,), f'A section of type 0x1 (SHT_PROGBITS) holds no {expected}'))
        self.assertEqual(refusal(Strings(elf, 1 << 40, 1).get, 0).kind, Kind.STRTAB_OFFSET)
        self.assertEqual(refusal(Strings(elf, 64, 1 << 40).get, 0).kind, Kind.STRTAB_RANGE)
        odd = Strings(Elf(MADE.bytes + b'caf\xe9\0'), len(MADE.bytes), 5)
        refusal(odd.get, 0, kind=Kind.BAD_INPUT, item=Item.INVALID_UTF8, offset=len(MADE.bytes))
        self.assertEqual((odd.get_bytes(0), odd.get(0, 'replace'), odd.get(0, 'surrogateescape')), (b'caf\xe9', 'caf\ufffd', 'caf\udce9'))
        self.assertEqual((odd.get(1, 'ignore'), odd.get(5), odd.get_all([4, 5, 9])), ('af', None, ['', None, None]))
        refusal(odd.get_all, [4, 0], kind=Kind.BAD_INPUT, offset=len(MADE.bytes))
        self.assertEqual(odd.get_all([4, 0, 5, 2], 'surrogateescape'), ['', 'caf\udce9', None, 'f\udce9'])
        self.assertEqual(refusal(Strings(elf, 64, 1 << 40).get_all, [0], 'replace').kind, Kind.STRTAB_RANGE)
        for read in (odd.get_all, lambda offsets, errors: odd.get(offsets[1], errors)):
            self.assertEqual(refusal(read, [4, 0], 'surrogatepass').item, Item.INVALID_UTF8)
        self.assertEqual(Strings(Elf(MADE.bytes + b'\xed\xa0\x80'), len(MADE.bytes), 3).get(0, 'surrogatepass'), '\ud800')
        # (many are refused from the first one on that no zero byte closes)
        names = Strings(Elf(MADE.bytes + b'a\0end'), len(MADE.bytes), 5)
        self.assertEqual((names.get(2), names.get_all([0, 5, 1, 0])), ('end', ['a', None, '', 'a']))
        for errors in ('strict', 'replace'):
            error = refusal(names.get_all, [0, 5, 3, 2], errors)
            self.assertEqual((error.kind, error.numbers, error.offset, str(error)),
                             (Kind.OPEN_STRING, (3,), len(MADE.bytes) + 3, 'No zero byte closes the string at offset 3 of its table'))

    def test_of_strings_in_place(self):
        names = Strings(Elf(MADE.bytes + b'caf\xe9\0end'), len(MADE.bytes), 8)
        self.assertTrue(names.is_at(0, b'caf\xe9') and names.is_at(0, 'caf\udce9') and names.is_at(4, '') and names.is_at(5, 'end'))
        self.assertFalse(names.is_at(0, 'caf') or names.is_at(0, b'caf\xe9\0') or names.is_at(0, 'caf\xe9') or names.is_at(8, ''))
        self.assertTrue(names.starts_at(0, 'caf') and names.starts_at(0, b'caf\xe9') and names.starts_at(7, '') and names.starts_at(5, 'e'))
        self.assertFalse(names.starts_at(0, 'af') or names.starts_at(5, 'ends') or names.starts_at(8, '') or names.starts_at(4, '\0'))
        self.assertTrue(names.is_at(0, bytearray(b'caf\xe9')) and names.starts_at(0, memoryview(b'caf')))
        self.assertRaises(TypeError, names.is_at, 0, 1)
        self.assertEqual([names.get_closed_bytes(offset) for offset in (0, 4, 5, 8)], [b'caf\xe9', b'', None, None])
        self.assertEqual((names.closed.offset, names.closed.size, names.closed.closed.size), (len(MADE.bytes), 5, 5))
        self.assertEqual(Strings(Elf(MADE.bytes + b'end'), len(MADE.bytes), 3).closed.size, 0)
        starts = [names.get_start(*given) for given in ((0, 2), (0, 4), (0, 9), (4, 1), (5, 9), (5, 0), (8, 1))]
        self.assertEqual(starts, [b'ca', b'caf\xe9', b'caf\xe9', b'', b'end', b'', None])
        past = Strings(Elf(MADE.bytes), 64, 1 << 40)
        for read in (Strings.get_closed_bytes, lambda table, offset: table.is_at(offset, 'a'), lambda table, offset: table.starts_at(offset, ''),
                     lambda table, offset: table.get_start(offset, 1)):
            self.assertEqual(refusal(read, past, 0).kind, Kind.STRTAB_RANGE)
            self.assertRaises(ValueError, read, names, -1)
        self.assertEqual(refusal(lambda: past.closed).kind, Kind.STRTAB_RANGE)

    def test_names_that_are_not_utf_8_are_found(self):
        changed = bytearray(MADE.bytes)
        for names, old, new in ((MADE.offsets['.strtab'], b'main', b'caf\xe9'), (MADE.offsets['.shstrtab'], b'.text', b'.te\xffx')):
            at = MADE.bytes.index(old, names[0])
            changed[at:at + len(old)] = new
        elf = Elf(changed)
        self.assertEqual((elf.syms.symbol_by_name('main'), elf.section_by_name('.text')), (None, None))
        for name in (b'caf\xe9', 'caf\udce9'):
            self.assertEqual(elf.syms.symbol_by_name(name).index, Elf(MADE.bytes).syms.symbol_by_name('main').index)
        self.assertEqual(elf.section_by_name(b'.te\xffx').index, Elf(MADE.bytes).section_by_name('.text').index)

    def test_of_notes(self):
        offset, size = MADE.offsets['.note.gnu.build-id']
        changed = bytearray(MADE.bytes)
        changed[offset + 4:offset + 8] = b'\xff\xff\xff\x7f'
        refusal(lambda: Elf(changed).section_by_name('.note.gnu.build-id').notes, kind=Kind.TOO_BIG, offset=offset)
        self.assertEqual(refusal(lambda: Elf(changed).build_id).kind, Kind.TOO_BIG)

    def test_of_names_of_notes(self):
        offset, size = MADE.offsets['.note.gnu.build-id']
        changed = bytearray(MADE.bytes)
        changed[offset + 12:offset + 15] = b'\xe9N\0'
        elf = Elf(changed)
        refusal(Notes, elf, offset, size, 4, kind=Kind.BAD_INPUT, item=Item.INVALID_UTF8)
        self.assertEqual([note.name for note in Notes(elf, offset, size, 4, 'surrogateescape')], ['\udce9N'])
        self.assertEqual(refusal(list, Notes(elf, offset, size, 4, 'surrogatepass')).item, Item.INVALID_UTF8)
        refusal(Notes, elf, offset, size - 1, 4, 'replace', kind=Kind.TOO_BIG, item=Item.NOTE_DESC, offset=offset)
        changed[offset + 12:offset + 15] = b'n\xc3\xa9'
        self.assertEqual([note.name for note in Notes(Elf(changed), offset, size, 4)], ['n\xe9'])
        # (names whose last byte is not zero, and one without bytes)
        changed[offset + 12:offset + 16] = b'ABCD'
        for length, strict, whole in ((4, 'ABC', 'ABCD'), (1, '', 'A'), (0, '', '')):
            Elf(changed).put_number(offset, 4, length)
            end = size if length else size - 4
            found = [Notes(Elf(changed), offset, end, 4, *errors)[0].name for errors in ((), ('surrogateescape',))]
            self.assertEqual(found, [strict, whole])

    def test_it_can_be_pickled(self):
        error = refusal(Elf, bytes(16))
        again = pickle.loads(pickle.dumps(error))
        self.assertEqual((str(again), again.kind, again.numbers, again.offset), (str(error), error.kind, error.numbers, error.offset))

    def test_names_of_kinds(self):
        error = refusal(Elf, MADE.bytes[:63])
        self.assertEqual((str(error.kind), f'{error.kind} {error.kind:#x} {error.kind:2}', repr(error.kind)),
                         ('TOO_BIG', 'TOO_BIG 0x3  3', '<Kind.TOO_BIG: 3>'))
        self.assertEqual((str(Item.NOTE_NAME), int(Kind.BAD_OFFSET), Kind.BAD_OFFSET == 4), ('NOTE_NAME', 4, True))


class Cut(unittest.TestCase):
    """The whole part of a cut file."""

    def test_headers(self):
        for file in made.ALL:
            size = file.size(made.SHDR)
            for length, count in [(0, 9), (1, 8), (size, 8), (size + 1, 7), (8 * size, 1), (9 * size, 0)]:
                cut = Elf(file.bytes[:len(file.bytes) - length])
                whole = cut.whole()
                self.assertEqual(list(whole.section_headers), Elf(file.bytes).section_headers[:count])
                self.assertEqual(len(whole.program_headers), 2)
                if count == 9:
                    self.assertEqual(whole.header, cut.header)

    def test_bytes(self):
        offset = MADE.offsets['.text'][0]
        elf = Elf(MADE.bytes)
        cut = Elf(MADE.bytes[:offset + 20], elf.header)
        for item in (elf.section_by_name('.text'), elf.program_headers[0]):
            part = item.replace(table=copy.copy(item.table))
            part.table.elf = cut
            self.assertEqual(bytes(part.readable_data), made.TEXT[:20])
            self.assertEqual(refusal(lambda: part.data).kind, Kind.TOO_BIG)
            self.assertEqual(bytes(item.readable_data), made.TEXT)


class Names(unittest.TestCase):
    """Names that are read many at once are those that are there, whatever the order in which they are asked for."""
    # (the third text is not UTF-8, and the last one ends at the end of the table)
    STRINGS = b'\0main\0\xff\xfe\0\xc3\xa9t\xc3\xa9\0a_name\0' + bytes(range(65, 91)) * 3

    def table(self, offsets, strings=STRINGS, buffer=bytes):
        """Returns a table of symbols whose names begin at offsets of strings, in a file of its own."""
        symbols = b''.join(MADE.symbol(offset, '', 0, 0, 0, 0, 0, 0) for offset in offsets)
        elf, start = Elf(buffer(MADE.bytes + symbols + strings)), len(MADE.bytes)
        return Symbols(elf, start, len(symbols), Strings(elf, start + len(symbols), len(strings)))

    def offsets(self, count, *more):
        """Returns offsets of all kinds in no order."""
        chance = random.Random(1)
        places = [*range(len(self.STRINGS)), *more]
        return [chance.choice(places) for _ in range(count)]

    def expected(self, offset, errors='strict', strings=STRINGS):
        """Returns the text at an offset, by Python alone, or `None`. Raises a UnicodeDecodeError."""
        return strings[offset:].split(b'\0')[0].decode('utf-8', errors) if offset < len(strings) else None

    def check(self, item):
        try:
            wanted = self.expected(item.st_name)
        except UnicodeDecodeError:
            error = refusal(lambda: item.name)
            self.assertEqual((error.kind, error.item), (Kind.BAD_INPUT, Item.INVALID_UTF8))
            self.assertEqual(error.offset, int.from_bytes(item.table.strtab._range[:8], sys.byteorder) + item.st_name)
        else:
            self.assertEqual(item.name, wanted)

    def test_each_order(self):
        chance = random.Random(2)
        for count in (1, 63, 64, 65, 2048, 5000):
            table = self.table(self.offsets(count, len(self.STRINGS), (1 << 32) - 1))
            items = list(table)
            for order in (table, items, reversed(table), items[::3], items[::100], chance.sample(items, count), [table[-1], table[0]]):
                for item in order:
                    self.check(item)
            self.check(items[-1].replace(st_name=1))
            closed = self.table([item.st_name for item in items], self.STRINGS + b'\0')
            self.assertEqual(closed.names('replace'), [self.expected(item.st_name, 'replace', self.STRINGS + b'\0') for item in items])
            self.assertEqual(closed.strtab.get_all((item.st_name for item in items), 'replace'), closed.names('replace'))
        self.assertEqual((refusal(closed.names).kind, refusal(table.names, 'replace').kind), (Kind.BAD_INPUT, Kind.OPEN_STRING))
        # (a table with a long string is read otherwise)
        for size in (1 << 14, (1 << 14) + 1):
            strings = b'main\0' + b'a' * size + b'\0'
            places = [*range(8), size, size + 4, size + 5, size + 6, size + 7, 0, 5]
            self.assertEqual(self.table(places, strings).names(), [self.expected(place, 'strict', strings) for place in places])

    def test_number_of_calls(self):
        offsets, strings = range(0, 6000), b'ab\0' * 2000
        for read, calls in [(lambda table: table.names(), 3), (lambda table: [item.name for item in table], 7),
                            (lambda table: [item.name for item in table[::5]], 7), (lambda table: [item.name for item in table[::9]], 1),
                            (lambda table: [item.name for item in reversed(table)], 0), (lambda table: [table[4000].name], 0)]:
            table, count, function = self.table(offsets, strings), [], _library.FUNCTIONS['strings']
            with unittest.mock.patch.dict(_library.FUNCTIONS, strings=lambda *arguments: count.append(1) or function(*arguments)):
                self.assertTrue(set(read(table)) <= {'ab', 'b', ''})
            self.assertEqual(len(count), calls)

    def test_bytes_that_change(self):
        for buffer in (bytearray, lambda content: memoryview(bytearray(content)).toreadonly()):
            table = self.table([1] * 100, buffer=buffer)
            content = table.elf.bytes.obj
            for name in ('main', 'pain'):
                content[content.index(b'ain\0' + b'\xff') - 1] = ord(name[0])
                self.assertEqual([item.name for item in table], [name] * 100)

    def test_long_names_take_no_more_memory_than_one(self):
        size = 1 << 20
        table = self.table(range(4096), b'a' * size)
        tracemalloc.start()
        self.assertEqual([len(item.name) for item in table[:70]], [size - index for index in range(70)])
        self.assertLess(tracemalloc.get_traced_memory()[1], 1 << 26)
        tracemalloc.stop()


class Written(unittest.TestCase):
    """What is written back, and what is not."""

    def check(self, file, changed, offset, size):
        """Whether only the bytes of a record changed."""
        self.assertNotEqual(changed[offset:offset + size], file.bytes[offset:offset + size])
        self.assertEqual(changed[:offset] + changed[offset + size:], file.bytes[:offset] + file.bytes[offset + size:])

    def test_items(self):
        # the table, the index, a field, its new value, and where the record is
        for file in made.ALL:
            cases = [(lambda elf: elf.section_headers, 1, 'sh_flags', 7, file.shoff, made.SHDR),
                     (lambda elf: elf.program_headers, 1, 'p_flags', 6, file.phoff, made.PHDR),
                     (lambda elf: elf.syms, 3, 'st_value', 0x2000, file.offsets['.symtab'][0], made.SYM),
                     (lambda elf: elf.section_by_name('.rela.text').relocs, 1, 'r_addend', -8, file.offsets['.rela.text'][0], made.RELA),
                     (lambda elf: elf.section_by_name('.rel.text').relocs, 1, 'r_sym', 4, file.offsets['.rel.text'][0], made.REL)]
            for table_of, index, field, value, start, form in cases:
                changed = bytearray(file.bytes)
                table = table_of(Elf(changed))
                same = table[index]
                table[index] = same
                self.assertEqual(changed, file.bytes)
                table[index] = same.replace(**{field: value})
                self.assertEqual(getattr(table[index], field), value)
                self.check(file, changed, start + index * file.size(form), file.size(form))

    def test_what_does_not_fit(self):
        file = made.ALL[0]
        changed = bytearray(file.bytes)
        symbols = Elf(changed).syms
        error = refusal(symbols.__setitem__, 1, symbols[1].replace(st_value=1 << 32))
        place = file.offsets['.symtab'][0] + file.size(made.SYM) + 4
        self.assertEqual((error.kind, error.numbers, error.offset), (Kind.INTEGER_FIT, (1 << 32,), place))
        for one in made.ALL:
            self.check_narrow(one)
        relocations = Elf(changed).section_by_name('.rel.text').relocs
        for value in (1 << 64, -1):
            self.assertRaises(ValueError, symbols.__setitem__, 1, symbols[1].replace(st_value=value))
        for value, name in ((5.0, 'float'), ('text', 'str'), (None, 'NoneType')):
            with self.assertRaisesRegex(TypeError, f'^st_value is a {name}, and must be an integer$'):
                symbols[1] = symbols[1].replace(st_value=value)
        self.assertRaises(IndexError, symbols.__setitem__, 7, symbols[1])
        self.assertRaises(TypeError, symbols.__setitem__, 1, relocations[1])
        self.assertRaises(TypeError, symbols.__setitem__, slice(1, 2), symbols[1])
        self.assertEqual(changed, file.bytes)

    def check_narrow(self, file):
        """Whether numbers are refused that a file of any class has no field for, and addends that do not match their table."""
        changed = bytearray(file.bytes)
        elf, word = Elf(changed), file.bits // 8
        rela, rel = elf.section_by_name('.rela.text').relocs, elf.section_by_name('.rel.text').relocs
        of_rela, of_rel, symbols = (file.offsets[name][0] for name in ('.rela.text', '.rel.text', '.symtab'))
        for table, index, field, value, place in [
                (elf.section_headers, 2, 'sh_name', 0x100000003, file.shoff + 2 * file.size(made.SHDR)),
                (elf.syms, 1, 'st_name', 0x100000003, symbols + file.size(made.SYM)),
                (elf.syms, 1, 'st_shndx', 0x10003, symbols + file.size(made.SYM) + (14 if word == 4 else 6)),
                (rela, 1, 'r_sym', 0x100000003, of_rela + 4 * word), (rela, 0, 'r_addend', None, of_rela + 2 * word),
                (rel, 0, 'r_addend', 0, of_rel + 2 * word), (rel, 0, 'r_addend', -3, of_rel + 2 * word)]:
            error = refusal(table.__setitem__, index, table[index].replace(**{field: value}))
            number = (value or 0) % (1 << 64)
            self.assertEqual((error.kind, error.numbers, error.offset), (Kind.INTEGER_FIT, (number,), place))
            self.assertEqual(error.item, Item.ADDEND if field == 'r_addend' else None)
            self.assertEqual(str(error), 'Malformed entity: Integer do not fit: out of range integral type conversion attempted'
                             + (f': {number} at offset {place}' if number else ''))
        self.assertEqual(changed, file.bytes)

    def test_header_and_numbers(self):
        for file in made.ALL:
            changed = bytearray(file.bytes)
            elf = Elf(changed)
            elf.put_header(elf.header)
            self.assertEqual(changed, file.bytes)
            elf.put_header(elf.header.replace(e_entry=0x2000))
            self.assertEqual((elf.header.e_entry, Elf(changed).header.e_entry), (0x2000, 0x2000))
            self.check(file, changed, 24, file.bits // 8)
            elf.put_number(24, 4 if file.bits == 32 else 8, 0x1004)
            self.assertEqual(changed, file.bytes)
            self.assertEqual(refusal(elf.put_number, 24, 2, 1 << 16).kind, Kind.INTEGER_FIT)
            self.assertEqual(refusal(elf.put_header, elf.header.replace(ei_class=3)).kind, Kind.INVALID_CLASS)
            self.assertEqual(refusal(elf.put_header, elf.header.replace(ei_data=0)).kind, Kind.DATA)
            self.assertRaises(ValueError, elf.put_number, 24, 3, 1)
            for call in (elf.put_header, lambda wrong: Elf(changed, wrong)):
                for wrong in (elf.header.as_dict(), 7, *([None] if call == elf.put_header else [])):
                    self.assertRaisesRegex(TypeError, f'^a header is a Header, .* and no {type(wrong).__name__}$', call, wrong)
            text = elf.section_by_name('.text')
            before = text.number(2, 2)
            text.put_number(2, 2, before ^ 0x1234)
            self.assertEqual(text.number(2, 2), before ^ 0x1234)
            self.check(file, changed, text.sh_offset + 2, 2)
            text.put_number(2, 2, before)
            self.assertEqual(refusal(text.put_number, text.sh_size, 1, 0).kind, Kind.BAD_OFFSET)
            self.assertEqual(refusal(text.put_number, 2, 2, 1 << 16).offset, text.sh_offset + 2)
            self.assertRaises(ValueError, text.put_number, 2, 3, 1)
            self.assertEqual(refusal(elf.section_by_name('.bss').put_number, 0, 1, 0).kind, Kind.BAD_OFFSET)
            self.assertEqual(changed, file.bytes)

    def test_read_only_bytes_stay(self):
        for buffer in (MADE.bytes, memoryview(MADE.bytes), memoryview(bytearray(MADE.bytes)).toreadonly()):
            elf = Elf(buffer)
            symbols = elf.syms
            self.assertRaises(TypeError, symbols.__setitem__, 1, symbols[2])
            self.assertRaises(TypeError, elf.put_header, elf.header)
            self.assertRaises(TypeError, elf.put_number, 0, 1, 0)
            self.assertEqual(bytes(buffer), MADE.bytes)
        self.assertRaises(TypeError, lambda: elf.bytes.__setitem__(0, 1))

    def test_mapped_file(self):
        with in_file(MADE.bytes) as file:
            symbols = Elf(mmap.mmap(file.fileno(), 0)).syms
            symbols[1] = symbols[1].replace(st_size=9)
            with open(file.name, 'rb') as again:
                self.assertEqual(Elf(again.read()).syms[1].st_size, 9)


class Memory(unittest.TestCase):
    """What lives as long as something needs it."""

    def test_views_hold_the_file(self):
        # (a small file is read, and the other one mapped)
        for content in (MADE.bytes, MADE.bytes.ljust(1 << 16, b'\0')):
            with in_file(content) as file:
                elf = Elf.open(file.name)
                text, build_id, symbol, strings = elf.section_by_name('.text').data, elf.build_id, elf.syms[1], elf.section_by_name('.strtab').strtab
                del elf
                gc.collect()
            self.assertEqual((bytes(text), bytes(build_id)), (made.TEXT, made.BUILD_ID))
            self.assertEqual((symbol.name, strings.get(1)), ('main', 'main'))

    def test_buffers_can_not_go(self):
        with in_file(MADE.bytes) as file:
            mapped = mmap.mmap(file.fileno(), 0, access=mmap.ACCESS_READ)
            elf = Elf(mapped)
            self.assertRaises(BufferError, mapped.close)
            self.assertEqual(elf.syms[1].name, 'main')
            del elf
            gc.collect()
            mapped.close()
        buffer = bytearray(MADE.bytes)
        elf = Elf(buffer)
        self.assertRaises(BufferError, buffer.append, 0)
        self.assertEqual(len(elf.section_headers), 9)

    def test_a_file_that_is_cut(self):
        # (a small file is read; the array of a mapped one has memory of its own)
        for content, copy in [(MADE.bytes, False), (MADE.bytes, True), (MADE.bytes.ljust(1 << 16, b'\0'), True)]:
            with in_file(content) as file:
                elf = Elf.open(file.name, copy=copy)
                array = Elf.open(file.name).syms.array() if numpy else None
                os.truncate(file.name, 0)
                self.assertEqual((len(elf.section_headers), elf.syms[1].name), (9, 'main'))
                if numpy:
                    self.assertEqual(list(array['st_value']), [symbol[1] for symbol in made.SYMBOLS])
                self.assertEqual(refusal(Elf.open, file.name).kind, Kind.TOO_SMALL)

    def test_a_file_that_is_emptied_as_it_is_opened(self):
        with tempfile.NamedTemporaryFile() as file:
            file.truncate(1 << 16)
            status = os.stat(file.name)
            file.truncate(0)
            with unittest.mock.patch.object(os, 'fstat', lambda descriptor: status):
                self.assertEqual(refusal(Elf.open, file.name).kind, Kind.TOO_SMALL)

    def test_a_mapped_file_that_is_cut_ends_the_process(self):
        with in_file(MADE.bytes.ljust(1 << 16, b'\0')) as file:
            script = f'import os; from goblin_elf import Elf; e = Elf.open({file.name!r}); os.truncate({file.name!r}, 0); list(e.section_headers)'
            self.assertEqual(subprocess.run([sys.executable, '-c', script]).returncode, -signal.SIGBUS)

    def test_what_is_no_regular_file(self):
        ends = os.pipe()
        os.write(ends[1], MADE.bytes)
        os.close(ends[1])
        self.assertEqual(Elf.open(f'/dev/fd/{ends[0]}').syms[1].name, 'main')
        os.close(ends[0])
        self.assertRaises(OSError, Elf.open, FOLDER)
        # (as with lief and pyelftools)
        with open(os.devnull, 'rb') as file:
            for wrong in ('text', file):
                self.assertRaisesRegex(TypeError, 'Elf.open its path', Elf, wrong)

    def test_threads(self):
        elf = Elf(MADE.bytes)
        symbols, strings = elf.syms, elf.section_by_name('.strtab').strtab
        expected, wrong = [symbol[0] for symbol in made.SYMBOLS], []

        def read():
            for _ in range(150):
                if symbols.names() != expected or [symbol.name for symbol in symbols] != expected or strings.get(1) != 'main':
                    wrong.append(1)
                if refusal(Elf, bytes(16)).kind != Kind.BAD_MAGIC or elf.section_headers[1].name != '.text':
                    wrong.append(1)

        for thread in started(lambda _: read(), range(8)):
            thread.join()
        self.assertEqual(wrong, [])


@unittest.skipUnless(numpy, 'numpy is not installed')
class Arrays(unittest.TestCase):
    def test_fields(self):
        for file in made.ALL:
            elf = Elf(file.bytes)
            for table in (elf.section_headers, elf.program_headers, elf.syms):
                array = table.array()
                for field in table.record.fields:
                    self.assertEqual(array[field].tolist(), [getattr(item, field) for item in table])
            array = elf.section_by_name('.rela.text').relocs.array()
            self.assertEqual(array['r_addend'].tolist(), [relocation[3] for relocation in made.RELOCATIONS])
            self.assertEqual(array.dtype.names, ('r_offset', 'r_sym', 'r_addend', 'r_type'))
            self.assertTrue(elf.syms.array().flags.owndata)
            self.assertEqual(elf.dynsyms.array().shape, (0,))
            self.assertEqual(elf.program_headers[1].notes.array()[['n_type', 'desc_size']].tolist(), [(3, 20)])


class Library(unittest.TestCase):
    """The library itself: a wrong one is refused, and its constants and names are those of the standard."""

    def load(self, path):
        found = subprocess.run([sys.executable, '-c', 'import goblin_elf'], env={**os.environ, 'GOBLIN_ELF_LIBRARY': path},
                               stderr=subprocess.PIPE, universal_newlines=True)
        return found.returncode, found.stderr.strip().split('\n')[-1]

    def test_a_wrong_library(self):
        # what is not there, what is no library, and what is another one
        for path, expected in [('/nonexistent', 'No such file or directory'), (__file__, 'invalid ELF header'),
                               ('libc.so.6', 'undefined symbol: goblin_version')]:
            status, said = self.load(path)
            start = f'ImportError: GOBLIN_ELF_LIBRARY is {path}, which can not be loaded as libgoblin_c.so.{goblin_elf.INTERFACE}: '
            self.assertTrue(status == 1 and said.startswith(start) and said.endswith(expected), said)
        with tempfile.TemporaryDirectory() as folder:
            # of another interface, with calls that are missing, and with all of them and another layout
            calls = ''.join(f'void goblin_{name}(void) {{}}\n' for name in _library.CALLS if name not in ('version', 'layout'))
            for version, more, expected in [(4, calls, 'has interface 4, not '), (goblin_elf.INTERFACE, '', 'has other calls or structs'),
                                            (goblin_elf.INTERFACE, calls, 'has other calls or structs')]:
                source, path = os.path.join(folder, 'wrong.c'), os.path.join(folder, 'wrong.so')
                with open(source, 'w') as file:
                    file.write(f'unsigned goblin_version(void) {{ return {version}; }}\n'
                               f'void goblin_layout(void *layout) {{ ((char *)layout)[0] = 1; }}\n{more}')
                try:
                    subprocess.run(['cc', '-shared', '-fPIC', '-o', path, source], check=True)
                except FileNotFoundError:
                    self.skipTest('cc is not installed')
                status, said = self.load(path)
                self.assertTrue(status == 1 and f'GOBLIN_ELF_LIBRARY is {path}, which {expected}' in said, said)

    def test_a_folder_that_is_removed(self):
        script = 'import os, sys; os.chdir(sys.argv[1]); os.rmdir(sys.argv[1]); import goblin_elf'
        subprocess.run([sys.executable, '-c', script, tempfile.mkdtemp()], check=True,
                       env={**os.environ, 'GOBLIN_ELF_LIBRARY': os.path.abspath(_library.LIBRARY._name)})

    def test_what_is_imported(self):
        names = {}
        exec('from goblin_elf import *', names)
        with open(os.path.join(FOLDER, '..', '..', 'rust', 'Cargo.toml'), encoding='utf-8') as file:
            self.assertEqual(names['__version__'], re.search(r'^version = "(.*)"', file.read(), re.M)[1])
        with open(os.path.join(FOLDER, '..', 'README.md'), encoding='utf-8') as file:
            used = set(re.findall(r'\b(?:EM|SHT|STT)_\w+', '\n'.join(re.findall(r'`([^`]*)`', file.read()))))
        self.assertEqual({name: getattr(goblin_elf, name) for name in used}, {'EM_X86_64': 62, 'SHT_NOTE': 7, 'STT_FUNC': 2})
        # (a star takes the names of the package, and no constants)
        self.assertEqual((set(names) - {'__builtins__'}, names['VERSION'], names['INTERFACE']),
                         (set(goblin_elf.__all__), names['__version__'], _library.LIBRARY.goblin_version()))
        self.assertEqual([name for name in goblin_elf.__all__ if hasattr(constants, name)], [])
        exec('from goblin_elf.constants import *', names)
        self.assertEqual({name: names[name] for name in used}, {name: getattr(goblin_elf, name) for name in used})
        # (other modules than that of constants and the commands are private)
        public = {name for name in os.listdir(os.path.dirname(goblin_elf.__file__)) if not name.startswith('_')}
        self.assertEqual(public - {_library.NAME}, {'constants.py', 'scan.py', 'py.typed'})

    def test_constants(self):
        self.assertEqual((EM_X86_64, SHT_RELA, int(goblin_elf.SHN_XINDEX), goblin_elf.ELFMAG), (62, 4, 0xffff, b'\x7fELF'))
        self.assertEqual((repr(goblin_elf.STT(10)), goblin_elf.SHF(6)), ('<STT.STT_GNU_IFUNC: 10>', SHF_ALLOC | SHF_EXECINSTR))
        # (other bits than those of the constants stay, too)
        self.assertEqual(((1 << 40 | 7) & ~SHF_ALLOC, 0x80000007 & ~PF_X, ~(SHF_ALLOC | SHF_EXECINSTR)), (1 << 40 | 5, 0x80000006, -7))

    def test_type_hints(self):
        """Those of each class and method that is not private can be looked up."""
        found = {}
        for value in (getattr(goblin_elf, name) for name in goblin_elf.__all__):
            if getattr(value, '__module__', '') in ('goblin_elf._elf', 'goblin_elf._items', 'goblin_elf._names', 'goblin_elf._refused'):
                members = [getattr(value, name) for name in vars(value) if not name.startswith('_')]
                members = [getattr(member, 'fget', getattr(member, 'func', member)) for member in members]
                for function in [value, *filter(callable, members)]:
                    found[function.__qualname__] = typing.get_type_hints(function)
        self.assertGreater(len(found), 50)
        self.assertEqual((found['Elf.whole'], str in found['Elf.open']['path'].__args__), ({'return': Elf}, True))
        # (mypy --strict takes no result of any type for that of a function that returns whether an item is less)
        self.assertIs(typing.get_type_hints(goblin_elf.Symbol.__lt__)['return'], bool)

    def test_names_of_numbers(self):
        names = [goblin_elf.class_to_str(2), goblin_elf.et_to_str(3), goblin_elf.machine_to_str(62), goblin_elf.pt_to_str(1),
                 goblin_elf.sht_to_str(1), goblin_elf.shf_to_str(SHF_ALLOC), goblin_elf.bind_to_str(1), goblin_elf.type_to_str(2),
                 goblin_elf.visibility_to_str(2), goblin_elf.note_type_to_str('GNU', 3), goblin_elf.sht_to_str(99), 
                 goblin_elf.shf_to_str(1 << 32 | SHF_ALLOC)]
        self.assertEqual(names, ['ELF64', 'DYN', 'X86_64', 'PT_LOAD', 'SHT_PROGBITS', 'SHF_ALLOC', 'GLOBAL', 'FUNC', 'HIDDEN',
                                 'NT_GNU_BUILD_ID', 'UNKNOWN_SHT', 'SHF_UNKNOWN'])
        self.assertRaises(ValueError, goblin_elf.shf_to_str, 1 << 64)

    def test_numbers_are_not_cut(self):
        elf = Elf(MADE.bytes)
        for call in (elf.symbol_by_address, elf.address_to_offset, lambda number: elf.number(number, 1),
                     lambda number: elf.section_by_name('', number), lambda number: Notes(elf, 0, 0, number),
                     lambda number: elf.section_by_name('.rela.text').relocs[0].replace(r_sym=number).symbol,
                     lambda number: elf.section_headers[1].replace(sh_link=number).linked_section):
            for number in (-1, 1 << 64):
                self.assertRaises(ValueError, call, number)
            self.assertRaises(TypeError, call, 1.0)
        self.assertEqual(_library.RECORDS['symbol'].size, 24)

    def test_what_others_say_of_the_calls_of_python(self):
        with unittest.mock.patch.object(ctypes.pythonapi.PyObject_GetBuffer, 'argtypes', [ctypes.py_object, ctypes.c_char_p, ctypes.c_int]):
            self.assertEqual(len(Elf(MADE.bytes).section_headers), 9)


class Wheel(unittest.TestCase):
    def test_content(self):
        """The wheel for each machine: its tag, and in its list each file with its sum."""
        script = os.path.join(FOLDER, '..', 'wheel.py')
        for machine in ('x86_64', 'aarch64'):
            with tempfile.TemporaryDirectory() as folder:
                command = [sys.executable, script, _library.where(), machine, folder]
                path = subprocess.run(command, check=True, stdout=subprocess.PIPE, universal_newlines=True).stdout.strip()
                self.assertTrue(path.startswith(f'{folder}/goblin_elf-') and path.endswith(f'-py3-none-linux_{machine}.whl'), path)
                with zipfile.ZipFile(path) as wheel:
                    content = {name: wheel.read(name) for name in wheel.namelist()}
            info = f'{os.path.basename(path)[:-len(f"-py3-none-linux_{machine}.whl")]}.dist-info'
            self.assertIn(f'Tag: py3-none-linux_{machine}\n', content[f'{info}/WHEEL'].decode())
            for name in ('LICENSE', 'CHANGELOG.md'):
                with open(os.path.join(FOLDER, '..', '..', '..', name), 'rb') as file:
                    self.assertEqual(content[f'{info}/{name}'], file.read())
            rows = dict(row.split(',', 1) for row in content.pop(f'{info}/RECORD').decode().splitlines())
            self.assertEqual(rows.pop(f'{info}/RECORD'), ',')
            sums = {name: base64.urlsafe_b64encode(hashlib.sha256(read).digest()).decode().rstrip('=') for name, read in content.items()}
            self.assertEqual(rows, {name: f'sha256={sums[name]},{len(read)}' for name, read in content.items()})
            with open(_library.where(), 'rb') as file:
                self.assertEqual(content[f'goblin_elf/libgoblin_c.so.{goblin_elf.INTERFACE}'], file.read())


class Program(unittest.TestCase):
    COMMAND = [sys.executable, '-m', 'goblin_elf']

    def run_it(self, *arguments, encoding='utf-8', **given):
        """Runs it, and returns its exit status, what it printed, and what it said of errors."""
        found = subprocess.run([*self.COMMAND, *arguments], stdout=given.pop('stdout', subprocess.PIPE), stderr=subprocess.PIPE, timeout=60,
                               env={**os.environ, 'PYTHONIOENCODING': encoding}, **given)
        return found.returncode, (found.stdout or b'').decode(encoding), found.stderr.decode()

    def test_files(self):
        with tempfile.TemporaryDirectory() as folder:
            paths = [os.path.join(folder, name) for name in ('made.o', 'odd\n', 'absent')]
            for path, content in zip(paths, (MADE.bytes, bytes(16))):
                with open(path, 'wb') as file:
                    file.write(content)
            status, said, _ = self.run_it(*paths)
            for line in ('  kind             object', '  class            ELF64', f'  build id         {made.BUILD_ID.hex()}',
                         '  entry            0x1004', '  symbols          7', '  stripped         no', '  code             128',
                         '  text             Invalid magic number: 0x0', '  refused          BAD_MAGIC',
                         '  error            No such file or directory', f'{folder}/odd\ufffd'):
                self.assertIn(line, said.split('\n'))
            self.assertEqual(status, 1)
            # (a reader that leaves is no error)
            leaves = f'{sys.executable} -m goblin_elf {" ".join(["made.o"] * 2000)} | head -n 1'
            found = subprocess.run(leaves, shell=True, cwd=folder, stdout=subprocess.PIPE, stderr=subprocess.PIPE, universal_newlines=True)
            self.assertEqual((found.stdout, found.stderr), ('made.o\n', ''))
            # (whoever waits for it may end it by Ctrl-C, which a test in the background ignores: it has printed the first of many files)
            running = subprocess.Popen([*self.COMMAND, *['made.o'] * 2000], cwd=folder, stdout=subprocess.PIPE, stderr=subprocess.PIPE,
                                       preexec_fn=lambda: signal.signal(signal.SIGINT, signal.SIG_DFL))
            self.assertEqual(running.stdout.readline(), b'made.o\n')
            running.send_signal(signal.SIGINT)
            self.assertEqual((running.communicate(timeout=60)[1], running.returncode), (b'', -signal.SIGINT))
            # (a stream that does not take each sign gets others: in the locale C the last name has two signs)
            _, said, errors = self.run_it('made.o', 'odd\n', b'\xc3\xa9', encoding='ascii', cwd=folder)
            self.assertEqual((said.split('\n')[0], '\nodd?\n' in said, errors), ('made.o', True, ''))
            self.assertRegex(said, r'\n\?\??\n')
            # (one that is full is said in a line)
            with open('/dev/full', 'w') as full:
                self.assertEqual(self.run_it(*paths, stdout=full),
                                 (2, '', 'python -m goblin_elf: the output can not be written: No space left on device\n'))
            # (as errors may be, and each may be closed)
            for command in ('> /dev/full 2>&1', '>&-', '>&- 2>&-'):
                found = subprocess.run(f'{sys.executable} -m goblin_elf made.o {command}', shell=True, cwd=folder, stderr=subprocess.DEVNULL)
                self.assertEqual(found.returncode, 2)
            self.assertEqual(self.run_it('')[:2], (1, '\n  error            No such file or directory\n'))
            status, said, _ = self.run_it('--json', *paths[:1])
            found = json.loads(said)[0]
            self.assertEqual((status, found['type'], found['entry'], found['needed'], found['sizes']['code']), (0, 'REL', 0x1004, [], 128))
            # (strict readers refuse a surrogate without its pair, as that by which Python decodes a byte that is not UTF-8)
            status, said, _ = self.run_it('--json', b'caf\xe9 \xf0\x9f\x92\x80')
            self.assertEqual((status, json.loads(said)[0]['file']), (1, 'caf\ufffd \U0001f480'))

    def test_what_is_no_ordinary_file(self):
        """One that has no end, or that waits, is said, and those before and after it are printed. Each is printed as it is read."""
        with tempfile.TemporaryDirectory() as folder:
            paths = [os.path.join(folder, name) for name in ('made.o', 'fifo')]
            with open(paths[0], 'wb') as file:
                file.write(MADE.bytes)
            os.mkfifo(paths[1])
            paths += ['/dev/zero', folder, '/proc/kmsg', paths[0]]
            self.assertEqual(self.run_it(*paths, preexec_fn=limit_memory)[0], 1)
            status, said, _ = self.run_it('--json', *paths, preexec_fn=limit_memory)
            self.assertEqual((status, [(row['file'], row.get('kind'), row.get('error') or row.get('refused')) for row in json.loads(said)]),
                             (1, [(paths[0], 'object', None), *((path, None, 'it is no ordinary file') for path in paths[1:3]),
                                  (folder, None, 'Is a directory'), ('/proc/kmsg', None, 'TOO_SMALL'), (paths[0], 'object', None)]))

    def test_numbers_without_a_name(self):
        """They stand after the word for it."""
        for e_type, e_machine, expected in ((0xfe00, 36902, 'UNKNOWN_ET (65024) EM_UNKNOWN (36902)'), (1, 62, 'REL X86_64')):
            elf = Elf(bytearray(made.ALL[2].bytes))
            elf.put_header(elf.header.replace(e_type=e_type, e_machine=e_machine))
            found = program.facts(elf)
            self.assertEqual(f'{found["type"]} {found["machine"]}', expected)
            self.assertIn(expected, repr(elf))

    def test_arguments_that_are_wrong(self):
        """The exit status is the same if nobody can read why."""
        for module in ('goblin_elf', 'goblin_elf.scan'):
            for arguments, status in (('2>/dev/full', 2), ('2>&-', 2), ('>&- 2>&-', 2), ('>/dev/full 2>&1', 2), ('--help >&- 2>&-', 0)):
                found = subprocess.run(f'{sys.executable} -m {module} {arguments}', shell=True, stdout=subprocess.DEVNULL, stderr=subprocess.DEVNULL)
                self.assertEqual(found.returncode, status, arguments)

    def test_the_page(self):
        """Our column of the lines of the page for those who come from pyelftools."""
        with open(os.path.join(FOLDER, '..', 'README.md'), encoding='utf-8') as file:
            rows = re.findall(r'^\|`([^|]*)`\|`([^|]*)`\|$', file.read(), re.M)
        self.assertEqual(len(rows), 11)
        with in_file(MADE.bytes) as file:
            names = {**vars(goblin_elf), 'path': file.name}
            elf = names['elf'] = Elf.open(file.name)
            names.update(section=elf.section_by_name('.rela.text'), symbol=elf.syms[1], relocation=elf.section_by_name('.rela.text').relocs[0],
                         segment=elf.program_headers[1])
            for _, ours in rows:
                for line in ours.split('`, `'):
                    (exec if line.startswith('for ') else eval)(line, dict(names))
        self.assertEqual([eval(rows[index][1].split('`')[0], names) for index in (1, 4, 6, 9)], [True, False, True, made.BUILD_ID.hex()])

    def test_a_program(self):
        path = os.path.join(FOLDER, '..', '..', '..', 'checks', 'files', 'made', 'x86_64_program')
        found = program.described(path)
        self.assertEqual((found['kind'], found['needed'], found['interpreter']), ('program', ['libc.so.6'], '/lib64/ld-linux-x86-64.so.2'))
        paths = [segment.strtab.get(0) for segment in Elf.open(path).program_headers if segment.p_type == constants.PT_INTERP]
        self.assertEqual(paths, ['/lib64/ld-linux-x86-64.so.2'])
