"""Random buffers, headers and ranges made by hand, and many threads: only records, Refused, and for callers' numbers ValueError may come.

FUZZ is how many files are tried, by default 300.
"""
import os
import random
import unittest

from goblin_elf import Dynamic, Elf, Header, Kind, Notes, Refused, Relocations, Strings, Symbols
from goblin_elf._facts import facts

import made
from parts import started

COUNT = int(os.environ.get('FUZZ', 300))


class Reader:
    """Reads all that a file has, by random arguments where a call takes some."""

    def __init__(self, chance, elf):
        self.chance, self.elf = chance, elf
        self.read, self.refused = 0, 0

    def number(self, bits=64):
        return self.chance.choice((0, 1, 4, 8, 0xffff, len(self.elf.bytes), self.chance.randrange(len(self.elf.bytes) + 9),
                                   (1 << bits) - 1, self.chance.getrandbits(bits))) & (1 << bits) - 1

    def all(self):
        elf, number = self.elf, self.number
        range_of = (number(), number())
        for step in (lambda: elf.section_headers, lambda: elf.program_headers, lambda: elf.syms, lambda: elf.dynsyms, lambda: list(elf.notes),
                     lambda: elf.build_id, lambda: facts(elf), lambda: elf.whole().section_headers, lambda: elf.whole().program_headers,
                     lambda: elf.section_by_name('.text'), lambda: elf.section_by_type(number(32), number()), lambda: elf.symbol_by_address(number()),
                     lambda: elf.address_to_offset(number()), lambda: elf.number(number(), 8), lambda: Symbols(elf, *range_of),
                     lambda: elf.dynamic_section, lambda: elf.libraries, lambda: elf.soname, lambda: elf.rpaths, lambda: elf.runpaths,
                     lambda: elf.interpreter, lambda: Dynamic(elf, *range_of), lambda: Dynamic(elf, *range_of).value(number()),
                     lambda: Relocations(elf, *range_of, bool(number() & 1)), lambda: Notes(elf, *range_of, number()),
                     lambda: Strings(elf, *range_of).get(number()), lambda: Strings(elf, *range_of).get_bytes(number()),
                     lambda: Strings(elf, *range_of).get_closed_bytes(number()), lambda: Strings(elf, *range_of).is_at(number(), b'a'),
                     lambda: Strings(elf, *range_of).starts_at(number(), b'a'), lambda: Strings(elf, *range_of).get_all([number()] * 3),
                     lambda: repr(elf.header)):
            found = self.step(step)
            if hasattr(found, '__len__') and not isinstance(found, (str, bytes, dict, memoryview)):
                self.items(found)

    def step(self, step):
        """Returns what a call returns, or `None` if it is refused."""
        try:
            self.read += 1
            return step()
        except Refused as error:
            self.refused += 1
            assert str(error) and isinstance(error.kind, Kind), repr(error)
            return None

    def items(self, table):
        for item in list(table)[:50]:
            for name in ('name', 'data', 'readable_data', 'linked_section', 'symtab', 'relocs', 'notes', 'symbol', 'string'):
                self.step(lambda: getattr(item, name, None))
            repr(item)
            if hasattr(item, 'number'):
                self.step(lambda: item.number(self.number(), self.chance.choice((1, 2, 4, 8))))
        if hasattr(table, 'names'):
            # (an item has the name that is at its offset, though names are read many at once)
            names = [self.step(lambda: item.name) for item in table]
            assert names == [self.step(lambda: table.strtab.get(getattr(item, table.record.fields[0]))) for item in table]
        if len(table):
            assert table[-1] == list(table)[-1] and len(list(reversed(table))) == len(table)


class Fuzz(unittest.TestCase):
    def damaged(self, chance):
        """Returns the bytes of a damaged or cut file."""
        content = bytearray(chance.choice(made.ALL).bytes)
        for _ in range(chance.choice((0, 1, 2, 5))):
            width = chance.choice((1, 2, 4, 8))
            place = chance.choice((chance.randrange(4, 64), chance.randrange(len(content))))
            content[place:place + width] = chance.choice((bytes(width), b'\xff' * width, chance.getrandbits(8 * width).to_bytes(width, 'little')))
        return content[:chance.randrange(len(content))] if chance.random() < 0.3 else content

    def test_damaged_files(self):
        chance = random.Random(1)
        read = refused = 0
        for _ in range(COUNT):
            content = bytes(self.damaged(chance))
            try:
                reader = Reader(chance, Elf(content))
            except Refused:
                continue
            reader.all()
            read, refused = read + reader.read, refused + reader.refused
        self.assertTrue(0 < refused < read)

    def test_random_bytes(self):
        chance = random.Random(2)
        for _ in range(COUNT):
            content = bytes(chance.getrandbits(8) for _ in range(chance.randrange(200)))
            ident = b'\x7fELF' + bytes((chance.choice((1, 2)), chance.choice((1, 2))))
            for each in (content, ident + content):
                try:
                    reader = Reader(chance, Elf(each))
                except Refused:
                    continue
                reader.all()

    def test_headers_made_by_hand(self):
        chance = random.Random(3)
        widths = [64] * 3 + [32] * 2 + [16] * 8 + [8] * 5
        for _ in range(COUNT // 3):
            values = (chance.choice((0, 1, 2, 64, (1 << bits) - 1, chance.getrandbits(bits))) & (1 << bits) - 1 for bits in widths)
            header = Header(**dict(zip(Elf(made.ALL[0].bytes).header.as_dict(), values)))
            Reader(chance, Elf(chance.choice(made.ALL).bytes, header)).all()
        for error, number in ((ValueError, -1), (ValueError, 1 << 64), (TypeError, 'text')):
            self.assertRaises(error, Elf, made.ALL[0].bytes, header.replace(e_shoff=number))

    def test_what_is_written_stays_in_its_record(self):
        chance = random.Random(4)
        for _ in range(COUNT):
            content = self.damaged(chance)
            try:
                elf = Elf(content)
                section = next(section for section in elf.section_headers if section.sh_type in (2, 4, 9))
                table = chance.choice((lambda: elf.section_headers, lambda: elf.program_headers,
                                       lambda: section.symtab if section.sh_type == 2 else section.relocs))()
            except (Refused, StopIteration):
                continue
            if not len(table):
                continue
            index, before = chance.randrange(len(table)), bytes(content)
            item = table[index]
            field = chance.choice(list(item.as_dict()))
            value = chance.choice((0, 1, (1 << 32) - 1, chance.getrandbits(32), chance.getrandbits(64)))
            try:
                table[index] = item.replace(**{field: value})
            except (Refused, ValueError):
                self.assertEqual(content, before)
                continue
            changed = [place for place in range(len(content)) if content[place] != before[place]]
            self.assertTrue(not changed or changed[-1] - changed[0] < 64)
            try:
                table[index] = item
            except (Refused, IndexError):
                # (section 0 may have the numbers of the headers)
                self.assertEqual(index, 0)
                continue
            self.assertEqual(content, before)

    def test_threads(self):
        wrong = []

        def read(seed, elf):
            try:
                Reader(random.Random(seed), elf).all()
            except Exception as error:
                wrong.append(error)

        for file in made.ALL:
            elf = Elf(file.bytes)
            for thread in started(lambda seed: read(seed, elf), range(8)):
                thread.join()
        self.assertEqual(wrong, [])
