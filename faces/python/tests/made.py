"""Makes small ELF files by the layouts of the System V gABI, written here by hand, for tests."""
import struct

# The formats of the records by class, and the fields of program headers and symbols in their order by class.
EHDR = {32: '16sHHIIIIIHHHHHH', 64: '16sHHIQQQIHHHHHH'}
SHDR = {32: 'IIIIIIIIII', 64: 'IIQQQQIIQQ'}
PHDR = {32: 'IIIIIIII', 64: 'IIQQQQQQ'}
SYM = {32: 'IIIBBH', 64: 'IBBHQQ'}
RELA = {32: 'IIi', 64: 'QQq'}
REL = {32: 'II', 64: 'QQ'}

NAMES = ('', '.text', '.symtab', '.strtab', '.rela.text', '.rel.text', '.note.gnu.build-id', '.bss', '.shstrtab')
# The symbols: name, value, size, section, binding, type, visibility.
SYMBOLS = (('', 0, 0, 0, 0, 0, 0), ('main', 0x1004, 8, 1, 1, 2, 0), ('label', 0x1010, 0, 1, 0, 0, 0),
           ('outer', 0x1020, 32, 1, 1, 2, 2), ('inner', 0x1028, 4, 1, 0, 2, 0), ('été', 0x4000, 16, 7, 2, 1, 0),
           ('absolute', 7, 0, 0xfff1, 1, 0, 0))
# The relocations: offset, symbol, type, addend.
RELOCATIONS = ((0x10, 1, 2, -4), (0x18, 3, 1, 0x7ffffff0))
BUILD_ID = bytes(range(20))
TEXT = bytes(range(64)) * 2


class Made:
    """A made file: its bytes, and where its parts are."""

    def __init__(self, bits=64, order='<', machine=62):
        self.bits, self.order = bits, order
        self.parts, self.sections, self.offsets = bytearray(self.size(EHDR)), [], {}
        names, places = self.table(NAMES)
        strings, string_places = self.table([symbol[0] for symbol in SYMBOLS])
        self.names = places
        self.section('', 0, b'')
        self.section('.text', 1, TEXT, flags=6, address=0x1000, alignment=16)
        symbols = [self.symbol(place, *symbol) for place, symbol in zip(string_places, SYMBOLS)]
        self.section('.symtab', 2, b''.join(symbols), link=3, info=3, entry=len(symbols[0]))
        self.section('.strtab', 3, strings)
        self.section('.rela.text', 4, b''.join(self.rela(*relocation) for relocation in RELOCATIONS), link=2, info=1,
                     entry=self.size(RELA))
        self.section('.rel.text', 9, b''.join(self.rel(*relocation) for relocation in RELOCATIONS), link=2, info=1, entry=self.size(REL))
        note = self.pack('III', 4, len(BUILD_ID), 3) + b'GNU\0' + BUILD_ID
        self.section('.note.gnu.build-id', 7, note, flags=2, alignment=4)
        self.section('.bss', 8, b'', flags=3, address=0x4000, size=0x100)
        self.section('.shstrtab', 3, names)
        self.phoff = self.add(self.segment(1, 5, '.text', 0x1000, 0x100) + self.segment(4, 4, '.note.gnu.build-id', 0, 0))
        self.shoff = self.add(b''.join(self.sections))
        ident = b'\x7fELF' + bytes((bits // 32, 1 if order == '<' else 2, 1, 3, 0)) + bytes(7)
        self.parts[:self.size(EHDR)] = self.pack(EHDR, ident, 1, machine, 1, 0x1004, self.phoff, self.shoff, 0, self.size(EHDR),
                                                 self.size(PHDR), 2, self.size(SHDR), len(NAMES), len(NAMES) - 1)
        self.bytes = bytes(self.parts)

    def form(self, formats):
        return self.order + (formats if isinstance(formats, str) else formats[self.bits])

    def size(self, formats):
        return struct.calcsize(self.form(formats))

    def pack(self, formats, *values):
        return struct.pack(self.form(formats), *values)

    def table(self, texts):
        """Returns a string table, and the offset of each text in it."""
        table, places = b'\0', []
        for text in texts:
            places.append(len(table) if text else 0)
            table += text.encode() + b'\0' if text else b''
        return table, places

    def add(self, content):
        """Adds some bytes at a multiple of 8, and returns their offset."""
        self.parts += bytes(-len(self.parts) % 8) + content
        return len(self.parts) - len(content)

    def section(self, name, kind, content, flags=0, address=0, size=None, link=0, info=0, alignment=1, entry=0):
        offset = self.add(content) if content else 0
        self.offsets[name] = offset, len(content)
        self.sections.append(self.pack(SHDR, self.names[NAMES.index(name)], kind, flags, address, offset,
                                       len(content) if size is None else size, link, info, alignment, entry))

    def segment(self, kind, flags, name, address, memory):
        offset, size = self.offsets[name]
        if self.bits == 64:
            return self.pack(PHDR, kind, flags, offset, address, address, size, memory, 4)
        return self.pack(PHDR, kind, offset, address, address, size, memory, flags, 4)

    def symbol(self, name, _, value, size, section, binding, kind, visibility):
        info = binding << 4 | kind
        if self.bits == 64:
            return self.pack(SYM, name, info, visibility, section, value, size)
        return self.pack(SYM, name, value, size, info, visibility, section)

    def info(self, symbol, kind):
        return symbol << (32 if self.bits == 64 else 8) | kind

    def rela(self, offset, symbol, kind, addend):
        return self.pack(RELA, offset, self.info(symbol, kind), addend)

    def rel(self, offset, symbol, kind, _):
        return self.pack(REL, offset, self.info(symbol, kind))


ALL = [Made(bits, order) for bits in (32, 64) for order in '<>']


def head(kind, phoff=0, phnum=0, shoff=0, shnum=0):
    """Returns the header of a file for x86-64, of a type."""
    return struct.pack('<' + EHDR[64], b'\x7fELF\2\1\1', kind, 62, 1, 0, phoff, shoff, 0, 64, 56, phnum, 64, shnum, 0)


def section_header(kind, offset=0, size=0, flags=0, info=0):
    """Returns a section header of such a file."""
    return struct.pack('<' + SHDR[64], 0, kind, flags, 0, offset, size, 0, info, 1, 0)


def linked(*names, interpreter=None):
    """Returns a library for x86-64 that has only entries of the dynamic section, each with its tag and a name, and a program interpreter."""
    strings, entries, start, path = b'\0', b'', 64 + 3 * 56, b'' if interpreter is None else interpreter + b'\0'
    for tag, name in names:
        entries += struct.pack('<QQ', tag, len(strings))
        strings += name + b'\0'
    at = start + len(entries) + 48
    entries += struct.pack('<6Q', 5, at, 10, len(strings), 0, 0)
    end = at + len(strings) + len(path)
    ranges = [(1, 0, end), (2, start, len(entries)), (3 if path else 0, end - len(path), len(path))]
    segments = [struct.pack('<' + PHDR[64], kind, 4, offset, offset, offset, size, size, 8) for kind, offset, size in ranges]
    return head(3, 64, 3) + b''.join(segments) + entries + strings + path
