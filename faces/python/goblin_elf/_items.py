"""What a file holds: items, which have named fields, and the tables that they are in, which are sequences."""
import contextlib
import ctypes
import functools
import itertools
import operator
from array import array
from typing import TYPE_CHECKING, Any, Callable, Dict, Iterable, Iterator, List, NoReturn, Optional, Sequence, Tuple, Type, TypeVar, Union, overload

from ._interface import DynFields, HeaderFields, Item, Kind, RelocFields, SectionFields, SegmentFields, SymbolFields
from ._library import FUNCTIONS, HEADER, RANGE, RECORDS, REFUSAL, Record, call, found, refused, unsigned
from ._names import sht_to_str
from ._refused import Refused
from .constants import (SHT_DYNSYM, SHT_NOBITS, SHT_REL, SHT_RELA, SHT_SYMTAB, SIZEOF_REL32, SIZEOF_REL64, SIZEOF_RELA32, SIZEOF_RELA64,
                        SIZEOF_SHDR32, SIZEOF_SHDR64, SIZEOF_SYM32, SIZEOF_SYM64)

if TYPE_CHECKING:
    from ._elf import Elf

E = TypeVar('E', bound='Entry')
Fields = Tuple[int, ...]
Name = Union[str, bytes]
# How many items are read by one call. How many names are, at first, how far names are asked for in order, and the most bytes of many names.
# Of a table with a string of more bytes each is read alone, and those that overlap so that they have more than so many times its bytes, which
# is more than a linker merges, are refused.
CHUNK, AHEAD, NEAR, TEXTS, LONGEST, OVERLAPS = 2048, 64, 8, 1 << 24, 1 << 14, 4
# Fields that have fewer bytes than a number here: how many, and where in a record of the 32-bit and of the 64-bit class.
NARROW = {'sh_name': (4, 0, 0), 'st_name': (4, 0, 0), 'st_shndx': (2, 14, 6), 'r_sym': (4, 4, 8)}


@functools.total_ordering
class Entry:
    """What items have: named fields that stay, a `repr`, and comparisons by the standard's fields, which are all but the index and the table.

    A class of items has two of its own: of those that are read, which are where the library wrote them, and of those with any values.
    """
    __slots__ = ()
    _public: Any
    _read: Any
    _made: Any
    _names: Tuple[str, ...]
    _all: Tuple[str, ...]

    def __init_subclass__(cls, record: Optional[Record] = None, fields: Tuple[str, ...] = (), more: Tuple[str, ...] = ()) -> None:
        names = record.names if record else fields
        if names:
            cls._public, cls._names, cls._all = cls, names, names + more
            cls._made = type(cls.__name__, (cls,), {'__slots__': cls._all, '__module__': cls.__module__})
            cls._read = record and record.class_of(cls, bool(more))

    def __new__(cls: Type[E], **fields: Any) -> E:
        if fields.keys() != set(cls._all):
            raise TypeError(f'the fields of a {cls.__name__} are {", ".join(cls._all)}')
        item: E = object.__new__(cls._made)
        for name, value in fields.items():
            object.__setattr__(item, name, value)
        return item

    if not TYPE_CHECKING:
        def __setattr__(self, name: str, value: object) -> None:
            raise AttributeError(f'a {type(self).__name__} stays as it is: item.replace({name}=..) returns another one')

        def __delattr__(self, name: str) -> None:
            self.__setattr__(name, None)

    def replace(self: E, **fields: Any) -> E:
        """Returns the same item with other values of some fields, of any type: a table takes those alone that fit."""
        return self._public(**{**{name: getattr(self, name) for name in self._all}, **fields})  # type: ignore[no-any-return]

    def as_dict(self) -> Dict[str, Any]:
        """Returns the standard's fields by their names."""
        return {name: getattr(self, name) for name in self._names}

    def __repr__(self: Any) -> str:
        fields = [(name, getattr(self, name)) for name in self._all if name != 'table']
        parts = [f'{name}={hex(value) if isinstance(value, int) and value > 9 else value}' for name, value in fields]
        # (of numbers of the caller, a name may be none)
        with contextlib.suppress(AttributeError, TypeError, ValueError):
            parts.insert(0, f'name={self.name!r}')
        return f'{type(self).__name__}({", ".join(parts)})'

    def __reduce__(self) -> Any:
        return made_again, (self._public, {name: getattr(self, name) for name in self._all})

    def _key(self) -> Tuple[Any, ...]:
        """What it is sorted by."""
        return tuple(self.as_dict().values())

    def __eq__(self, other: Any) -> bool:
        return isinstance(other, self._public) and bool(self._key() == other._key())

    def __hash__(self) -> int:
        return hash(self._key())

    def __lt__(self, other: Any) -> bool:
        if not isinstance(other, self._public):
            return NotImplemented
        return bool(self._key() < other._key())


def made_again(kind: Type[E], fields: Dict[str, Any]) -> E:
    """Returns an item that was pickled."""
    return kind(**fields)


OF_TABLE = 'index', 'table'


@functools.lru_cache(None)
def array_of(kind: Any, count: int) -> Any:
    """Returns ctypes' type of an array of items."""
    return kind * count


class Held(Entry):
    """What sections and segments have: a range of the file, which need not be inside the file, and its alignment."""
    __slots__ = ()

    @property
    def data(self: Any) -> memoryview:
        """Its bytes in the file, without a copy: none for a type without bytes. Refused if they are not inside the file."""
        elf, table = self.table.elf, self.table
        return memoryview(elf._file.part(*found(f'{table.one}_range', RANGE, elf._image, table.record.pack_item(self)) or (0, 0)))

    @property
    def readable_data(self: Any) -> memoryview:
        """Those of its bytes that are inside the file. Never refused."""
        with contextlib.suppress(Refused):
            return memoryview(self.data)
        elf, place = self.table.elf, RANGE.buffer()
        FUNCTIONS['range_in_file'](elf._image, RANGE.pack(self._place), place)
        return memoryview(elf._file.part(*RANGE.unpack(place)))

    @property
    def notes(self: Any) -> 'Notes':
        """Its notes. Refused at the first damaged note. Their names need not be UTF-8: see `Notes`."""
        offset, size = self._place
        return Notes(self.table.elf, offset, size, self._alignment, ESCAPED)

    @property
    def strtab(self: Any) -> 'Strings':
        """Its bytes as a string table, such as the interpreter's path of a segment of type PT_INTERP. Never refused: a string of it may be."""
        return Strings(self.table.elf, *self._place)

    def number(self: Any, offset: int, width: int) -> int:
        """Returns the number in `width` bytes (1, 2, 4 or 8) at an offset in it, in the file's order. Refused if it is not inside."""
        return int(self.table.elf._number('number_in', RANGE.pack(self._place), unsigned(offset), unsigned(width)))

    def put_number(self: Any, offset: int, width: int, value: int) -> None:
        """Writes a number into `width` bytes (1, 2, 4 or 8) at an offset in it. Refused if it does not fit, or is not inside."""
        self.table.elf._put_number('put_number_in', RANGE.pack(self._place), offset, width, value)


class Header(Entry, HeaderFields, record=HEADER):
    """A file's header. goblin.h has more on each field. To write a changed one: `elf.put_header(elf.header.replace(e_entry=0))`."""
    __slots__ = ()


class Section(Held, SectionFields, record=RECORDS['section'], more=OF_TABLE):
    """A section header, with its index in its table. Offsets and sizes are in bytes."""
    __slots__ = ()

    @property
    def _place(self) -> Tuple[int, int]:
        """Its range of the file: an empty one for SHT_NOBITS, whatever its size."""
        return (0, 0) if self.sh_type == SHT_NOBITS else (self.sh_offset, self.sh_size)

    @property
    def _alignment(self) -> int:
        return self.sh_addralign

    @property
    def name(self) -> Optional[str]:
        """Its name, or `None` if that is past the end of the section names. Refused if it is not UTF-8, or as the names are."""
        known = self.table._known.get(self.sh_name)
        return self.table._learn(self.index, self.sh_name) if known is None else known

    @property
    def linked_section(self) -> Optional['Section']:
        """The section that `sh_link` names, or `None` if there is none that has bytes. Refused if the section headers are."""
        return self.table._find(self.sh_link, 'linked_section', unsigned(self.sh_link))

    @property
    def symtab(self) -> 'Symbols':
        """Its symbols, with the names of the section that it links to. Refused if it is no symbol table or not in the file."""
        self._check('symbols', SHT_SYMTAB, SHT_DYNSYM)
        names = self.linked_section
        return Symbols(self.table.elf, self.sh_offset, self.sh_size, names.strtab if names else None)

    @property
    def relocs(self) -> 'Relocations':
        """Its relocations, with the symbols that it links to. Refused if it has another type, or is not in the file."""
        self._check('relocations', SHT_RELA, SHT_REL)
        return Relocations(self.table.elf, self.sh_offset, self.sh_size, self.sh_type == SHT_RELA, self)

    def _check(self, expected: str, *types: int) -> None:
        if self.sh_type not in types:
            said = f'A section of type {self.sh_type:#x} ({sht_to_str(self.sh_type)}) holds no {expected}'
            raise Refused(said, Kind.SECTION_TYPE, 0, (self.sh_type,), self.sh_offset)


class Segment(Held, SegmentFields, record=RECORDS['segment'], more=OF_TABLE):
    """A program header, with its index in its table. Offsets and sizes are in bytes."""
    __slots__ = ()

    @property
    def _place(self) -> Tuple[int, int]:
        return self.p_offset, self.p_filesz

    @property
    def _alignment(self) -> int:
        return self.p_align


class Symbol(Entry, SymbolFields, record=RECORDS['symbol'], more=OF_TABLE):
    """A symbol, with its index in its table."""
    __slots__ = ()

    @property
    def name(self) -> Optional[str]:
        """Its name, or `None` if that is past the end of the string table. Refused if it is not UTF-8, or if the table is."""
        known = self.table._known.get(self.st_name)
        return self.table._learn(self.index, self.st_name) if known is None else known

    @property
    def st_bind(self) -> int:
        """An STB_ number."""
        return self.st_info >> 4

    @property
    def st_type(self) -> int:
        """An STT_ number."""
        return self.st_info & 15

    @property
    def st_visibility(self) -> int:
        """An STV_ number."""
        return self.st_other & 7


class Relocation(Entry, RelocFields, record=RECORDS['reloc'], more=OF_TABLE):
    """A relocation, with its index in its table."""
    __slots__ = ()

    @property
    def symbol(self) -> Optional[Symbol]:
        """The symbol that it refers to, or `None` for none or one past the end. Refused as the symbols are."""
        symbols = self.table.symtab if self.r_sym else ()
        return symbols[self.r_sym] if unsigned(self.r_sym) < len(symbols) else None

    def _key(self) -> Tuple[Any, ...]:
        # (one that has no addend of its own comes first)
        return self.r_offset, self.r_sym, self.r_addend is not None, self.r_addend or 0, self.r_type


class Dyn(Entry, DynFields, record=RECORDS['dyn'], more=OF_TABLE):
    """An entry of the dynamic section, with its index in it."""
    __slots__ = ()

    @property
    def string(self) -> str:
        """The string that its value is the offset of, which need not be UTF-8: it is decoded with 'surrogateescape'. Refused if there is none,
        or as `Dynamic.strings` is."""
        found = self.table.strings.get(self.d_val, 'surrogateescape')
        return self.table._refuse(self.d_tag, self.d_val) if found is None else found


class Note(Entry, fields=('n_type', 'name', 'desc')):
    """A note: its type, whose meaning depends on the name; its name, without the zero bytes at its end; and its descriptor, without a copy."""
    __slots__ = ()
    if TYPE_CHECKING:
        n_type: int
        name: str
        desc: memoryview

    def _key(self) -> Tuple[Any, ...]:
        return self.n_type, self.name, bytes(self.desc)

    def __repr__(self) -> str:
        return f'Note(n_type={self.n_type}, name={self.name!r}, desc={self.desc.hex()!r})'

    def __reduce__(self) -> Any:
        return note_with, self._key()


class Table(Sequence[E]):
    """A sequence of the items of a table. The call that makes it is refused if the table is, so it has all of its items.

    An index reads one item, a slice is a list, and an iteration reads many items, which share memory, and their names, by a call. If the bytes
    change after the table was made, an item may be refused, or raise an IndexError if it is gone. `table[index] = item` writes an item into a
    buffer that can be written: it raises Refused with `Kind.INTEGER_FIT` if a number does not fit the file's class, and then changes nothing.
    """
    record: Record
    item: Type[E]
    _class: Any  # of the items that are read
    # The call for one item, and that for many if there is one. And the sizes of a record in both classes.
    one, many = '', ''
    sizes = 0, 0

    def __init_subclass__(cls) -> None:
        cls._class = cls.item._read if hasattr(cls, 'item') else None

    def __init__(self, elf: 'Elf', *arguments: Any) -> None:
        self.elf, self._arguments = elf, arguments
        self._places: Sequence[int] = range(elf._find_number(f'{self.one}_count', *arguments) or 0)  # what the call for one item takes

    def __len__(self) -> int:
        return len(self._places)

    @overload
    def __getitem__(self, index: int) -> E: ...
    @overload
    def __getitem__(self, index: slice) -> List[E]: ...

    def __getitem__(self, index: Union[int, slice]) -> Union[E, List[E]]:
        places = range(len(self))[index]
        if isinstance(places, range):
            return list(self._items(places.start, places.stop)) if places.step == 1 else [self[place] for place in places]
        item = self._get(places)
        if item is None:
            raise IndexError(f'there is no item {places} any more')
        return item

    def __setitem__(self, index: int, item: E) -> None:
        if not isinstance(item, self.item) or isinstance(item, (Note, Dyn)):
            raise TypeError(f'an item of a {type(self).__name__} can not be a {type(item).__name__}, or can not be written')
        place = range(len(self))[operator.index(index)]
        self._check(item, place)
        struct = self.record.pack_item(self._with_fields(item))
        if not self.elf._write(f'put_{self.one}', HEADER.pack_item(self.elf.header), *self._arguments, place, struct):
            raise IndexError(f'there is no item {place} any more')

    def _start(self) -> int:
        """Returns the offset of the table."""
        return int(RANGE.unpack(self._arguments[0])[0])

    def _check(self, item: E, place: int) -> None:
        """Refuses an item with a number that would be cut to the bits of its field. (One of more than 64 bits is none.)"""
        for field, (width, *places) in NARROW.items():
            value = getattr(item, field, 0)
            if isinstance(value, int) and 1 << 8 * width <= value < 1 << 64:
                # (the library refuses it as such a number)
                self.elf.put_number(self._start() + place * self.sizes[self.elf.is_64] + places[self.elf.is_64], width, value)

    def __iter__(self) -> Iterator[E]:
        return self._items(0, len(self))

    def __repr__(self) -> str:
        return f'<{type(self).__name__}: {len(self)} items>'

    def array(self) -> Any:
        """Returns all items as a structured array of numpy, which owns its memory. Its fields have the names of the items', with two exceptions.
        Of relocations it has 0 in place of an `r_addend` of `None`. Of notes it has `n_type`, the ranges `name_offset`,
        `name_size`, `desc_offset` and `desc_size`, and `next`, the offset of the next one."""
        import numpy
        items = numpy.empty(len(self), self.record.dtype())
        filled = self._fill(0, items.ctypes.data, len(self))
        return items if filled == len(self) else items[:filled].copy()

    def _items(self, first: int, end: int) -> Iterator[E]:
        """Yields the items from an index to another one. It is written without a loop of Python, which takes longer."""
        return itertools.chain.from_iterable(self._items_of(start, structs) for start, structs in self._chunks(first, end))

    def _items_of(self, first: int, structs: memoryview) -> Iterator[E]:
        """Yields the items of some structs, the first of which has an index. They are copied, so that its index follows each."""
        words, count = self.record.size // 8, len(structs) // self.record.size
        size = 1 << (count - 1).bit_length()
        copied = bytearray(8 * (words + 1) * size)
        items = array_of(self._class, size).from_buffer(copied)
        items.table = self
        numbers, to = structs.cast('Q'), memoryview(copied).cast('Q')[:(words + 1) * count]
        for word in range(words):
            to[word::words + 1] = numbers[word::words]
        to[words::words + 1] = memoryview(array('Q', range(first, first + count)))
        return itertools.islice(items, count)

    def _get(self, index: int) -> Optional[E]:
        """Reads an item, or `None` if it is gone."""
        return self._find(index, self.one, *self._arguments, self._places[index])

    def _find(self, index: Any, name: str, *arguments: Any) -> Optional[E]:
        """Makes a call whose result is the struct of an item, and returns the item, or `None` at GOBLIN_END. The call may find the index."""
        found = array_of(self._class, 1)()
        if not call(name, self.elf._image, *arguments, found):
            return None
        found.table = self
        item: E = found[0]
        self._class.index.__set__(item, getattr(index, 'value', index))
        return item

    def _with_fields(self, item: E) -> E:
        """Returns an item each of whose fields is a number."""
        return item

    def _chunks(self, first: int, end: int) -> Iterator[Tuple[int, memoryview]]:
        """Yields the structs from an index to another one, in chunks, each after the index that it begins at."""
        size = self.record.size
        while first < end:
            buffer = bytearray(min(end - first, CHUNK) * size)
            filled = self._fill(first, ctypes.addressof(ctypes.c_char.from_buffer(buffer)), len(buffer) // size)
            if filled:
                yield first, memoryview(buffer)[:filled * size]
            first = first + filled if filled else end

    def _fill(self, first: int, address: int, capacity: int) -> int:
        """Reads structs from an index on into memory, and returns their number."""
        start = self.elf._image, *self._arguments
        if not self.many:
            structs = range(address, address + capacity * self.record.size, self.record.size)
            return next((i for i, at in enumerate(structs) if not call(self.one, *start, self._places[first + i], at)), capacity)
        filled = ctypes.c_uint64()
        call(self.many, *start, first, address, capacity, ctypes.byref(filled))
        return filled.value


class NamedTable(Table[E]):
    """A table of items with names. Their structs begin with the offset of a name, which has 32 bits."""
    _known: Dict[int, str] = {}  # some names, by their offsets
    _window = range(0)  # the indexes of the items whose names were looked for last

    def names(self: Any, errors: str = 'strict') -> List[Optional[str]]:
        """Returns the names of all items in one pass: see `Strings.get_all`."""
        offsets = array('Q')
        for _, structs in self._chunks(0, len(self)):
            offsets += self._offsets(structs)
        return list(self.strtab._get_all(offsets, errors))

    def _offsets(self, structs: memoryview) -> 'array[int]':
        return array('Q', self.record.column(self.record.fields[0], structs))

    def _learn(self: Any, index: int, offset: int) -> Optional[str]:
        """Returns a name that is not known. If names are asked for in order, of bytes that can't be written, it reads the next ones, too."""
        known: Dict[int, str] = {}
        if 0 <= index - self._window.stop < NEAR and self.elf._file.is_fixed:
            self._window = range(index, index + min(max(AHEAD, 2 * len(self._window)), CHUNK))
            for _, structs in self._chunks(index, min(self._window.stop, len(self))):
                offsets = self._offsets(structs)
                known = self._known = dict(zip(offsets, self.strtab._first(offsets, 0)))
        else:
            self._window = range(index, index + 1)
        name: Optional[str] = known[offset] if offset in known else self.strtab.get(offset)
        return name


class Sections(NamedTable[Section]):
    """The section headers. Refused if they are not all inside the file: see `Elf.whole`."""
    record, item, one, many, sizes = RECORDS['section'], Section, 'section', 'sections', (SIZEOF_SHDR32, SIZEOF_SHDR64)

    def _start(self) -> int:
        return self.elf.header.e_shoff

    @functools.cached_property
    def strtab(self) -> 'Strings':
        """The section names: an empty table if the file has none. Refused if the section headers are."""
        names = self._find(0, 'names_section')
        return Strings(self.elf, *(names.sh_offset, names.sh_size) if names else (0, 0))


class Segments(Table[Segment]):
    """The program headers. Refused if they are not all inside the file: see `Elf.whole`."""
    record, item, one, many = RECORDS['segment'], Segment, 'segment', 'segments'


class Symbols(NamedTable[Symbol]):
    """The symbols in a range of the file, with the string table of their names: none by default."""
    record, item, one, many, sizes = RECORDS['symbol'], Symbol, 'symbol', 'symbols', (SIZEOF_SYM32, SIZEOF_SYM64)

    def __init__(self, elf: 'Elf', offset: int, size: int, strtab: Optional['Strings'] = None) -> None:
        super().__init__(elf, RANGE.pack((offset, size)))
        self.strtab = strtab or Strings(elf, 0, 0)

    def symbol_by_name(self, name: Name, first: int = 0) -> Optional[Symbol]:
        """Returns the first symbol with a name, from an index on, or `None`. Refused as the strings are."""
        return self.elf._search(self, 'symbol_by_name', *self._arguments, self.strtab._range, *named(name), unsigned(first))

    def symbol_by_address(self, address: int) -> Optional[Symbol]:
        """Returns the symbol that contains an address, or else a label at it or before it in its section, or `None`: see
        `goblin_symbol_by_address`. Each call reads all symbols. Refused if the section headers are."""
        index = self.elf._find_number('symbol_by_address', *self._arguments, unsigned(address))
        return None if index is None else self[index]


class Relocations(Table[Relocation]):
    """The relocations in a range of the file, with addends or without, and the section that they are."""
    record, item, one, many = RECORDS['reloc'], Relocation, 'reloc', 'relocs'

    def __init__(self, elf: 'Elf', offset: int, size: int, is_rela: bool, section: Optional[Section] = None) -> None:
        super().__init__(elf, RANGE.pack((offset, size)), is_rela)
        self.section, self._is_rela = section, is_rela
        self._class = Relocation._read if is_rela else WITHOUT_ADDEND
        self.sizes = (SIZEOF_RELA32, SIZEOF_RELA64) if is_rela else (SIZEOF_REL32, SIZEOF_REL64)

    @functools.cached_property
    def symtab(self) -> Symbols:
        """The symbols that they refer to: none if their section links to none. Refused as `Section.symtab` is."""
        linked = self.section.linked_section if self.section else None
        return linked.symtab if linked else Symbols(self.elf, 0, 0)

    def _check(self, item: Relocation, place: int) -> None:
        super()._check(item, place)
        # (the library refuses an addend of a table without addends, unless it is 0)
        if (item.r_addend is None) == self._is_rela and not item.r_addend:
            is_64 = self.elf.is_64
            where = self._start() + place * self.sizes[is_64] + (SIZEOF_REL64 if is_64 else SIZEOF_REL32)
            raise refused(REFUSAL.pack((Kind.INTEGER_FIT, Item.ADDEND, 0, 0, 0, 0, where)))

    def _with_fields(self, item: Relocation) -> Relocation:
        return item.replace(r_addend=item.r_addend or 0)


# The class of relocations that are read of a table without addends.
WITHOUT_ADDEND = type(Relocation._read)('Relocation', (Relocation._read,), {'__slots__': (), '__module__': __name__, 'r_addend': None})


class Dynamic(Table[Dyn]):
    """The entries of a dynamic section in a range of the file, up to the first DT_NULL. Refused if the range is not inside the file. `strings`
    are those that its names are in: by default those at the address that it says."""
    record, item, one, many = RECORDS['dyn'], Dyn, 'dynamic', 'dynamic_entries'

    def __init__(self, elf: 'Elf', offset: int, size: int, strings: Optional['Strings'] = None) -> None:
        super().__init__(elf, RANGE.pack((offset, size)))
        self.offset, self._given = offset, strings

    @functools.cached_property
    def strings(self) -> 'Strings':
        """Its strings: an empty table if it does not say where they are. Refused if they are not inside the file."""
        elf = self.elf
        return self._given or Strings(elf, *(found('dynamic_strings', RANGE, elf._image, *self._arguments) or (0, 0)))

    def _refuse(self, tag: int, value: int) -> NoReturn:
        said = f'An entry of the dynamic section with the tag {tag:#x} names no string: {value}'
        raise Refused(said, Kind.NO_STRING, 0, (tag, value), self.offset)

    def value(self, tag: int) -> Optional[int]:
        """Returns the value of the first entry with a tag, or `None`."""
        index = ctypes.c_uint64()
        return self.elf._find_number('dynamic_value', *self._arguments, unsigned(tag), 0, ctypes.byref(index))

    def _get(self, index: int) -> Optional[Dyn]:
        return next(self._items(index, index + 1), None)


# How names of notes are decoded. (In some files one holds numbers: .gnu.build.attributes.)
ESCAPED = 'surrogateescape'


class Notes(Table[Note]):
    """The notes in a range of the file, as a segment or a section of notes has them. Refused at the first damaged note, and if a name is not
    UTF-8, whose last byte is left out. With other `errors` than 'strict' a name is decoded as they mean instead, without all zero bytes at its
    end, and a note must lie in the range whole. With 'surrogateescape', as in `notes` of a section, a segment and a file, no name is refused, and
    `name.encode('utf-8', 'surrogateescape')` are its bytes."""
    record, item = RECORDS['note'], Note

    def __init__(self, elf: 'Elf', offset: int, size: int, alignment: int, errors: str = 'strict') -> None:
        self.elf, self._arguments, self._errors = elf, (RANGE.pack((offset, size)), unsigned(alignment)), errors
        self.one = 'note_utf8' if errors == 'strict' else 'note_whole'
        # (a note's header, which has 12 bytes, is before its name)
        self._places = array('Q', (fields[0] - 12 for fields in read_notes(elf, self.one, *self._arguments, offset)))

    def _items(self, first: int, end: int) -> Iterator[Note]:
        return map(self.__getitem__, range(first, end))

    def _get(self, index: int) -> Optional[Note]:
        arguments = self.record, self.elf._image, *self._arguments, self._places[index]
        fields = found(self.one, *arguments)
        try:
            return note_of(self.elf, fields, self._errors) if fields else None
        except UnicodeDecodeError:  # (as in `Strings.get`)
            return note_of(self.elf, found('note_utf8', *arguments) or fields or ())


def note_with(n_type: int, name: str, desc: bytes) -> Note:
    """Returns a note that was pickled."""
    return Note(n_type=n_type, name=name, desc=memoryview(desc))


def read_notes(elf: 'Elf', name: str, place: bytes, alignment: int, offset: int) -> Iterator[Fields]:
    """Yields the fields of the structs of the notes in a range from an offset of the file on, as a call reads them."""
    while fields := found(name, RECORDS['note'], elf._image, place, alignment, offset):
        yield fields
        offset = fields[4]


def note_of(elf: 'Elf', fields: Fields, errors: str = 'strict') -> Note:
    """Returns the note of the fields of a struct."""
    name = bytes(elf._file.part(*fields[:2])) if errors == 'strict' else name_of_note(elf, fields).rstrip(b'\0')
    return Note(n_type=fields[5], name=str(name, 'utf-8', errors), desc=elf._file.part(*fields[2:4]))


def name_of_note(elf: 'Elf', fields: Fields) -> bytes:
    """Returns the whole name of a note."""
    offset, size = fields[:2]
    # (its last byte, if it has one, is not in the struct, and the header begins with its size)
    return bytes(elf._file.part(offset, size + 1 if size else elf.number(offset - 12, 4)))


class Strings:
    """A string table: a range of the file. The offsets of its strings count from its start, in bytes."""

    def __init__(self, elf: 'Elf', offset: int, size: int) -> None:
        self._file, self._image, self.offset, self.size = elf._file, elf._image, offset, size
        self._range: bytes = RANGE.pack((offset, size))

    def get(self, offset: int, errors: str = 'strict') -> Optional[str]:
        """Returns the string at an offset, or `None` past the end. Refused if the table is not inside the file, or if the string is not
        UTF-8. With other `errors` of `bytes.decode` than 'strict', such as 'replace' or 'surrogateescape', it is decoded as they mean instead."""
        place = found('string_utf8' if errors == 'strict' else 'string', RANGE, self._image, self._range, unsigned(offset))
        try:
            return str(self._file.part(*place), 'utf-8', errors) if place else None
        except UnicodeDecodeError:  # ('surrogatepass' does not take each byte: the library says what is wrong)
            return self.get(offset)

    def get_bytes(self, offset: int) -> Optional[bytes]:
        """Returns the bytes of the string at an offset, which need not be UTF-8, as `get` does."""
        place = found('string', RANGE, self._image, self._range, unsigned(offset))
        return bytes(self._file.part(*place)) if place else None

    def get_closed_bytes(self, offset: int) -> Optional[bytes]:
        """Returns the bytes of the string at an offset, as `get_bytes` does, if a zero byte of the table closes it: `None` if it ends with the
        table."""
        place = found('string_closed', RANGE, self._image, self._range, unsigned(offset))
        return bytes(self._file.part(*place)) if place else None

    @property
    def closed(self) -> 'Strings':
        """The part of the table up to its last zero byte, which closes a string at each offset in it. Refused as `get_bytes` is."""
        own: Any = self
        return Strings(own, *(found('closed_strings', RANGE, self._image, self._range) or ()))

    def get_start(self, offset: int, most: int) -> Optional[bytes]:
        """Returns the first bytes of the string at an offset, at most `most`, and reads no more of them, as `get_bytes` does."""
        if unsigned(offset) >= self.size:
            return self.get_bytes(offset)
        self.get_bytes(self.size)  # (refused if the table is)
        start = RANGE.pack((self.offset + offset, min(self.size - offset, most)))
        return bytes(self._file.part(*found('string', RANGE, self._image, start, 0) or (0, 0)))

    def is_at(self, offset: int, name: Name) -> bool:
        """Whether the string at an offset is a name, which is compared as bytes (a str as its UTF-8). Past the end there is none. Refused if
        the table is not inside the file."""
        return self._compare('string_is', offset, name)

    def starts_at(self, offset: int, start: Name) -> bool:
        """Whether the string at an offset starts with a text, as `is_at`."""
        return self._compare('string_starts', offset, start)

    def _compare(self, name: str, offset: int, text: Name) -> bool:
        # (a call that finds no such string does not say why)
        return bool(FUNCTIONS[name](self._image, self._range, unsigned(offset), *named(text))) or self.get_bytes(self.size) is not None

    def get_all(self, offsets: Iterable[int], errors: str = 'strict') -> List[Optional[str]]:
        """Returns the strings at many offsets in one pass, each as `get` does. Refused also if no zero byte of the table closes one, and if those
        at different offsets overlap so that they have more than 16 MiB and four times the bytes of the table."""
        return self._get_all(array('Q', map(unsigned, offsets)), errors)

    def _get_all(self, offsets: 'array[int]', errors: str) -> List[Optional[str]]:
        texts: List[Optional[str]] = []
        left = max(TEXTS, OVERLAPS * self.size)
        if not self._are_short():
            return self._get_each_once(offsets, errors, self._closed)
        while len(texts) < len(offsets):
            some = self._first(offsets, len(texts), errors)
            left -= sum(map(len, some))
            if left < 0:
                return self._get_each_once(offsets, errors, self._closed)
            texts += some
            texts += [self._closed(offset, errors) for offset in offsets[len(texts):len(texts) + 1]]
        return texts

    def _are_short(self) -> bool:
        """Whether a zero byte is among any LONGEST bytes of the table that follow one another, and one more."""
        at, end = self.offset, self.offset + self.size
        while end - at > LONGEST:
            place = bytes(self._file.source[at:at + LONGEST + 1]).rfind(b'\0')
            if place < 0:
                return False
            at += place + 1
        return True

    def _get_each_once(self, offsets: Sequence[int], errors: str, read: Callable[[int, str], Optional[str]]) -> List[Optional[str]]:
        """Returns the strings at offsets as a function reads them, of which those at the same one are the same object."""
        known: Dict[int, Optional[str]] = {}
        left = max(TEXTS, OVERLAPS * self.size)
        for offset in offsets:
            if offset not in known:
                known[offset] = text = read(offset, errors)
                left -= len(text or '')
                if left < 0:
                    said = f'Strings at {len(known)} offsets of their table have more than {OVERLAPS} times its bytes: {self.size}'
                    raise Refused(said, Kind.OVERLAP, 0, (len(known), self.size), self.offset)
        return [known[offset] for offset in offsets]

    def _closed(self, offset: int, errors: str) -> Optional[str]:
        """Returns a string as `get` does. Refused also if no zero byte of the table closes it."""
        if offset < self.size and self.get_closed_bytes(offset) is None:
            raise Refused(f'No zero byte closes the string at offset {offset} of its table', Kind.OPEN_STRING, 0, (offset,), self.offset + offset)
        return self.get(offset, errors)

    def _first(self, offsets: 'array[int]', start: int, errors: str = 'strict') -> List[str]:
        """Returns some of the strings at offsets, from an index on, up to the first one that is refused, open or past the end, or sooner."""
        texts: List[str] = []
        count, filled = min(len(offsets) - start, CHUNK), ctypes.c_uint64()
        ranges = array('Q', (0, 0)) * count
        FUNCTIONS['strings'](self._image, self._range, offsets.buffer_info()[0] + 8 * start, count,
                             ranges.buffer_info()[0], count, ctypes.byref(filled), REFUSAL.buffer())
        count = filled.value
        while sum(ranges[1:2 * count:2]) > TEXTS:
            count //= 2
        source, end = self._file.source, self.offset + self.size
        if count and self._file.view[end - 1]:
            count = next((i for i in range(count) if ranges[2 * i] + ranges[2 * i + 1] == end), count)
        # (the library finds strings that are not UTF-8, too: `get` refuses the first one)
        with contextlib.suppress(UnicodeDecodeError):
            texts.extend(str(source[at:at + size], 'utf-8', errors) for at, size in zip(ranges[:2 * count:2], ranges[1::2]))
        return texts


def named(name: Name) -> Tuple[bytes, int]:
    """Returns a name as the library takes it: its bytes, which are UTF-8 of a str, and their number."""
    encoded = name.encode('utf-8', 'surrogateescape') if isinstance(name, str) else bytes(memoryview(name))
    return encoded, len(encoded)
