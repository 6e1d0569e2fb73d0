"""A file as a whole."""
import contextlib
import ctypes
import itertools
import mmap
import os
import stat
import sys
from typing import IO, Any, Callable, Iterable, Iterator, List, Optional, Tuple, Union

from . import _interface, _items
from ._items import (ESCAPED, Dynamic, E, Fields, Header, Name, Note, Relocations, Section, Sections, Segment, Segments, Strings, Symbol, Symbols,
                     Table, name_of_note, named, note_of, read_notes)
from ._library import FILE, FUNCTIONS, HEADER, RANGE, File, call, found, unsigned
from ._names import class_to_str, et_to_str, machine_to_str
from ._refused import Unknown, within
from .constants import (DT_NEEDED, DT_RPATH, DT_RUNPATH, DT_SONAME, ELFCLASS64, ELFDATA2MSB, PT_INTERP, PT_NOTE, SHT_DYNSYM,
                        SHT_NOTE, SHT_SYMTAB)

# (before Python 3.9 it takes no type)
if sys.version_info >= (3, 9):
    Path = Union[Name, os.PathLike[str]]
else:
    Path = Union[Name, os.PathLike]

# The most segments, and notes, in which a note is looked for.
SEGMENTS, NOTES = 1 << 17, 1 << 16


def content_of(file: IO[bytes], copy: bool = False) -> Any:
    """Returns the bytes of an open file that is not read yet, mapped or read as `Elf.open` says."""
    status = os.fstat(file.fileno())
    if not copy and stat.S_ISREG(status.st_mode) and status.st_size >= 1 << 16:
        with contextlib.suppress(ValueError):  # (it may be emptied meanwhile)
            return mmap.mmap(file.fileno(), 0, access=mmap.ACCESS_READ)
    return file.read()


def name_of(to_str: Callable[[int], str], number: int) -> str:
    """Returns the name of a number, after which the number stands if it has none."""
    name = to_str(number)
    return f'{name} ({number})' if 'UNKNOWN' in name else name


def checked(header: Header) -> Header:
    """Returns a header. Raises a TypeError if it is none."""
    if not isinstance(header, Header):
        raise TypeError(f'a header is a Header, such as elf.header.replace(e_entry=0), and no {type(header).__name__}')
    return header


def header_in(image: Any) -> Header:
    """Returns the header of a file as the library has it."""
    return Header._read.from_buffer(image, FILE.size - HEADER.size)  # type: ignore[no-any-return]


class Elf:
    """An ELF file in memory, with its header. Everything else is read on demand.

    `buffer` is any object with a buffer of contiguous bytes, such as bytes, a memoryview or an mmap. It is kept, and neither copied nor
    changed but by what writes. Its length can't change while this object, or a memoryview that it returned, lives. `header` is the header
    to read by, in place of that of the file: see `whole`. Threads may read a file at once, and calls let go of Python's lock. Nothing may
    write the bytes during a call.

    Refused if the file is too short, does not start with the magic number, or has an invalid class or byte order.
    """

    def __init__(self, buffer: Any, header: Optional[Header] = None) -> None:
        self._file = File(buffer)
        self._use(header)

    def _use(self, header: Optional[Header]) -> None:
        place = self._file.address, self._file.length
        if header is None:
            self._image: Any = FILE.buffer()
            call('file', *place, self._image)
            self._header = header_in(self._image)
        else:
            self._header = checked(header)
            self._image = FILE.pack([*place, *header.as_dict().values()])

    @classmethod
    def open(cls, path: Path, *, copy: bool = False) -> 'Elf':
        """Maps a file into memory, or reads it if it has less than 64 KiB, if `copy` is true, or if it is no regular file. Raises OSError.

        The mapping, and the file descriptor that it holds, live as long as what needs them: a table, an item, or a memoryview such as
        `build_id`, of which `bytes` is a copy that needs neither. There is no call to close them. If another program makes a mapped file
        shorter, the operating system ends this one when it reads past the new end (SIGBUS). Use `copy` if that may be.
        """
        with open(path, 'rb', buffering=0) as file:
            return cls(content_of(file, copy))

    def whole(self) -> 'Elf':
        """Returns the same file by a header that counts only what lies in it whole: the headers of a file that is cut. Never refused."""
        whole = FILE.buffer()
        FUNCTIONS['whole_header'](self._image, whole)
        return Elf(self._file.view, header_in(whole))

    @property
    def header(self) -> Header:
        """The header that all is read by. `put_header` writes another one, and `Elf(elf.bytes, header)` reads by another one."""
        return self._header

    @property
    def _type(self) -> str:
        return name_of(et_to_str, self.header.e_type)

    @property
    def _machine(self) -> str:
        return name_of(machine_to_str, self.header.e_machine)

    @property
    def bytes(self) -> memoryview:
        """The bytes of the file, without a copy."""
        return self._file.part(0, self._file.length)

    @property
    def is_64(self) -> bool:
        """Whether the file is of the 64-bit class."""
        return self.header.ei_class == ELFCLASS64

    @property
    def little_endian(self) -> bool:
        """Whether the file is little endian."""
        return self.header.ei_data != ELFDATA2MSB

    @property
    def section_headers(self) -> Sections:
        """The section headers. Refused if they are not all inside the file."""
        return Sections(self)

    @property
    def program_headers(self) -> Segments:
        """The program headers. Refused if they are not all inside the file."""
        return Segments(self)

    @property
    def syms(self) -> Symbols:
        """The symbols of the first section of type SHT_SYMTAB, or none. Refused if the section headers or the table are."""
        return section.symtab if (section := self.section_by_type(SHT_SYMTAB)) else Symbols(self, 0, 0)

    @property
    def dynsyms(self) -> Symbols:
        """The symbols of the first section of type SHT_DYNSYM, or none. Refused as `syms` is."""
        return section.symtab if (section := self.section_by_type(SHT_DYNSYM)) else Symbols(self, 0, 0)

    def section_by_name(self, name: Name, first: int = 0) -> Optional[Section]:
        """Returns the first section with a name, from an index on, or `None`. Refused if the section headers or their names are."""
        table = Sections(self)
        return self._search(table, 'section_by_name', table.strtab._range, *named(name), unsigned(first))

    def section_by_type(self, sh_type: int, first: int = 0) -> Optional[Section]:
        """Returns the first section of a type, from an index on, or `None`. Refused if the section headers are."""
        return self._search(Sections(self), 'section_by_type', unsigned(sh_type, 32), unsigned(first))

    def _search(self, table: Table[E], name: str, *arguments: Any) -> Optional[E]:
        """Makes a call that finds an item of a table and its index, or `None` at GOBLIN_END."""
        index = ctypes.c_uint64()
        return table._find(index, name, *arguments, ctypes.byref(index))

    @property
    def notes(self) -> Iterator[Note]:
        """The notes of all segments of type PT_NOTE, or if there are none, of all sections of type SHT_NOTE, as they are read. The segments hold
        those that are loaded. Others, as the GNU build ID of a program in Go may be, are in sections alone: see `Section.notes`, `build_id`.
        Refused as the headers are, and then at the first damaged note."""
        segments = (segment for segment in self.program_headers if segment.p_type == PT_NOTE)
        first = next(segments, None)
        return self._notes(itertools.chain([first], segments) if first else self._note_sections())

    def _note_sections(self) -> Iterator[Section]:
        section = self.section_by_type(SHT_NOTE)
        while section:
            yield section
            section = self.section_by_type(SHT_NOTE, section.index + 1)

    def _notes(self, holders: Iterable[Union[Segment, Section]]) -> Iterator[Note]:
        for holder in holders:
            yield from (note_of(self, fields, ESCAPED) for fields in self._fields_of_notes(holder))

    def _fields_of_notes(self, holder: Union[Segment, Section]) -> Iterator[Fields]:
        return read_notes(self, 'note_whole', RANGE.pack(holder._place), holder._alignment, holder._place[0])

    @property
    def build_id(self) -> Optional[memoryview]:
        """The descriptor of the first note GNU of type NT_GNU_BUILD_ID of the segments or, if they have none, of the sections, or `None`.
        Refused as these are, and then at the first damaged note. Of all these notes the first 65,536 are read. Names of other notes need not be
        UTF-8."""
        place = found('build_id', RANGE, self._image)
        return None if place is None else self._file.part(*place)

    def _note(self, n_type: int) -> Optional[memoryview]:
        """Returns the descriptor of the first note GNU of a type, or `None`. Raises `Unknown` if it may come after all that is read."""
        segments = (segment for segment in within(SEGMENTS, self.program_headers) if segment.p_type == PT_NOTE)
        holders: Iterator[Union[Segment, Section]] = itertools.chain(segments, self._note_sections())
        # (a segment or section counts as a note, which comes before its own)
        own: Fields = ()
        notes = itertools.chain.from_iterable(itertools.chain([own], self._fields_of_notes(holder)) for holder in holders)
        for fields in itertools.islice(notes, NOTES):
            if fields and fields[5] == n_type and fields[1] == 3 and name_of_note(self, fields) == b'GNU\0':
                return self._file.part(*fields[2:4])
        if next(notes, None) is not None:
            raise Unknown
        return None

    @property
    def dynamic_section(self) -> Dynamic:
        """The dynamic section: that of the first segment of type PT_DYNAMIC, or in a file without program headers of the first section of type
        SHT_DYNAMIC. It has no entries if there is none. Refused if the headers or the section are not inside the file."""
        offset, size = self._dynamic_place() or (0, 0)
        return Dynamic(self, offset, size)

    def _dynamic_place(self) -> Optional[Tuple[int, ...]]:
        """Returns the range of the dynamic section, if there is one."""
        return found('dynamic', RANGE, self._image)

    def _names(self, tag: int, read: Callable[[Strings, List[int]], List[Optional[str]]]) -> List[str]:
        """Returns the strings of all entries with a tag."""
        dynamic = self.dynamic_section
        offsets = [entry.d_val for entry in dynamic if entry.d_tag == tag]
        names = read(dynamic.strings, offsets) if offsets else []
        return [name if name is not None else dynamic._refuse(tag, offset) for name, offset in zip(names, offsets)]

    def _paths(self, tag: int) -> List[str]:
        return self._names(tag, lambda strings, offsets: strings._get_each_once(offsets, ESCAPED, strings.get))

    @property
    def libraries(self) -> List[str]:
        """The names of the libraries that the file needs (DT_NEEDED), in its order. Refused as `dynamic_section` is, or if one is not in its
        strings, and as `Strings.get_all` is. Bytes that are not UTF-8 are decoded with 'surrogateescape', here and below."""
        return self._names(DT_NEEDED, lambda strings, offsets: strings.get_all(offsets, ESCAPED))

    @property
    def soname(self) -> Optional[str]:
        """The name of this library, or `None`. Refused as `dynamic_section` is, or if it is not in its strings."""
        return next((entry.string for entry in self.dynamic_section if entry.d_tag == DT_SONAME), None)

    @property
    def rpaths(self) -> List[str]:
        """The folders in which needed libraries are looked for first, with colons between: mostly one text. Refused as `libraries` is, but not
        if no zero byte closes one."""
        return self._paths(DT_RPATH)

    @property
    def runpaths(self) -> List[str]:
        """The folders in which needed libraries are looked for after those of LD_LIBRARY_PATH, as `rpaths`, which do not count if there are
        some of these. Refused as `rpaths` is."""
        return self._paths(DT_RUNPATH)

    @property
    def interpreter(self) -> Optional[str]:
        """The path in the first segment of type PT_INTERP, or `None`. Refused if the program headers or the path are not inside the file."""
        segment = next((segment for segment in self.program_headers if segment.p_type == PT_INTERP), None)
        return segment.strtab.get(0, ESCAPED) if segment else None

    def symbol_by_address(self, address: int) -> Optional[Symbol]:
        """Returns the symbol of an address, of the symbols or, if there are none, of the dynamic symbols, or `None`: see `Symbols`."""
        return (self.syms or self.dynsyms).symbol_by_address(address)

    def address_to_offset(self, address: int) -> Optional[int]:
        """Returns the offset in the file of the byte that is loaded at an address, or `None` if there is none."""
        return self._find_number('address_to_offset', unsigned(address))

    def number(self, offset: int, width: int) -> int:
        """Returns the number in `width` bytes (1, 2, 4 or 8) at an offset, in the file's order. Refused if it is not inside the file."""
        return self._number('number', unsigned(offset), unsigned(width))

    def put_header(self, header: Header) -> None:
        """Writes a header at the start of the file, in the class and byte order that it names, and reads by it from now on. Refused if its
        class or byte order is invalid, if the file is too short for it, or if a number does not fit its class."""
        self._write('put_header', HEADER.pack_item(checked(header)))
        self._use(None)

    def put_number(self, offset: int, width: int, value: int) -> None:
        """Writes a number into `width` bytes (1, 2, 4 or 8) at an offset. Refused if it does not fit, or is not inside the file."""
        self._put_number('put_number', offset, width, value)

    def _put_number(self, name: str, *arguments: Any) -> None:
        *places, offset, width, value = arguments
        if not self._write(name, HEADER.pack_item(self._header), *places, unsigned(offset), unsigned(width), unsigned(value)):
            raise ValueError('the width of a number is 1, 2, 4 or 8')

    def _number(self, name: str, *arguments: Any) -> int:
        value = self._find_number(name, *arguments)
        if value is None:
            raise ValueError('the width of a number is 1, 2, 4 or 8')
        return value

    def _find_number(self, name: str, *arguments: Any) -> Optional[int]:
        """Makes a call that returns a number, or `None` at GOBLIN_END."""
        value = ctypes.c_uint64()
        return value.value if call(name, self._image, *arguments, ctypes.byref(value)) else None

    def _write(self, name: str, *arguments: Any) -> bool:
        """Makes a call that writes into the file, and returns whether there is such an item."""
        if self._file.view.readonly:
            raise TypeError('the bytes of this file are read-only: make it of a bytearray, or of a mapping that can be written')
        return call(name, self._file.address, self._file.length, *arguments)

    def __repr__(self) -> str:
        names = class_to_str(self.header.ei_class), self._type, self._machine
        return f'<Elf: {" ".join(names)}, {self._file.length} bytes>'


# (typing.get_type_hints looks for what annotations name in their own modules, which can't import it)
vars(_items).update(Elf=Elf)
vars(_interface).update(Dynamic=Dynamic, Relocations=Relocations, Sections=Sections, Segments=Segments, Symbols=Symbols)
