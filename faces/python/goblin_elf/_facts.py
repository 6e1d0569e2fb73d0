"""What a person asks first of a file. It is made of the library's results, but what flags and names mean is said here: that is not proved, but
tested. All of it is bounded, whatever a file holds: a fact that needs more than is read is unknown."""
import contextlib
import functools
import itertools
from typing import Any, Callable, Dict, Iterator, List, Optional, Tuple

from . import constants as abi
from ._elf import SEGMENTS, Elf
from ._items import Dynamic, E, Relocations, Section, Segment, Strings, Table
from ._marks import compilers, control_flow, has_canary
from ._names import class_to_str
from ._refused import Refused, Unknown, within

# The most that a fact is made of: entries of a dynamic section, or tables of relocations, bytes of a text and of a build ID, sections,
# characters of all names, and relocations; and the most sections, segments and symbols in which one is looked for.
ENTRIES, TEXT, ID, SECTIONS, NAMES, RELOCATIONS, SEARCHED = 4096, 4095, 64, 1 << 20, 1 << 16, 1 << 22, 1 << 24
# (an operator on plain numbers is much faster than one on flags)
ALLOC, EXECINSTR, WRITE = int(abi.SHF_ALLOC), int(abi.SHF_EXECINSTR), int(abi.SHF_WRITE)
# The tags, each with a flag or 0, of the entries that say that an ET_DYN is a program, and that a file is bound at its start.
PIE: Dict[int, int] = {abi.DT_DEBUG: 0, abi.DT_FLAGS_1: abi.DF_1_PIE}
NOW: Dict[int, int] = {abi.DT_BIND_NOW: 0, abi.DT_FLAGS: abi.DF_BIND_NOW, abi.DT_FLAGS_1: abi.DF_1_NOW}
# By machines the type of a relocation that writes what a function returns, R_.._IRELATIVE of their psABIs, as elf.h of glibc 2.36 has it.
IRELATIVE: Dict[int, Tuple[int, ...]] = {
    abi.EM_SPARC: (249,), abi.EM_386: (42,), abi.EM_SPARC32PLUS: (249,), abi.EM_PPC: (248,), abi.EM_PPC64: (248,), abi.EM_S390: (61,),
    abi.EM_ARM: (160,), abi.EM_SPARCV9: (249,), abi.EM_X86_64: (37,), abi.EM_AARCH64: (188, 1032), abi.EM_RISCV: (58,), abi.EM_LOONGARCH: (12,)}


class Parts(Elf):
    """A file, and what its facts are made of."""

    @functools.cached_property
    def own_segments(self) -> List[Segment]:
        return within(SEGMENTS, self.program_headers)[:]

    def _search(self, table: Table[E], name: str, *arguments: Any) -> Optional[E]:
        return super()._search(within(SEARCHED, table), name, *arguments)

    def _dynamic_place(self) -> Optional[Tuple[int, ...]]:
        if not within(SEARCHED, self.program_headers):
            within(SEARCHED, self.section_headers)
        return super()._dynamic_place()

    def has_segment(self, p_type: int, flags: int = 0) -> bool:
        """Whether a segment of a type has all of some flags."""
        return any(segment.p_type == p_type and segment.p_flags & flags == flags for segment in self.own_segments)

    def own_sections(self) -> Iterator[Section]:
        """Yields the sections. (The first header is of none: its size may be the number of sections.)"""
        return itertools.islice(within(SECTIONS, self.section_headers), 1, None)

    @functools.cached_property
    def kind(self) -> str:
        if self.header.e_type not in (abi.ET_EXEC, abi.ET_DYN):
            return 'object' if self.header.e_type == abi.ET_REL else 'core' if self.header.e_type == abi.ET_CORE else 'other'
        with contextlib.suppress(Refused, Unknown):
            if abi.SHT_NOBITS in {section.sh_type for section in self.own_sections() if section.sh_flags & ALLOC} <= {abi.SHT_NOBITS, abi.SHT_NOTE}:
                return 'debug file'
        with contextlib.suppress(Refused, Unknown):
            return 'program' if self.header.e_type == abi.ET_EXEC or self.says(PIE) else 'library'
        return 'program or library'

    def is_static(self) -> bool:
        return self.kind == 'program' and not self.has_segment(abi.PT_INTERP)

    @functools.cached_property
    def entries(self) -> Dynamic:
        """The dynamic section. It is unknown if its bytes are in another file, as those of a debug file."""
        return within(ENTRIES, None if (place := self._dynamic_place()) and place[1] == 0 and self.program_headers else self.dynamic_section)

    def says(self, marks: Dict[int, int]) -> bool:
        """Whether the first entry with one of some tags has its flag, if one is given."""
        return any((value := self.entries.value(tag)) is not None and value & flag == flag for tag, flag in marks.items())

    def tables(self) -> Iterator[Tuple[Relocations, bool]]:
        """Yields the tables of relocations that are loaded, each with whether calls go through all that it writes."""
        says = self.entries.value
        for tag, size_tag, is_rela in ((abi.DT_RELA, abi.DT_RELASZ, True), (abi.DT_REL, abi.DT_RELSZ, False),
                                       (abi.DT_JMPREL, abi.DT_PLTRELSZ, says(abi.DT_PLTREL) == abi.DT_RELA)):
            address, size = says(tag), says(size_tag)
            if address is not None and size:
                offset = self.address_to_offset(address)
                if offset is None:
                    raise Unknown
                yield Relocations(self, offset, size, is_rela), tag == abi.DT_JMPREL
        if not self.entries:
            if self.has_segment(abi.PT_INTERP) or not self.section_headers:
                raise Unknown
            loaded = [section for section in self.own_sections() if section.sh_type in (abi.SHT_RELA, abi.SHT_REL)
                      and section.sh_flags & ALLOC]
            yield from ((section.relocs, False) for section in within(ENTRIES, loaded))

    def slots(self) -> Iterator[int]:
        """Yields the addresses of what relocations write and calls go through. It is unknown for a machine whose numbers are not here."""
        kinds, left = within(ENTRIES, IRELATIVE.get(self.header.e_machine)), RELOCATIONS
        for table, is_called in self.tables():
            left -= len(within(left, table))
            for _, structs in table._chunks(0, len(table)):
                offsets, types = (table.record.column(field, structs) for field in ('r_offset', 'r_type'))
                yield from (offset for offset, kind in zip(offsets, types) if is_called or kind in kinds)

    def relro(self) -> str:
        """Whether no slot that calls go through can be written after the start: 'full' if the last PT_GNU_RELRO, which loaders take, holds all."""
        held = [(segment.p_vaddr, segment.p_vaddr + segment.p_memsz) for segment in self.own_segments if segment.p_type == abi.PT_GNU_RELRO]
        if not held or FACTS['bind_now'](self) is False:
            return 'partial' if held else 'no'
        (low, high), size = held[-1], 8 if self.is_64 else 4
        return 'full' if all(low <= slot and slot + size <= high for slot in self.slots()) else 'partial'

    def texts(self, tag: int) -> Iterator[str]:
        """Yields the strings of the entries with a tag."""
        left = NAMES
        for entry in (entry for entry in self.entries if entry.d_tag == tag):
            name = within(left, text(self.entries.strings, entry.d_val) or entry.string)
            left -= len(name)
            yield name

    def first_text(self, tag: int) -> Optional[str]:
        return next(self.texts(tag), None)

    def is_cut(self) -> bool:
        """Whether the headers, or the bytes of a section or a segment, are not all in the file. A debug file lacks those of its segments."""
        with contextlib.suppress(Refused):
            segments = [segment._place for segment in self.own_segments if segment.p_type != abi.PT_NULL and self.kind != 'debug file']
            sections = (section._place for section in self.own_sections() if section.sh_type != abi.SHT_NULL)
            return any(size > 0 and offset + size > self._file.length for offset, size in itertools.chain(segments, sections))
        return True

    def sizes(self) -> Dict[str, int]:
        """The sizes of the sections in bytes, by what they are for."""
        sizes = {'code': 0, 'data': 0, 'read_only': 0, 'zeros': 0, 'not_loaded': 0}
        for section in self.own_sections():
            loaded = 'code' if section.sh_flags & EXECINSTR else 'data' if section.sh_flags & WRITE else 'read_only'
            sizes['zeros' if section.sh_type == abi.SHT_NOBITS else loaded if section.sh_flags & ALLOC else 'not_loaded'] += section.sh_size
        return sizes


def text(strings: Strings, offset: int) -> Optional[str]:
    """Returns the string at an offset, or `None` past the end. It is unknown if it has more than TEXT bytes."""
    return None if (start := strings.get_start(offset, TEXT + 1)) is None else str(within(TEXT, start), 'utf-8', 'surrogateescape')


# What only programs and libraries have, and what some kinds of files lack.
LOADED = ('interpreter', 'pie', 'nx', 'relro', 'bind_now', 'writable_code')
LACKS = {'object': LOADED, 'other': LOADED, 'core': (*LOADED, 'canary', 'control_flow', 'compilers', 'stripped'),
         'debug file': (*LOADED, 'soname', 'rpath', 'runpath', 'needed', 'canary', 'control_flow')}
# The facts, each with what reads it: it is refused, or raises `Unknown`, if it can't be read.
FACTS: Dict[str, Callable[[Parts], Any]] = {
    'kind': lambda of: of.kind, 'type': lambda of: of._type, 'class': lambda of: class_to_str(of.header.ei_class),
    'order': lambda of: 'little' if of.little_endian else 'big', 'machine': lambda of: of._machine,
    'entry': lambda of: of.header.e_entry,
    'build_id': lambda of: None if (found := of._note(abi.NT_GNU_BUILD_ID)) is None else within(ID, found).hex(),
    'interpreter': lambda of: next((within(TEXT, text(path.strtab, 0)) for path in of.own_segments if path.p_type == abi.PT_INTERP), None),
    'soname': lambda of: of.first_text(abi.DT_SONAME), 'rpath': lambda of: of.first_text(abi.DT_RPATH),
    'runpath': lambda of: of.first_text(abi.DT_RUNPATH), 'needed': lambda of: list(of.texts(abi.DT_NEEDED)),
    'pie': lambda of: of.header.e_type == abi.ET_DYN and of.says(PIE),
    'nx': lambda of: of.has_segment(abi.PT_GNU_STACK) and not of.has_segment(abi.PT_GNU_STACK, abi.PF_X),
    'relro': Parts.relro,
    'bind_now': lambda of: None if of.is_static() or not of.entries else of.says(NOW),
    'writable_code': lambda of: of.has_segment(abi.PT_LOAD, abi.PF_W | abi.PF_X),
    'canary': lambda of: has_canary(of, of.is_static), 'control_flow': control_flow, 'compilers': compilers,
    'stripped': lambda of: of.section_by_type(abi.SHT_SYMTAB) is None, 'cut': Parts.is_cut, 'sections': lambda of: len(of.section_headers),
    'segments': lambda of: len(of.program_headers), 'symbols': lambda of: len(of.syms), 'dynamic_symbols': lambda of: len(of.dynsyms),
    'sizes': Parts.sizes}


def facts(elf: Elf) -> Dict[str, Any]:
    """Returns the facts of a file. One that can't be read is `None`, and its name is in `unknown`. If one is refused, why the first is."""
    of = Parts(elf._file.source, elf.header)
    try:
        return facts_of(of)
    finally:
        vars(of).clear()  # (its tables refer to it, and would keep the file until a collection)


def facts_of(of: Parts) -> Dict[str, Any]:
    found: Dict[str, Any] = {**dict.fromkeys(FACTS), 'unknown': []}
    refusals: Dict[str, Any] = {}
    for name in (name for name in FACTS if name not in LACKS.get(of.kind, ())):
        try:
            found[name] = FACTS[name](of)
        except (Refused, Unknown) as error:
            found['unknown'].append(name)
            refusals = refusals or (refusal(error) if isinstance(error, Refused) else {})
    return {**found, **refusals}


def refusal(error: Refused) -> Dict[str, Any]:
    """Returns a refusal as plain values."""
    item = error.item and error.item.name
    return {'refused': error.kind.name, 'item': item, 'numbers': list(error.numbers), 'offset': error.offset, 'text': str(error)}
