"""What compilers leave in a file: their names, and marks of their protections. What these mean is said here: that is not proved, but tested."""
import re
from typing import Callable, Dict, Iterator, List, Optional, Set, Tuple

from ._elf import Elf
from ._items import Strings, Symbols
from ._refused import Refused, Unknown, within
from .constants import EM_386, EM_AARCH64, EM_X86_64, SHT_DYNSYM, SHT_SYMTAB

# The functions and the variable that a canary uses, with or without a version, of which at most 255 bytes are read.
CANARY = re.compile(rb'__stack_chk_(?:fail_local|fail|guard)(?:@[^\0]{0,255})?')
# How the strings begin in which a linker, and no compiler, names itself.
LINKERS = ('Linker:', 'LLD', 'GNU ld', 'GNU gold', 'mold')
NT_GNU_PROPERTY_TYPE_0 = 5
# By machines the property whose bits, from the lowest one on, say that all code is made for these checks.
X86 = 0xc0000002, ('IBT', 'SHSTK')
CHECKS: Dict[int, Tuple[int, Tuple[str, ...]]] = {EM_386: X86, EM_X86_64: X86, EM_AARCH64: (0xc0000000, ('BTI', 'PAC'))}
# The most that is read: names of canaries, bytes of a note and of .comment, and bytes of a string table. What needs more is unknown.
CANARIES, BYTES, STRINGS = 64, 1 << 16, 1 << 30


def has_canary(elf: Elf, is_static: Callable[[], bool]) -> bool:
    """Whether a symbol of a table that can be read is one of a stack canary. If none is, it is refused or unknown if a table is, and unknown if
    there is no table that would have it: a static program need not list it among its dynamic symbols."""
    errors: List[Exception] = []
    try:
        for name in ('syms', 'dynsyms'):
            try:
                symbols: Symbols = getattr(elf, name)
                if any(map(symbols.symbol_by_name, canaries_of(elf, symbols.strtab))):
                    return True
            except (Refused, Unknown) as error:
                errors.append(error)
        if errors:
            raise errors[0]
    finally:
        errors.clear()  # (they refer to this call, and would keep the file until a collection)
    if not elf.section_by_type(SHT_SYMTAB) and (is_static() or not elf.section_by_type(SHT_DYNSYM)):
        raise Unknown
    return False


def canaries_of(elf: Elf, strings: Strings) -> Iterator[bytes]:
    """Yields the names of canaries that a string table has. Refused if the table is not inside the file."""
    strings.get_bytes(strings.size)
    names: Set[bytes] = set()
    for match in CANARY.finditer(within(STRINGS, elf.bytes[strings.offset:strings.offset + strings.size])):
        if match.group() not in names:
            names.add(match.group())
            within(CANARIES, names)
            yield match.group()


def control_flow(elf: Elf) -> Optional[List[str]]:
    """Returns the checks of jumps and returns that the first note of properties marks, or `None` on a machine without marks."""
    if elf.header.e_machine not in CHECKS:
        return None
    wanted, names = CHECKS[elf.header.e_machine]
    desc = bytes(within(BYTES, elf._note(NT_GNU_PROPERTY_TYPE_0) or b''))
    at, step = 0, 8 if elf.is_64 else 4
    while at + 12 <= len(desc):
        kind, size, flags = (int.from_bytes(desc[at + part:at + part + 4], 'little' if elf.little_endian else 'big') for part in (0, 4, 8))
        if kind == wanted and size >= 4:
            return [name for bit, name in enumerate(names) if flags >> bit & 1]
        at += 8 + -(-size // step) * step
    return []


def compilers(elf: Elf) -> List[str]:
    """Returns the names that compilers left in the section .comment, each once."""
    section = elf.section_by_name('.comment')
    texts = str(within(BYTES, section.data), 'utf-8', 'surrogateescape').split('\0') if section else []
    return [text for text in dict.fromkeys(texts) if text and not text.startswith(LINKERS)]
