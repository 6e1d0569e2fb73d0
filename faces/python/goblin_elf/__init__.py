"""ELF files, read by the shared library of a verified port of goblin's ELF layer.

    from goblin_elf import Elf
    elf = Elf.open('/bin/true')
    for symbol in elf.dynsyms:
        print(hex(symbol.st_value), symbol.name)

Each call of the library is proved; this package passes its results on and is tested. A file, or a part of it, that is refused raises
`Refused`, and nothing that a file holds raises anything else, unless memory runs out. Offsets and sizes are in bytes. Arrays need numpy,
which nothing else does. The constants have the standard's names: `from goblin_elf import EM_X86_64`, or all by
`from goblin_elf.constants import *`.
"""
from ._elf import Elf
from ._interface import INTERFACE, VERSION, Item, Kind
from ._items import (Dyn, Dynamic, Header, Note, Notes, Relocation, Relocations, Section, Sections, Segment, Segments, Strings, Symbol, Symbols,
                     Table)
from ._names import (bind_to_str, class_to_str, et_to_str, machine_to_str, note_type_to_str, pt_to_str, shf_to_str, sht_to_str, type_to_str,
                     visibility_to_str)
from ._refused import Refused
from .constants import *  # noqa: F401, F403

__version__ = VERSION
__all__ = ['Dyn', 'Dynamic', 'Elf', 'Header', 'INTERFACE', 'Item', 'Kind', 'Note', 'Notes', 'Refused', 'Relocation', 'Relocations', 'Section',
           'Sections', 'Segment', 'Segments', 'Strings', 'Symbol', 'Symbols', 'Table', 'VERSION', 'bind_to_str', 'class_to_str', 'et_to_str',
           'machine_to_str', 'note_type_to_str', 'pt_to_str', 'shf_to_str', 'sht_to_str', 'type_to_str', 'visibility_to_str', '__version__']
