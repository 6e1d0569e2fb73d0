"""What goblin_elf reads of a file, as plain values, in parts that can be compared with what others read."""
import hashlib
import os
import random
import resource
import threading

from goblin_elf import PT_DYNAMIC, SHT_DYNSYM, SHT_NOTE, SHT_REL, SHT_RELA, SHT_SYMTAB, Elf
from goblin_elf._facts import facts

import made

FILES = os.path.join(os.path.dirname(os.path.abspath(__file__)), '..', '..', '..', 'checks', 'files')
PARTS = ('header', 'sections', 'segments', 'symbols', 'relocations', 'notes', 'linking')
# The fields of headers, in the order of the standard.
HEADER = 'e_type e_machine e_entry e_phoff e_shoff e_flags e_ehsize e_phentsize e_phnum e_shentsize e_shnum e_shstrndx'.split()
SECTION = 'sh_name sh_type sh_flags sh_addr sh_offset sh_size sh_link sh_info sh_addralign sh_entsize'.split()
SEGMENT = 'p_type p_flags p_offset p_vaddr p_paddr p_filesz p_memsz p_align'.split()


class Ours:
    """What goblin_elf reads of a file."""

    def __init__(self, buffer):
        self.elf = Elf(buffer)

    def header(self):
        return (*(getattr(self.elf.header, field) for field in HEADER), 64 if self.elf.is_64 else 32, self.elf.little_endian)

    def sections(self):
        table = self.elf.section_headers
        return [(name, *(getattr(section, field) for field in SECTION)) for section, name in zip(table, table.names('replace'))]

    def segments(self):
        return [tuple(getattr(segment, field) for field in SEGMENT) for segment in self.elf.program_headers]

    def symbols(self):
        tables = [s.symtab for s in self.elf.section_headers if s.sh_type in (SHT_SYMTAB, SHT_DYNSYM)]
        return [[(name, s.st_name, s.st_value, s.st_size, s.st_shndx, s.st_bind, s.st_type, s.st_visibility)
                 for s, name in zip(table, table.names('replace'))] for table in tables]

    def relocations(self):
        return [[(r.r_offset, r.r_sym, r.r_type, r.r_addend) for r in s.relocs]
                for s in self.elf.section_headers if s.sh_type in (SHT_RELA, SHT_REL)]

    def notes(self):
        holders = [s for s in self.elf.program_headers if s.p_type == 4] + [s for s in self.elf.section_headers if s.sh_type == SHT_NOTE]
        # (pyelftools cuts a name at its first zero byte, after which .gnu.build.attributes have numbers)
        return [[(note.n_type, note.name.split('\0')[0], bytes(note.desc)) for note in holder.notes] for holder in holders]

    def linking(self):
        found, (soname, interpreter) = facts(self.elf), ([] if text is None else [text] for text in (self.elf.soname, self.elf.interpreter))
        # (of a file that is not loaded the other side says no)
        return [self.elf.libraries, soname, self.elf.rpaths, self.elf.runpaths, interpreter,
                [found['nx'] or False, found['relro'] or 'no', found['pie'] or False]]


class OursWhole(Ours):
    """What goblin_elf reads by the header that counts only what lies in the file whole."""

    def whole_sections(self):
        return list(self.elf.whole().section_headers)

    def whole_segments(self):
        return list(self.elf.whole().program_headers)


def read_by(kind, source, part):
    """Returns a part of a file, or the exception that it raises."""
    try:
        return getattr(kind(source), part)()
    except Exception as error:
        return error


def plain(value):
    """Returns a value with plain numbers and lists."""
    if isinstance(value, (list, tuple)):
        return [plain(item) for item in value]
    return int(value) if isinstance(value, int) else value


def sum_of(value):
    """Returns the start of a sum of what was read, or that it is refused."""
    return 'refused' if isinstance(value, Exception) else hashlib.sha256(repr(plain(value)).encode()).hexdigest()[:16]


def content_of(path):
    with open(path, 'rb') as file:
        return file.read()


def elf_files(folders, count):
    """Returns some ELF files, spread over those below the folders. A folder may also be a file."""
    found = [path for path in folders if os.path.isfile(path)]
    for folder in folders:
        for root, _, names in os.walk(folder):
            for name in names:
                path = os.path.join(root, name)
                if os.path.isfile(path) and not os.path.islink(path) and os.path.getsize(path) < 3 << 20:
                    with open(path, 'rb') as file:
                        if file.read(4) == b'\x7fELF':
                            found.append(path)
    found.sort()
    return [found[index * len(found) // count] for index in range(min(count, len(found)))]


def limit_memory():
    """Lets this process take little memory."""
    resource.setrlimit(resource.RLIMIT_DATA, (256 << 20, 256 << 20))


def started(function, arguments):
    """Returns threads that run a function, each with an argument."""
    threads = [threading.Thread(target=function, args=(argument,)) for argument in arguments]
    for thread in threads:
        thread.start()
    return threads


def stored(name):
    """Returns the path of a stored file."""
    return os.path.join(FILES, *name.split('/'))


def changed(name):
    """Returns a stored file whose bytes can be changed."""
    return Elf(bytearray(content_of(stored(name))))


def of_type(elf, p_type):
    return next(segment for segment in elf.program_headers if segment.p_type == p_type)


def replace(elf, kind, **fields):
    """Changes fields of the first segment of a type."""
    segment = of_type(elf, kind)
    elf.program_headers[segment.index] = segment.replace(**fields)


def put_value(elf, tag, value):
    """Changes the value of the first entry with a tag in a 64-bit file."""
    entry = next(entry for entry in elf.dynamic_section if entry.d_tag == tag)
    elf.put_number(of_type(elf, PT_DYNAMIC).p_offset + 16 * entry.index + 8, 8, value)


def made_files():
    """Yields the names and bytes of made files, for machines of which pyelftools reads relocations as goblin does."""
    for bits in (32, 64):
        for order in '<>':
            for machine in (62, 40, 183):
                yield f'made-{bits}-{"little" if order == "<" else "big"}-{machine}', made.Made(bits, order, machine).bytes


def damaged(count, sources, seed):
    """Yields damaged and cut files."""
    chance = random.Random(seed)
    for _ in range(count):
        content = bytearray(chance.choice(sources))
        for _ in range(chance.choice((0, 1, 1, 2, 8))):
            # (a number somewhere, mostly in a header)
            place = chance.choice((chance.randrange(len(content)), chance.randrange(16, 64),
                                   chance.randrange(max(0, len(content) - 2048), len(content))))
            width = chance.choice((1, 2, 4, 8))
            value = chance.choice((0, 1, 255, 1 << 31, (1 << 64) - 1, len(content), chance.getrandbits(64)))
            content[place:place + width] = (value & (1 << 8 * width) - 1).to_bytes(width, chance.choice(('little', 'big')))
        if chance.random() < 0.4:
            del content[chance.randrange(len(content)):]
        yield bytes(content)
