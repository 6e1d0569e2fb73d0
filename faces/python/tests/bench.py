#!/usr/bin/env python3
"""Times goblin_elf beside pyelftools and readelf: bench.py [FILE], where FILE is one with many symbols.

Each line is a job. The programs take turns, and of each the least of the turns counts, in milliseconds of processor time, which other work
on the machine disturbs least. Ratios are how many times as long as goblin_elf the other one takes.
"""
import glob
import os
import resource
import subprocess
import sys

from elftools.elf.elffile import ELFFile
from elftools.elf.relocation import RelocationSection
from elftools.elf.sections import SymbolTableSection

from goblin_elf import SHT_DYNSYM, SHT_REL, SHT_RELA, SHT_SYMTAB, Elf


def of_type(path, *types):
    return (section for section in Elf.open(path).section_headers if section.sh_type in types)


def symtabs(path):
    return (section.symtab for section in of_type(path, SHT_SYMTAB, SHT_DYNSYM))


def relocs(path):
    return (section.relocs for section in of_type(path, SHT_RELA, SHT_REL))


def theirs(paths, read):
    """Returns how many items pyelftools reads of some files."""
    total = 0
    for path in [paths] if isinstance(paths, str) else paths:
        with open(path, 'rb') as file:
            total += len(read(ELFFile(file)))
    return total


def their_symbols(path):
    return theirs(path, lambda elf: [(symbol['st_value'], symbol.name) for table in elf.iter_sections() if isinstance(table, SymbolTableSection)
                                     for symbol in table.iter_symbols()])


def their_relocations(path):
    return theirs(path, lambda elf: [relocation['r_offset'] for table in elf.iter_sections() if isinstance(table, RelocationSection)
                                     for relocation in table.iter_relocations()])


def their_sections(paths):
    return theirs(paths, lambda elf: [(section['sh_size'], section.name) for section in elf.iter_sections()])


# Each job: its name, how goblin_elf and pyelftools do it, the option of readelf, whether it is of many small files, and the turns.
JOBS = [
    ('symbols into an array, the other with names', lambda path: sum(len(table.array()) for table in symtabs(path)), their_symbols, '-s', False, 5),
    ('symbols as objects, with names()', lambda path: len([(symbol.st_value, name) for table in symtabs(path)
                                                           for symbol, name in zip(table, table.names())]), their_symbols, '-s', False, 5),
    ('symbols as objects, each with .name', lambda path: len([(symbol.st_value, symbol.name) for table in symtabs(path) for symbol in table]),
     their_symbols, '-s', False, 5),
    ('relocations into an array', lambda path: sum(len(table.array()) for table in relocs(path)), their_relocations, '-r', False, 2),
    ('relocations as objects', lambda path: len([relocation.r_offset for table in relocs(path) for relocation in table]), their_relocations, '-r',
     False, 2),
    ('1,000 small files opened', lambda paths: sum(Elf.open(path).header.e_machine > 0 for path in paths),
     lambda paths: theirs(paths, lambda elf: 'x' * (elf.header['e_machine'] != 'EM_NONE')), '-h', True, 5),
    ('sections of 1,000 small files, with names()', lambda paths: sum(len([(section.sh_size, name) for section, name in zip(table, table.names())])
                                                                      for table in (Elf.open(path).section_headers for path in paths)),
     their_sections, '-S', True, 3),
    ('sections of 1,000 small files, each with .name',
     lambda paths: sum(len([(section.sh_size, section.name) for section in Elf.open(path).section_headers]) for path in paths),
     their_sections, '-S', True, 3)]


def used():
    """Returns the seconds that this process and its children have used."""
    return sum(sum(resource.getrusage(who)[:2]) for who in (resource.RUSAGE_SELF, resource.RUSAGE_CHILDREN))


def main():
    large = sys.argv[1] if len(sys.argv) > 1 else max(glob.glob('/usr/lib/*/libLLVM*.so*') or [sys.executable], key=os.path.getsize)
    small = sorted(path for path in glob.glob('/usr/lib/x86_64-linux-gnu/**/*.so*', recursive=True)
                   if os.path.isfile(path) and os.path.getsize(path) < 100000)
    small = [path for path in small if open(path, 'rb').read(4) == b'\x7fELF'][:1000]
    print(f'the large file is {large}; 1,000 small libraries, of which {len(small)} differ')
    small = (small * (1000 // max(1, len(small)) + 1))[:1000]
    print('job | goblin_elf, ms | pyelftools, ms | ratio | readelf, ms | ratio')
    for name, ours, other, option, is_many, turns in JOBS:
        paths = small if is_many else large
        best, results = [float('inf')] * 3, [None] * 3
        readelf = ['readelf', '-W', option, *([paths] if paths == large else paths)]
        for _ in range(turns):
            for index, job in enumerate((ours, other, lambda _: subprocess.run(readelf, stdout=subprocess.DEVNULL, stderr=subprocess.DEVNULL))):
                start = used()
                results[index] = job(paths)
                best[index] = min(best[index], used() - start)
        if results[0] != results[1]:
            sys.exit(f'{name}: goblin_elf reads {results[0]}, and pyelftools {results[1]}')
        a, b, c = best
        print(f'{name} ({results[0]}) | {a * 1000:.1f} | {b * 1000:.0f} | {b / a:.0f} | {c * 1000:.0f} | {c / a:.1f}', flush=True)


if __name__ == '__main__':
    main()
