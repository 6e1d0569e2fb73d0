#!/usr/bin/env python3
"""Compares goblin_elf with pyelftools: beside_pyelftools.py [--files N] [--damaged N] [DIR ..]

It reads N whole ELF files of the folders (default: 40 of this machine's) by both and compares headers, sections, segments, symbols with
their names, relocations, notes, and what the dynamic section says. Then it reads N damaged or cut files, of which goblin_elf must return
records or raise Refused. With --sums FILE .. it prints the sums of what pyelftools reads that test_stored.py compares.
"""
import argparse
import collections
import io
import itertools
import os

from elftools.elf import enums
from elftools.elf.elffile import ELFFile
from elftools.elf.dynamic import DynamicSegment
from elftools.elf.relocation import RelocationSection
from elftools.elf.sections import NoteSection, SymbolTableSection
from elftools.elf.segments import InterpSegment, NoteSegment

from goblin_elf import Refused

import made
from parts import HEADER, PARTS, SECTION, SEGMENT, Ours, OursWhole, content_of, damaged, elf_files, made_files, read_by, sum_of


def all_of(*tables):
    """Returns the numbers of the names in tables of pyelftools, of which a later one wins."""
    return {name: value for table in tables for name, value in table.items() if name != '_default_'}


# Of each field that it may turn into a name, how the names of its tables begin.
NUMBERS = {field: all_of(*(getattr(enums, name) for name in dir(enums) if name.startswith(f'ENUM_{start}'))) for field, start in [
    ('e_type', 'E_TYPE'), ('e_machine', 'E_MACHINE'), ('sh_type', 'SH_TYPE'), ('p_type', 'P_TYPE'), ('st_shndx', 'ST_SHNDX'), ('n_type', 'NOTE'),
    ('bind', 'ST_INFO_BIND'), ('type', 'ST_INFO_TYPE'), ('visibility', 'ST_VISIBILITY')]}


def numbers(record, *fields):
    """Returns fields of a record of pyelftools as numbers."""
    return tuple(NUMBERS[field][record[field]] if isinstance(record[field], str) else record[field] for field in fields)


class Theirs:
    """What pyelftools reads of a file, as plain values like those of `Ours`."""

    def __init__(self, stream):
        self.elf = ELFFile(stream)

    def header(self):
        return (*numbers(self.elf.header, *HEADER), self.elf.elfclass, self.elf.little_endian)

    def sections(self):
        return [(section.name, *numbers(section, *SECTION)) for section in self.elf.iter_sections()]

    def segments(self):
        return [numbers(segment, *SEGMENT) for segment in self.elf.iter_segments()]

    def symbols(self):
        return [[(s.name, *numbers(s, 'st_name', 'st_value', 'st_size', 'st_shndx'), *numbers(s['st_info'], 'bind', 'type'),
                  *numbers(s['st_other'], 'visibility')) for s in table.iter_symbols()]
                for table in self.elf.iter_sections() if isinstance(table, SymbolTableSection)]

    def relocations(self):
        return [[(r['r_offset'], r['r_info_sym'], r['r_info_type'], r['r_addend'] if r.is_RELA() else None) for r in table.iter_relocations()]
                for table in self.elf.iter_sections() if isinstance(table, RelocationSection)]

    def notes(self):
        holders = [s for s in self.elf.iter_segments() if isinstance(s, NoteSegment)]
        holders += [s for s in self.elf.iter_sections() if isinstance(s, NoteSection)]
        return [[(*numbers(n, 'n_type'), n['n_name'], bytes(n['n_descdata'])) for n in holder.iter_notes()] for holder in holders]

    def linking(self):
        segments = list(self.elf.iter_segments())
        tags = [(tag.entry.d_tag, tag) for segment in segments if isinstance(segment, DynamicSegment) for tag in segment.iter_tags()]
        flags = {name: tag['d_val'] for name, tag in tags}
        now = 'DT_BIND_NOW' in flags or flags.get('DT_FLAGS', 0) & 8 or flags.get('DT_FLAGS_1', 0) & 1
        stacks = [segment['p_flags'] for segment in segments if segment['p_type'] == 'PT_GNU_STACK']
        types = [segment['p_type'] for segment in segments]
        pie = self.elf['e_type'] == 'ET_DYN' and ('DT_DEBUG' in flags or bool(flags.get('DT_FLAGS_1', 0) & 0x08000000))
        # (a static program binds nothing later)
        now = now or (pie or self.elf['e_type'] == 'ET_EXEC') and 'PT_INTERP' not in types
        names = [[getattr(tag, kind) for name, tag in tags if name == f'DT_{kind.upper()}'] for kind in ('needed', 'soname', 'rpath', 'runpath')]
        return [*names, [segment.get_interp_name() for segment in segments if isinstance(segment, InterpSegment)],
                [bool(stacks) and not any(flag & 1 for flag in stacks),
                 'no' if 'PT_GNU_RELRO' not in types else 'full' if now else 'partial', pie]]


def first_difference(ours, theirs):
    """Returns the first items that differ, and where."""
    if isinstance(ours, Exception) or isinstance(theirs, Exception):
        return repr(ours)[:300], repr(theirs)[:300]
    if isinstance(ours, list) and isinstance(theirs, list):
        if len(ours) != len(theirs):
            return f'{len(ours)} items', f'{len(theirs)} items'
        return next(first_difference(a, b) for a, b in zip(ours, theirs) if a != b)
    return ours, theirs


def compare(contents):
    """Compares whole files, each of which has a name, and returns how many differ in each part."""
    items, different, count = collections.Counter(), collections.Counter(), 0
    for name, content in contents:
        count += 1
        for part in PARTS:
            ours, theirs = read_by(Ours, content, part), read_by(Theirs, io.BytesIO(content), part)
            if ours == theirs:
                items[part] += sum(map(len, ours)) if part in PARTS[3:] else len(ours) if part != 'header' else 1
            else:
                different[part] += 1
                print(f'{name}: {part}: ours {first_difference(ours, theirs)[0]}, theirs {first_difference(ours, theirs)[1]}')
    print(f'{count} files: the same', ', '.join(f'{number} {part}' for part, number in items.items()))
    return different


def not_refused(contents):
    """Counts those damaged files of which goblin_elf neither returns each part nor refuses it, and leaves one in a file."""
    wrong = 0
    for content in contents:
        found = [read_by(Ours, content, part) for part in PARTS]
        found += [read_by(OursWhole, content, part) for part in ('whole_sections', 'whole_segments')]
        errors = [result for result in found if isinstance(result, Exception) and not isinstance(result, Refused)]
        if errors:
            wrong += 1
            print('not refused:', repr(errors[0]))
            with open(os.path.join(os.environ.get('TMPDIR', '/tmp'), 'not_refused'), 'wb') as file:
                file.write(content)
    return wrong


# What it reads otherwise: relocations with three types, and bytes that are not in the file.
LEFT_OUT = ('mips64el_object relocations', 'x86_64_core linking', 'x86_64_debug linking')


def print_sums(paths):
    for name, content in itertools.chain(made_files(), ((os.path.basename(path), content_of(path)) for path in paths)):
        for part in PARTS:
            if f'{name} {part}' not in LEFT_OUT:
                print(name, part, sum_of(read_by(Theirs, io.BytesIO(content), part)))


def main():
    parser = argparse.ArgumentParser(description=__doc__.split('\n')[0])
    parser.add_argument('--files', type=int, default=40)
    parser.add_argument('--damaged', type=int, default=60)
    parser.add_argument('--seed', type=int, default=1)
    parser.add_argument('--sums', action='store_true')
    parser.add_argument('folders', nargs='*', default=['/usr/lib/x86_64-linux-gnu', '/usr/bin'])
    options = parser.parse_args()
    if options.sums:
        return print_sums(options.folders)
    paths = elf_files(options.folders, options.files)
    different = compare(itertools.chain(made_files(), ((path, content_of(path)) for path in paths)))
    sources = [file.bytes for file in made.ALL] + [content_of(path) for path in paths if os.path.getsize(path) < 100000][:20]
    wrong = not_refused(damaged(options.damaged, sources, options.seed))
    print(f'pyelftools: {sum(different.values())} differences in {len(paths)} files; {wrong} damaged files raise another exception than Refused')


if __name__ == '__main__':
    main()
