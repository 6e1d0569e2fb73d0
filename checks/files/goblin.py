#!/usr/bin/env python3
"""Prints what goblin's fields of the stored ELF files are, by what readelf prints and goblin's documented rules:

    python3 checks/files/goblin.py > checks/files/goblin

The tests of the Rust crate compare its calls with these lines. No check runs this script. It was run with readelf 2.40. The rules:

- lib: the type is ET_DYN, and DT_FLAGS_1 has no DF_1_PIE. object: the type is ET_REL.
- syms: the number of symbols of the last SHT_SYMTAB, `-` if there is none. dynsyms: of SHT_DYNSYM, where goblin counts them by hashes
  and relocations; `!` if there is none, but the dynamic section has DT_SYMTAB.
- dynrelas, dynrels, plt: the relocations of DT_RELA and DT_RELASZ, of DT_REL and DT_RELSZ, and of DT_JMPREL and DT_PLTRELSZ: their
  number, and the sums of their offsets and of their symbols' indices.
- shdr: the index of each section of type SHT_RELA or SHT_REL, and the number of its relocations.
- libraries, rpaths, runpaths, soname: what DT_NEEDED and so on name, or `!` if a name isn't in the strings, which goblin leaves out.
  interpreter: the string of PT_INTERP, if it has bytes.
- What ends past the end of the file is refused, `!`: a symbol table, or PT_DYNAMIC with all that it says. goblin refuses such a file.

Fields of a listing that readelf warns of are left out, but for those of the header.
"""
import os
import re
import subprocess

FILES = os.path.dirname(os.path.abspath(__file__))


def printed(path, *options, is_sure=False):
    """Returns what readelf prints of a file, or nothing if it warns."""
    ran = subprocess.run(['readelf', '-W', *options, path], stdout=subprocess.PIPE, stderr=subprocess.PIPE, encoding='utf-8',
                         errors='surrogateescape', env={**os.environ, 'LC_ALL': 'C'})
    return ran.stdout if is_sure or not ran.stderr else ''


def found(pattern, text):
    return re.findall(pattern, text, re.M)


def relocations(text, of):
    """Returns the number of relocations that the dynamic section has, and the sums of their offsets and of their symbols' indices."""
    match = re.search(rf"^'{of}' relocation section at offset .*\n(?:.*Offset.*\n)?((?:[0-9a-f]+ .*\n|  Type[23].*\n)*)", text, re.M)
    lines = found(r'^([0-9a-f]+) +([0-9a-f]+) ', match[1]) if match else []
    symbols = (int(info, 16) >> (32 if len(offset) > 8 else 8) for offset, info in lines)
    return f'{len(lines)}/{sum(int(offset, 16) for offset, _ in lines):x}/{sum(symbols)}'


def names(dynamic, tag):
    """Returns the names of a tag."""
    lines = found(rf'\({tag}\) +(.*)', dynamic)
    texts = [text for line in lines for text in found(r'\[(.*)\]', line)]
    return '!' if len(texts) < len(lines) or (lines and '(STRTAB)' not in dynamic) else ','.join(texts)


def of_sections(sections, length, wide, has_symbols):
    """Yields the fields of the section headers."""
    size_of = {'SYMTAB': 8 + 2 * wide, 'DYNSYM': 8 + 2 * wide, 'RELA': 3 * wide, 'REL': 2 * wide}
    rows = found(r'^  \[ *(\d+)\] (?:\S+)? +([\w+]+) +[0-9a-f]{8,16} ([0-9a-f]{6,}) ([0-9a-f]{6,}) ', sections)
    counts = [(index, of, int(size, 16) // size_of[of] if int(offset, 16) + int(size, 16) <= length else '!')
              for index, of, offset, size in rows if of in size_of]
    yield 'sections', len(rows)
    yield 'syms', {of: number for _, of, number in counts}.get('SYMTAB', '-')
    yield 'shdr', ','.join(f'{index}:{number}' for index, of, number in counts if of in ('RELA', 'REL'))
    if has_symbols is not None:
        yield 'dynsyms', {of: number for _, of, number in reversed(counts)}.get('DYNSYM', '!' if has_symbols else '-')


def fields_of(path):
    """Yields the fields, each with its value."""
    header, segments, sections = printed(path, '-h', is_sure=True), printed(path, '-l'), printed(path, '-S')
    dynamic, relocs, length = printed(path, '-d'), printed(path, '-D', '-r'), os.path.getsize(path)
    kind = found(r'^  Type: +(\w+)', header)[0]
    wide = 8 if 'ELF64' in header else 4
    yield 'class', 8 * wide
    yield 'order', 'big' if 'big endian' in header else 'little'
    yield 'object', int(kind == 'REL')
    yield 'entry', found(r'Entry point address: +0x([0-9a-f]+)', header)[0]
    ends = [int(offset, 16) + int(size, 16) for offset, size in found(r'^  DYNAMIC +0x(\w+) 0x\w+ 0x\w+ 0x(\w+) ', segments)]
    is_past = any(end > length for end in ends)
    if segments:
        yield 'segments', found(r'Number of program headers: +(\d+)', header)[0]
        yield 'interpreter', ','.join(found(r'Requesting program interpreter: (.*)\]', segments))
    if sections:
        yield from of_sections(sections, length, wide, is_past or '(SYMTAB)' in dynamic if dynamic else None)
    if dynamic:
        yield 'lib', '!' if is_past and kind == 'DYN' else int(kind == 'DYN' and not re.search(r'\(FLAGS_1\).*PIE', dynamic))
        for name, tag in [('libraries', 'NEEDED'), ('rpaths', 'RPATH'), ('runpaths', 'RUNPATH'), ('soname', 'SONAME')]:
            yield name, '!' if is_past else names(dynamic, tag)
    if dynamic and relocs:
        for name, of in [('dynrelas', 'RELA'), ('dynrels', 'REL'), ('plt', 'PLT')]:
            yield name, '!' if is_past else relocations(relocs, of)


def main():
    for folder in ('made', 'facts'):
        for name in sorted(os.listdir(os.path.join(FILES, folder))):
            if not name.endswith('.listed'):
                print(f'{folder}/{name}', ' '.join(f'{field}={value}' for field, value in fields_of(os.path.join(FILES, folder, name))))


if __name__ == '__main__':
    main()
