#!/usr/bin/env python3
"""Checks the built program, by each compiler: what it shows of files, its arguments, and its exit status. Run it from the repository's root.

    python3 checks/program.py         all of that, once checks/prove.sh has built the program
    python3 checks/program.py FILE    only prints what the program is to show of one of the files

The files are those of checks/files/made, which checks/files/make.sh made, and checks/files/symbols, which was written by hand. The output of
readelf that is stored beside each file is converted here to the program's words. The example goblin_uses lists checks/files/uses: big
endian, PN_XNUM, names from 64 KiB on, and nine notes.
"""
import glob
import os
import re
import struct
import subprocess
import sys
import tempfile
from pathlib import Path

sys.dont_write_bytecode = True
from crates import text_of

FILES = ['checks/files/symbols', *(path for path in sorted(glob.glob('checks/files/made/*')) if not path.endswith('.listed'))]
PROGRAMS, EXAMPLES = ([f'crates/{crate}/out/{crate}{end}' for end in ('', '.by-rattle')] for crate in ('goblin_show', 'goblin_uses'))
# The standard's names of what readelf says in words of its own. (EM_NONE has no name.)
MACHINES = {'None': 'EM_UNKNOWN', 'Intel 80386': '386', 'MIPS R3000': 'MIPS', 'PowerPC': 'PPC', 'PowerPC64': 'PPC64', 'IBM S/390': 'S390',
            'ARM': 'ARM', 'Sparc v9': 'SPARCV9', 'Advanced Micro Devices X86-64': 'X86_64', 'AArch64': 'AARCH64', 'RISC-V': 'RISCV'}
ORDERS = {"2's complement, little endian": 'little', "2's complement, big endian": 'big'}
# Names that readelf shortens, and one of a number that it names by the processor. (The program names each number in one way.)
NAMES = {'VERDEF': 'GNU_VERDEF', 'VERNEED': 'GNU_VERNEED', 'VERSYM': 'GNU_VERSYM', 'ARM_EXIDX': 'X86_64_UNWIND', 'UNIQUE': 'GNU_UNIQUE',
         'IFUNC': 'GNU_IFUNC'}
# What only one processor or system knows has no name.
UNKNOWN = re.compile(r'(?:MIPS|ARM|RISCV)_\w+|LOOS\+.*')
# What readelf prints for a section's name if the file has no table of such names. The program prints nothing.
NAMELESS = '<no-strings>'

HEADER = re.compile(r'  ([A-Z][^:]*): +(.*)')
SECTION = re.compile(r'  \[ *(\d+)\] (\S*) +([A-Z]\S*) +[0-9a-f]+ ([0-9a-f]+) ([0-9a-f]+) ')
OF_TABLE = re.compile(r"(Symbol table|Relocation section) '([^']+)'")
# The types of the sections that readelf calls by these words.
KINDS = {'Symbol table': ('SYMTAB', 'DYNSYM'), 'Relocation section': ('REL', 'RELA')}
SYMBOL = re.compile(r' *(\d+): ([0-9a-f]+) +(\d+|0x[0-9a-f]+) (\w+) +(\w+) +(\w+)(?: \[[^]]*\])? +(\w+) ?(.*)')
RELOCATION = re.compile(r'([0-9a-f]+) +([0-9a-f]+) R_\w+ *(.*)')


def header(said):
    """The line of a file's header."""
    return (f'header {said["Class"]} {ORDERS[said["Data"]]} {said["Type"].split()[0]} {MACHINES[said["Machine"]]} '
            f'entry {said["Entry point address"]} phnum {said["Number of program headers"]} shnum {said["Number of section headers"]}')


def section(index, name, kind, offset, size):
    kind = NAMES.get(kind, kind)
    kind = 'UNKNOWN_SHT' if UNKNOWN.fullmatch(kind) else f'SHT_{kind}'
    name = '' if name == NAMELESS else name
    return f'section {index} {kind} offset {int(offset, 16):#x} size {int(size, 16)} name={name}'


def symbol(table, is_dynamic, index, value, size, kind, bind, visibility, _, name):
    # (readelf names a section's symbol, which has no name, by its section, and appends its version to a dynamic one's name)
    name = '' if kind == 'SECTION' else name.partition('@')[0] if is_dynamic else name
    kind, bind = NAMES.get(kind, kind), NAMES.get(bind, bind)
    return f'symbol {table} {index} {kind} {bind} {visibility} value {int(value, 16):#x} size {int(size, 0)} name={name}'


def relocation(table, index, offset, info, rest, is_wide, has_addends):
    # (a symbol's value and name, a sign and a number, or a number alone)
    sign, digits = re.fullmatch(r'(?:.* ([+-]) )?([0-9a-f]+)', rest).groups() if has_addends else ('', '')
    addend = int(digits, 16) * (-1 if sign == '-' else 1) if has_addends else '-'
    symbol, kind = divmod(int(info, 16), 1 << (32 if is_wide else 8))
    return f'reloc {table} {index} offset {int(offset, 16):#x} sym {symbol} type {kind} addend {addend}'


def wanted_of(path):
    """What the program is to show of a file, by readelf's listing beside it."""
    said, sections, tables, of_tables = {}, [], {}, {}
    for line in text_of(f'{path}.listed').partition('\n$ nm ')[0].split('\n'):
        if found := OF_TABLE.match(line):
            index, kind = next(tables[kind, found[2]] for kind in KINDS[found[1]] if (kind, found[2]) in tables)
            lines = of_tables.setdefault((kind in KINDS['Relocation section'], index), [])
        elif found := SECTION.match(line):
            tables[found[3], found[2]] = (int(found[1]), found[3])
            sections.append(section(*found.groups()))
        elif found := SYMBOL.match(line):
            lines.append(symbol(index, kind == 'DYNSYM', *found.groups()))
        elif found := RELOCATION.match(line):
            lines.append(relocation(index, len(lines), *found.groups(), said['Class'] == 'ELF64', kind == 'RELA'))
        elif found := HEADER.fullmatch(line):
            said.setdefault(found[1], found[2].strip())
    return '\n'.join([header(said), *sections, *(line for key in sorted(of_tables) for line in of_tables[key]), ''])


def differing(status, wanted, input, arguments=(), programs=PROGRAMS, output=None):
    """Runs each build over an input. Prints where one ends or writes otherwise, and returns how many do."""
    wrong = 0
    for program in programs:
        file = os.open(input, os.O_RDONLY)
        ran = subprocess.run([program, *arguments], stdin=file, stdout=output or subprocess.PIPE, stderr=subprocess.PIPE)
        os.close(file)
        to, written = f' > {output.name}' if output else '', (ran.stdout or b'') + ran.stderr
        if (ran.returncode, written) != (status, wanted):
            wrong += 1
            print(f'program: {program} {" ".join(arguments)} < {input}{to}: exit status {ran.returncode} (expected {status}). Its output:\n'
                  f'{written.decode()}\nExpected:\n{wanted.decode()}')
    return wrong


def changed(file, *places, more=b''):
    """A file with other bytes at some places, and more after its end."""
    content = bytearray(Path(file).read_bytes())
    for place, other in places:
        content[place:place + len(other)] = other
    return bytes(content) + more


def widest():
    """A 64-bit file with the greatest numbers of each column, and what is to be shown of it: a section that is not in the file, 65,537 symbols,
    of which the last one has these numbers, and relocations with the least and the greatest addend and without one."""
    most, count = 2 ** 64 - 1, 65_537
    symbols = bytes(24 * (count - 1)) + struct.pack('<IBBHQQ', 0, 0x12, 0, 0xffff, most, most)
    addends = struct.pack('<QQqQQq', most, most, -2 ** 63, 0, 0, 2 ** 63 - 1)
    parts = [(8, most, b'', most), (2, 64, symbols, len(symbols)), (4, 64 + len(symbols), addends, len(addends)),
             (9, 64 + len(symbols), addends[:16], 16)]
    headers = b''.join(struct.pack('<IIQQQQIIQQ', 0, kind, 0, 0, offset, size, 0, 0, 0, 0) for kind, offset, _, size in parts)
    start = b'\x7fELF\2\1\1'.ljust(16, b'\0') + struct.pack('<HHIQQQIHHHHHH', 3, 62, 1, most, 0, 64 + len(symbols + addends), 0, 64, 56,
                                                             65_534, 64, len(parts), 0)
    names = ['SHT_NOBITS', 'SHT_SYMTAB', 'SHT_RELA', 'SHT_REL']
    lines = [f'header ELF64 little DYN X86_64 entry {most:#x} phnum 65534 shnum 4',
             *(f'section {at} {names[at]} offset {offset:#x} size {size} name=' for at, (_, offset, _, size) in enumerate(parts)),
             *(f'symbol 1 {at} NOTYPE LOCAL DEFAULT value 0x0 size 0 name=' for at in range(count - 1)),
             f'symbol 1 65536 FUNC GLOBAL DEFAULT value {most:#x} size {most} name=',
             f'reloc 2 0 offset {most:#x} sym 4294967295 type 4294967295 addend -9223372036854775808',
             'reloc 2 1 offset 0x0 sym 0 type 0 addend 9223372036854775807',
             f'reloc 3 0 offset {most:#x} sym 4294967295 type 4294967295 addend -', '']
    return start + symbols + addends + headers, '\n'.join(lines)


def others(names, symbols):
    """Files that were changed by hand, each after its options and before what is to be printed: two refusals, of which the first one is, and
    what a strict or permissive reading makes of fields that contradict each other."""
    text, strict, permissive, bad = text_of(names.with_name('stdout')), (), ('permissive',), b'\xff'
    signs = bytes(range(1, 128))
    printed = ''.join('?' if sign < 32 or sign == 127 else chr(sign) for sign in signs)
    outside = lambda size, offset: f'refused: Malformed entity: Section 0 size ({size}) + offset ({offset}) is out of bounds. Overflowed: false\n'
    damaged = changed(names, (53, bad))
    return [
        # a byte in its string table that is not UTF-8
        (strict, damaged, 'refused: bad input invalid utf8 (3)\n'), (permissive, damaged, text.replace('name=.s\n', 'name=\n')),
        (strict, *widest()),
        # each sign of ASCII in a name
        (strict, changed(names, (112, b'\x88\0\0\0\x81'), more=b'\0' + signs + b'\0'),
         text.replace('offset 0x34 size 4 name=.s', f'offset 0x88 size 129 name={printed}')),
        # sizes in the order of sections, from section 0 on
        (strict, changed(symbols, (148, b'\xd0'), (188, b'\xd0')), outside(208, 52)),
        (strict, changed(symbols, (108, b'\xd1')), outside(209, 0)),
        # names of sections before those of symbols, and tables in the order of sections
        (strict, changed(symbols, (50, b'\2'), (53, bad), (76, bad)), 'refused: bad input invalid utf8 (12)\n'),
        (strict, changed(symbols, (132, b'\2'), (152, b'\2'), (53, bad), (76, bad)), 'refused: bad input invalid utf8 (12)\n'),
        (permissive, changed(symbols, (132, b'\x09'), (149, b'\1'), (172, b'\x09'), (189, b'\1')), 'refused: type is too big (260) for 156\n'),
        # the fields e_phnum and e_shnum are printed, though section 0 has the numbers
        (strict, changed(names, (44, b'\xff\xff'), (48, b'\0'), (76, b'\2'), (84, b'\3')),
         text.replace('phnum 0 shnum 2', 'phnum 65535 shnum 0').replace('SHT_NULL offset 0x0 size 0', 'SHT_NULL offset 0x0 size 2')),
        # a string table that is cut, and a size of symbols that is not theirs
        (permissive, changed(names, (116, b'\xc8')), text.replace('size 4', 'size 200')),
        (strict, changed(symbols, (204, b'\x20')), wanted_of(symbols))]


def main():
    usage, strict, permissive = b'usage: goblin_show [permissive]\n', (), ('permissive',)
    file, shown = Path('crates/goblin_show/stdin'), Path('crates/goblin_show/stdout').read_bytes()
    texts = {path: wanted_of(path) for path in FILES}
    with tempfile.TemporaryDirectory(prefix='program-') as folder, open('/dev/full', 'wb') as full:
        rows = []
        for at, (arguments, content, text) in enumerate(others(file, FILES[0])):
            Path(folder, f'{at}').write_bytes(content)
            rows.append((int(text.startswith('refused: ')), text.encode(), Path(folder, f'{at}'), arguments))
        # No argument means strict, `permissive` means permissive, and all others print the usage.
        rows += [(0, shown, file, strict), (0, shown, file, permissive)]
        rows += [(2, usage, file, arguments) for arguments in [('strict',), ('',), ('Permissive',), permissive * 2, ('permissive', '')]]
        # (a folder can be opened, and each read of it fails; the first of the others is refused)
        rows += [(2, b'', folder, strict), (2, b'', folder, permissive)]
        rows += [(2, b'', input, strict, PROGRAMS, full) for input in (file, Path(folder, '0'))]
        examples = (0, Path('checks/files/uses.shown').read_bytes(), 'checks/files/uses', strict, EXAMPLES)
        wrong = sum(differing(*row) for row in [*rows, examples, *((0, text.encode(), path) for path, text in texts.items())])
    lines = sum(text.count('\n') for text in texts.values())
    print(f'program: {len(PROGRAMS) * len(rows)} runs with arguments or what fails, and {len(FILES)} files, {lines} lines compared with readelf: '
          f'{wrong} wrong')
    return 1 if wrong else 0


if __name__ == '__main__':
    if len(sys.argv) == 1:
        sys.exit(main())
    print(wanted_of(sys.argv[1]), end='')
