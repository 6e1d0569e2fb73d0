#!/usr/bin/env python3
"""Compares what the programs in C, Rust and JavaScript list of files with what nm, readelf, size and addr2line of binutils printed of them.

    python3 checks/faces/comparison.py FOLDER     after c.sh, rust.sh and webassembly.sh

The files are those of checks/files/made. What binutils printed of each is stored beside it, so that the verdict needs no other program. A
file of 66,000 sections is made here. Each comparison is of two lists of lines, which must be the same. bench/compare.py does this over files of
the machine.
"""
import difflib
import glob
import itertools
import os
import re
import struct
import subprocess
import sys
from concurrent.futures import ThreadPoolExecutor

# The commands whose output is compared. (With a plugin, nm would list the compiler's own symbols of a file with link-time code. addr2line takes
# the addresses from its standard input.)
COMMANDS = {'readelf': 'readelf -W -h -l -S -s -r -d -V -n -p .comment', 'nm': 'nm --plugin /dev/null --special-syms -a -p',
            'nm -D': 'nm --plugin /dev/null --special-syms -a -p -D', 'size': 'size', 'addr2line': 'addr2line -a -f -s -e'}
SECTIONS = {'UND': '0', 'ABS': '65521', 'COM': '65522'}
# (no fewer than 0xff00, so that the indices of the last do not fit in their symbols)
MANY = 66_000


def lines_of(*command):
    """The lines that a program of ours prints, and a last one if it fails."""
    ran = subprocess.run(command, stdout=subprocess.PIPE, stderr=subprocess.DEVNULL, text=True, errors='surrogateescape')
    return ran.stdout.splitlines() + ['refused'] * (ran.returncode != 0)


def stored(path):
    """What each of the commands printed of a file, as it is stored beside the file."""
    with open(f'{path}.listed', encoding='utf-8', errors='surrogateescape') as listed:
        printed = dict(re.findall(r'^\$ (.*) \S+\n((?:(?!\$ ).*\n)*)', listed.read(), re.MULTILINE))
    return {name: printed[command] for name, command in COMMANDS.items()}


def unversioned(theirs, ours):
    """Lines without the @ and the version that nm and readelf append to names of the dynamic table."""
    return [own if other.startswith(f'{own}@') else other for other, own in itertools.zip_longest(theirs, ours, fillvalue='')]


def symbols_by_readelf(text, is_dynamic):
    """Of each symbol but the null one its value, section index and name. A common one's size is its value."""
    table, found = None, []
    for line in text.splitlines():
        if line.startswith('Symbol table '):
            table = "'.dynsym'" in line
        elif table == is_dynamic and re.match(r' *[1-9]\d*: [0-9a-f]{8}', line):
            line = re.sub(r' \[[^]]*\] +', ' ', re.sub('<[^>]*>: [0-9a-f]+', '-', line))
            _, value, size, _, _, _, section, name = (line.split(None, 7) + [''])[:8]
            value = f'{int(size, 0):0{len(value)}x}' if section == 'COM' else value
            found.append(f'{value} {SECTIONS.get(section, section)} {name}')
    return found


def symbols_by_nm(text):
    """Of each symbol its value, if it is defined, its letter and name. None for a file that nm doesn't know."""
    rows = re.findall(r'^(?:([0-9a-f]+)| +) (\S) ?(.*)$', text, re.MULTILINE)
    return None if 'file format not recognized' in text else list(map(' '.join, rows))


def relocation_by_readelf(line):
    """Its place, the numbers of its type and symbol, and the name and the addend. No symbol has neither value nor name."""
    place, info, _, printed = (line.split(None, 3) + [''])[:4]
    width = 8 if len(info) == 16 else 6
    symbol = int(info[:width], 16)
    rest = re.sub('@[^ ]*', '', re.sub('^[0-9a-f]+ +', '', printed)) if symbol else printed and f' + {printed}'
    return f'{int(place, 16):x} {int(info[width:], 16)} {symbol} {rest}'


def needed_by_readelf(text):
    interpreter = re.findall(r'\[Requesting program interpreter: (.*)\]', text)
    tags = re.findall(r'\((NEEDED|SONAME|RPATH|RUNPATH)\) .*\[(.*)\]$', text, re.MULTILINE)
    return [f'interpreter {name}' for name in interpreter] + [f'{tag.lower()} {name}' for tag, name in tags]


def segments_by_readelf(text):
    _, is_there, mapped = text.partition(' Section to Segment mapping:\n')
    if is_there:
        return [f'{index} {names}'.rstrip() for index, names in re.findall(r'^ *(\d\d+) *(.*)$', mapped.partition('\n\n')[0], re.MULTILINE)]
    # (it prints no map if there are no sections, as in a core file)
    count = re.search('Number of program headers: *([0-9]+)', text)
    return [f'{index:02}' for index in range(int(count[1]) if count else 0)]


class Comparison:
    """Comparisons of files, by the programs in a folder, with what others print of each. `printed` returns this by the names of COMMANDS."""

    def __init__(self, folder, printed, paths):
        self.folder, self.paths, self.wrong, self.counts = folder, paths, [], {}
        self.rust = f'{folder}/target/debug/examples'
        with ThreadPoolExecutor() as pool:
            self.printed = dict(zip(paths, pool.map(printed, paths)))

    def same(self, what, ours, theirs):
        """Notes where two lists differ, and returns how many lines the other program has."""
        if ours != theirs:
            differing = list(itertools.islice(difflib.unified_diff(ours, theirs, lineterm='', n=0), 2, 20))
            self.wrong.append('\n'.join([f'{what}: - is ours, + is what the other program lists', *differing]))
        return len(theirs)

    def each(self, name, compare, what):
        """Compares each file of which a program printed something, and prints how many items these are."""
        with ThreadPoolExecutor() as pool:
            counts = list(pool.map(lambda path: compare(path, self.printed[path][name]), [path for path in self.paths if name in self.printed[path]]))
        self.count(f'{what} of {len(counts)} files', sum(counts))

    def count(self, what, number):
        self.counts[what] = number
        print(f'comparison: {number} {what}')

    def symbols(self, path, is_dynamic):
        """Compares them in the same order, each with its value, letter, section index and name."""
        kind, printed = 'dynamic' if is_dynamic else 'static', self.printed[path]
        ours = [(line.split(' ', 3) + ['', '', ''])[:4] for line in lines_of(f'{self.folder}/nm', *['-D'] * is_dynamic, path)]
        by_readelf = [f'{value} {section} {name}' for value, _, section, name in ours]
        by_nm = [f'{value if section != "0" else ""} {letter} {name}' for value, letter, section, name in ours]
        for other, own, theirs in (('readelf', by_readelf, symbols_by_readelf(printed['readelf'], is_dynamic)),
                                   ('nm', by_nm, symbols_by_nm(printed['nm -D' if is_dynamic else 'nm']))):
            if theirs is not None:
                self.same(f'{path}: {kind} symbols by {other}', own, unversioned(theirs, own) if is_dynamic else theirs)
        return len(ours)

    def sizes(self, path, printed):
        theirs = [' '.join([*line.split()[:5], path]) for line in printed.splitlines()[1:]] * 2
        ours = [' '.join(line.split()) for line in lines_of(f'{self.folder}/size', path, path)[1:]]
        return self.same(f'{path}: size', ours, theirs) if 'filename' in printed else 0

    def addresses(self, path, printed):
        """Compares the names of symbols in and around sections, and of symbolize those that it finds in either way."""
        theirs = re.findall(r'^0x([0-9a-f]+)\n(.*)\n', printed, re.MULTILINE)
        places = [place for place, _ in theirs]
        # (these and others one by one, to test the sorted symbols)
        more = [*places, *(place[:-2] + '00' for place in places), *(f'{place}0' for place in places)]
        symbolize = f'{self.folder}/symbolize'
        if not places:
            return 0
        self.same(f'{path}: symbolize and symbolize -1', lines_of(symbolize, path, *more), lines_of(symbolize, '-1', path, *more))
        return self.same(f'{path}: symbols by addr2line', lines_of(symbolize, path, *places)[::2], [name for _, name in theirs])

    def relocations(self, path, printed):
        rows = [re.match(r'([0-9a-f]+) (\d+ \d+) (.*)', line) for line in lines_of(f'{self.rust}/relocations', path)]
        ours = [f'{int(row[1], 16):x} {row[2]} {re.sub("@[^ ]*", "", row[3])}' for row in rows if row]
        listed = printed.replace('unrecognized: ', 'R_').splitlines()
        return self.same(f'{path}: relocations', ours, [relocation_by_readelf(line) for line in listed if re.match('[0-9a-f]+ +[0-9a-f]+ +R_', line)])

    def by_js(self, name, node):
        """What an example in JavaScript lists of each file. It runs once for all, since node takes long to start."""
        # (it prints the name of a file if there are several)
        text = '\n'.join(lines_of(*node, f'{self.folder}/web/examples/{name}.mjs', *self.paths, self.paths[0]))
        listed = dict(part.split('\n', 1) for part in re.split('^file: ', f'{text}\n', flags=re.MULTILINE)[1:])
        return [listed.get(path, 'refused').splitlines() for path in self.paths]

    def lists(self, name, by_readelf, convert=str):
        """Compares what needed or segments lists, in each language that has it, with readelf, and returns all lines."""
        theirs = [by_readelf(self.printed[path]['readelf']) for path in self.paths]
        with ThreadPoolExecutor() as pool:
            ours = {f'{name}.{language}': list(pool.map(lambda path, program=program: lines_of(program, path), self.paths))
                    for language, program in (('c', f'{self.folder}/{name}'), ('rs', f'{self.rust}/{name}')) if os.path.exists(program)}
        if os.path.exists(f'{self.folder}/node'):
            with open(f'{self.folder}/node', encoding='utf-8') as command:
                ours[f'{name}.mjs'] = self.by_js(name, command.read().split())
        for program, lists in ours.items():
            self.count(f'lines by {program}', sum(self.same(f'{path}: {program}', list(map(convert, own)), other)
                                                  for path, own, other in zip(self.paths, lists, theirs)))
        return [line for lines in theirs for line in lines]

    def all(self):
        """Compares all, and returns the lines of needed."""
        self.each('nm', lambda path, _: self.symbols(path, False) + self.symbols(path, True), 'symbols by nm.c')
        self.each('size', self.sizes, 'lines by size.c')
        self.each('addr2line', self.addresses, 'symbols at addresses by symbolize.c')
        if os.path.exists(f'{self.rust}/relocations'):
            self.each('readelf', self.relocations, 'relocations by relocations.rs')
        # (without the types)
        self.lists('segments', segments_by_readelf, lambda line: re.sub(r'^(\d+) \S*', r'\1', line))
        return self.lists('needed', needed_by_readelf)


def symbol(name, info, section, value, size):
    return struct.pack('<IBBHQQ', name, info, 0, section, value, size)


def section(kind, flags, address, place, size, link=0, info=0, entry=0):
    return struct.pack('<IIQQQQIIQQ', 0, kind, flags, address, place, size, link, info, 1, entry)


def write(path, e_type, parts, heads, count):
    """Writes a 64-bit little-endian file of these parts, and of section headers, whose number the header has."""
    with open(path, 'wb') as file:
        file.write(struct.pack('<16sHHIQQQIHHHHHH', b'\x7fELF\2\1\1', e_type, 62, 1, 0, 0, 64 + sum(map(len, parts)), 0, 64, 0, 0, 64, count, 0))
        file.write(b''.join([*parts, *heads]))


def many(path):
    """Writes an object of MANY sections of a byte, each with a function. What the header has no room for is in the section at index 0, and the
    index of a function's section in a table of such indices."""
    names, indices = b''.join(b'f%05d\0' % i for i in range(1, MANY)), struct.pack(f'<{MANY}I', *range(MANY))
    symbols = bytes(24) + b''.join(symbol(7 * (i - 1), 18, i if i < 0xff00 else 0xffff, 0, 1) for i in range(1, MANY))
    parts = (names, symbols, indices)
    starts = list(itertools.accumulate(map(len, parts), initial=64))
    heads = [section(0, 0, 0, 0, MANY + 3), *[section(1, 6, 0, 64, 1)] * (MANY - 1), section(3, 0, 0, starts[0], len(names)),
             section(2, 0, 0, starts[1], len(symbols), MANY, 1, 24), section(18, 0, 0, starts[2], len(indices), MANY + 1, 0, 4)]
    write(path, 1, parts, heads, 0)


def with_labels(path, e_type):
    """Writes a file whose first section begins at 0x1000, with a function of 4 bytes and a label 0x10 bytes inside, and whose second one at
    0x2000 is not in memory and has a label 0x40 bytes inside. Its relocations name no symbol table."""
    first, second = (0, 0) if e_type == 1 else (0x1000, 0x2000)
    symbols = bytes(24) + symbol(1, 18, 1, first + 0x10, 4) + symbol(10, 16, 1, first + 0x10, 0) + symbol(16, 16, 2, second + 0x40, 0)
    parts = (bytes(0x100), bytes(0x100), b'\0function\0label\0outside\0', symbols, struct.pack('<QQq', 8, 1 << 32 | 2, -4))
    text, other, names, table, relocations = zip(itertools.accumulate(map(len, parts), initial=64), map(len, parts))
    heads = [bytes(64), section(1, 6, 0x1000, *text), section(1, 0, 0x2000, *other), section(3, 0, 0, *names),
             section(2, 0, 0, *table, 3, 1, 24), section(4, 0, 0, *relocations, 0, 1, 24)]
    write(path, e_type, parts, heads, len(heads))


# What is at addresses of such a file. In an object, of type 1, they are offsets in any section.
LABELS = {1: {'f': '??', '10': 'function', '13': 'function', '14': 'label', '3f': 'label', '40': 'outside', 'ff': 'outside', '100': '??'},
          2: {'100f': '??', '1010': 'function', '1013': 'function', '1014': 'label', '10ff': 'label', '1100': '??', '2040': '??'}}


def main():
    folder = sys.argv[1]
    paths = [path for path in sorted(glob.glob('checks/files/made/*')) if not path.endswith('.listed')]
    comparison = Comparison(folder, stored, paths)
    missing = {'interpreter', 'needed', 'soname', 'rpath', 'runpath'} - {line.split()[0] for line in comparison.all()}
    comparison.wrong.extend(f'no compared file has a {name}, so it is not tested' for name in sorted(missing))
    many(f'{folder}/many')
    listed, wanted = lines_of(f'{folder}/nm', f'{folder}/many'), [f'{0:016x} T {i} f{i:05}' for i in range(1, MANY)]
    comparison.count('symbols of a made file of as many sections', comparison.same('many: symbols', listed, wanted))
    sizes = [line.split()[:5] for line in lines_of(f'{folder}/size', f'{folder}/many')[1:]]
    comparison.same('many: size', sizes, [[f'{MANY - 1}', '0', '0', f'{MANY - 1}', f'{MANY - 1:x}']])
    for e_type, at in LABELS.items():
        path = f'{folder}/labels{e_type}'
        with_labels(path, e_type)
        for way in ([], ['-1']):
            found = lines_of(f'{folder}/symbolize', *way, path, *at)[::2]
            comparison.count(f'symbols of a made file of type {e_type}', comparison.same(f'{path}: symbolize {way}', found, list(at.values())))
        if os.path.exists(f'{comparison.rust}/relocations'):
            comparison.same(f'{path}: relocations', lines_of(f'{comparison.rust}/relocations', path), [':', '8 2 1  - 4'])
    comparison.wrong.extend(f'nothing was compared: {what}' for what, number in comparison.counts.items() if not number)
    print('\n'.join(comparison.wrong[:20]))
    return 1 if comparison.wrong else 0


if __name__ == '__main__':
    sys.exit(main())
