#!/usr/bin/env python3
"""Compares what the library's programs list of files of this machine with what this machine's nm, readelf, size and addr2line print of them.

    python3 bench/compare.py FOLDER [FILE ..]   the programs are in FOLDER, where bench/compare.sh makes them
    python3 bench/compare.py --list FILE        prints what is stored beside a file of checks/files/made

It lists each difference, and its exit status says nothing of them: other versions of binutils print other things.
"""
import fnmatch
import itertools
import os
import re
import shutil
import subprocess
import sys

sys.dont_write_bytecode = True
sys.path.append('checks/faces')
from comparison import COMMANDS, Comparison

os.environ.update(LC_ALL='C', DEBUGINFOD_URLS='')
LARGEST = 1500 << 10


def run(command, path, given=''):
    """What a command prints of a file, and after it its messages if it prints nothing else."""
    ran = subprocess.run([*command.split(), path], input=given, stdout=subprocess.PIPE, stderr=subprocess.PIPE, text=True, errors='surrogateescape')
    return ran.stdout or ran.stderr


def spots(path):
    """Addresses in and around the sections that are in memory: of each the first and the last, one between them, and those before and after it.
    Left out is what addr2line finds by another rule: it takes a function that ends before the address, or a label in one that contains it, but no
    object, mapping symbol ($d) or hidden local label."""
    text, listed = run('readelf -W -S', path), run('readelf -W -s', path)
    tables = dict(re.findall(r"^Symbol table '(\S+)' .*\n((?:.+\n)*)", listed, re.MULTILINE))
    table = tables.get('.symtab') or tables.get('.dynsym', '')
    symbols = re.findall(r'^ *\d+: ([0-9a-f]+) +(\S+) (NOTYPE|OBJECT|FUNC|IFUNC) +(.*) (\d+) (\S*)', table, re.MULTILINE)
    symbols = [(int(value, 16), int(size, 0), kind == 'OBJECT' or name.startswith('$') or re.match('LOCAL +HIDDEN', more), index)
               for value, size, kind, more, index, name in symbols]
    sections = re.findall(r'^ *\[ *(\d+)\].* ([0-9a-f]{8,16}) [0-9a-f]+ ([0-9a-f]+) [0-9a-f]+ +[WXMSITLOG]*A', text, re.MULTILINE)
    sections = [(index, int(start, 16), int(start, 16) + int(size, 16)) for index, start, size in sections]
    for address in {spot for _, start, end in sections for spot in (start - 1, start, (start + end) // 2, end - 1, end) if spot >= 0}:
        held = {index for index, start, end in sections if start <= address < end}
        near = [symbol for symbol in symbols if symbol[0] <= address and symbol[3] in held]
        containing = [symbol for symbol in symbols if symbol[0] <= address < symbol[0] + symbol[1]]
        if not containing and not any(size > 0 or is_other for value, size, is_other, _ in near if value == max(near)[0]):
            yield f'{address:016x}'


def places(path):
    """Addresses in the functions that nm lists with more than 15 bytes, the start of each and one after it, and those in and around sections.
    An object has none."""
    if re.search('^ *Type: *REL ', run('readelf -h', path), re.MULTILINE):
        return []
    rows = [line.split() for name in ('nm', 'nm -D') for line in run(f'{COMMANDS[name]} -S', path).splitlines()]
    starts = {row[0] for row in rows if len(row) == 4 and row[2] in 'tTi' and int(row[1], 16) > 15}
    return sorted(starts | {start[:-1] + 'f' for start in starts})[:300] + sorted(set(spots(path)))[:300]


def printed(path):
    """What those of the programs that are installed print of a file."""
    return {name: run(command, path, '\n'.join(places(path)) if name == 'addr2line' else '') for name, command in COMMANDS.items()
            if shutil.which(command.split()[0]) and shutil.which('nm')}


def is_elf(path):
    with open(path, 'rb') as file:
        return file.read(4) == b'\x7fELF'


def pick(count, folder, name='*'):
    """ELF files of a folder, spread over all of it."""
    paths = sorted(f'{at}/{file}' for at, _, files in os.walk(folder) for file in fnmatch.filter(files, name))
    is_file = lambda path: os.path.isfile(path) and not os.path.islink(path) and os.access(path, os.R_OK)
    paths = [path for path in paths if is_file(path) and os.path.getsize(path) < LARGEST and not re.search(r'\s', path)]
    step = max(1, len(paths) // (3 * count))
    return list(itertools.islice(filter(is_elf, paths[step - 1::step]), count))


def listed(path):
    """What is stored beside a file: each command, and what it prints."""
    os.chdir(os.path.dirname(path) or '.')
    name = os.path.basename(path)
    for key, text in printed(name).items():
        print(f'$ {COMMANDS[key]} {name}', text.rstrip('\n'), sep='\n')


def main():
    if sys.argv[1] == '--list':
        return listed(sys.argv[2])
    missing = sorted({command.split()[0] for command in COMMANDS.values() if not shutil.which(command.split()[0])})
    if {'nm', 'readelf'} & set(missing):
        print('nm or readelf is not installed, so nothing is compared with binutils')
        return None
    paths = sys.argv[2:] or [*pick(60, '/usr/bin'), *pick(60, '/usr/lib', '*.so*'), *pick(60, '/usr/lib', '*.o')]
    comparison = Comparison(sys.argv[1], printed, paths)
    comparison.all()
    print(*comparison.wrong, sep='\n')
    print(f'binutils: {len(comparison.wrong)} differences in {len(paths)} files{"".join(f"; {name} is not installed" for name in missing)}')


if __name__ == '__main__':
    main()
