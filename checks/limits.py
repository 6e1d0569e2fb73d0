#!/usr/bin/env python3
"""Whether files made to ask for much work stay cheap: python3 checks/limits.py, from the repository's root, once the programs are built; or
only makes them in a folder: python3 checks/limits.py FOLDER

MAKERS says of each file what it asks for. All are little-endian files, and 64-bit ones but for `memory`, of at most the 16,777,216 bytes that
the program takes. Where a name begins with text_ every byte of the file is below 128, in its headers too: whoever tests the whole file for
text reads all of it there, and in the others stops early.

A run over a file has a limit on its processor seconds, which stands in MAKERS, and on its address space and its main stack. So memory that is
asked for and never touched counts too, and no run may end because there is no more. Of a text without end the first 100 MB are read, and then
no more. What is there for speed alone, and no contract says, is noticed here when it is undone. And each call of the library that allocates,
as goblin_allocation_tests makes it, has a limit on its address space: for a list of the records or strings in 4 MB of bytes and 500 lists of
one item, held at once.
"""
import itertools
import os
import resource
import struct
import subprocess
import sys
import tempfile
from pathlib import Path

PROGRAM = 'crates/goblin_show/out/goblin_show'
CALLS = 'crates/goblin_allocation_tests/out/goblin_allocation_tests'
# The most MiB of address space, of the file that needs most memory and of the others. When this was set they took 93.5 and 28: the file of
# 16 MiB, 72 bytes for each of 419,429 section headers, the lists of 72 bytes for each symbol section and 40 for each relocation section,
# which double, so that 46 MiB are the most, and the program.
MOST, USUAL = 96, 40
STACK = 256 * 1024
READ = 100_000_000
OUT_OF_MEMORY = b'refused: Out of memory'
# What goblin_allocation_tests holds: the most MB of address space, which are 2 to 3 MB more than its 4 MB of bytes, its lists and the program
# itself took when this was set.
HELD = {
    'entries': 9, 'lines': 9, 'parsed': 9, 'permissive': 9, 'relocs': 12, 'sections': 14, 'sections_bytes32': 12, 'sections_bytes64': 13,
    'sections_from': 14, 'segments': 13, 'segments32': 11, 'segments64': 13, 'segments_bytes32': 11, 'segments_bytes64': 13, 'strings': 9,
    'symbols': 12, 'symtab': 12, 'table': 12, 'unparsed': 9,
}

LONGEST = 1 << 24
SHT_NULL, SHT_PROGBITS, SHT_SYMTAB, SHT_STRTAB, SHT_RELA, SHT_REL = 0, 1, 2, 3, 4, 9
RELA_SIZE, REL_SIZE = 24, 16
WIDE, BAD = '\U0001f600'.encode(), b'\xff'
NAMES = b''.join(b'symbol_%06d\0' % i for i in range(300_000))
NAMED = range(0, len(NAMES), len(NAMES) // 300_000)
# The most sections whose number has bytes below 128; where the body begins, after their headers; a large size; and strings of it.
TEXT_SECTIONS, TEXT_BODY, TEXT_SIZE = 0x7f7f, 0x200000, 0x7f0000
SHORT_STRINGS, LONG_STRINGS = ((b'a' * size + b'\0') * (TEXT_SIZE // (size + 1)) for size in (15, 4095))


def section(kind, offset, size, link=0, name=0):
    return struct.pack('<IIQQQQIIQQ', name, kind, 0, 0, offset, size, link, 0, 0, 24)


def symbols(names, values=itertools.repeat(0)):
    """The records of global functions in section 1, with names at these places."""
    return b''.join(struct.pack('<IBBHQQ', name, 18, 0, 1, value, 0) for name, value in zip(names, values))


def body_start(count):
    """Where the body begins of a file of so many sections, the null section not counted."""
    return 64 + 64 * (1 + count)


def elf(sections, body, names=0):
    """A program for x86-64: its header, the headers of the null section and of these, one of which has their names, and the body."""
    header = struct.pack('<16sHHIQQQIHHHHHH', b'\x7fELF\2\1\1', 2, 62, 1, 0, 0, 64, 0, 64, 0, 0, 64, 1 + len(sections), names)
    return b''.join([header, section(SHT_NULL, 0, 0), *sections, body])


def symbols_file(places, names, times=1):
    """A file of symbol sections over the same symbols, so many times, and of the string table that has their names at these places."""
    table, start = symbols(places, itertools.count()), body_start(1 + times)
    strings = section(SHT_STRTAB, start + len(table), len(names))
    return elf([strings] + [section(SHT_SYMTAB, start, len(table), link=1)] * times, table + names)


def in_turn(tables, count, text, step=1):
    """Symbol sections of a byte, linked in turn to so many string tables, each of which begins `step` bytes after the one before."""
    start = body_start(tables + count)
    strings = [section(SHT_STRTAB, start + i * step, len(text) - i * step) for i in range(tables)]
    return elf(strings + [section(SHT_SYMTAB, start, 1, link=1 + i % tables) for i in range(1 + tables, 1 + tables + count)], text)


def relocs():
    places = range(LONGEST - RELA_SIZE - 65_000, LONGEST - RELA_SIZE)
    return elf([section(SHT_RELA, place, RELA_SIZE) for place in places], bytes(LONGEST - body_start(65_000)))


def relocations():
    entries = b''.join(struct.pack('<QQq', i, i, i) for i in range(690_000))
    return elf([section(SHT_RELA, body_start(1), len(entries))], entries)


def low_numbers(start, count):
    """So many numbers, the first ones from `start` on, whose bytes are all below 128."""
    return itertools.islice((number for number in itertools.count(start) if not number & 0x80808080), count)


def low_names(count):
    """Where so many names lie: 6 MB and more after the start of the strings that they lie in."""
    return low_numbers(0x600000, count)


def text_file(sections, body=b'', names=0):
    """A file of these sections and this body, as long as the program takes one."""
    return (elf(sections, b'', names).ljust(TEXT_BODY, b'a') + body).ljust(LONGEST, b'a')


def text_symbols(count, strings):
    table = symbols(low_names(count))
    headers = [section(SHT_STRTAB, TEXT_BODY + len(table), TEXT_SIZE), section(SHT_SYMTAB, TEXT_BODY, len(table), link=1)]
    return text_file(headers, table + strings)


def text_relocs(start, size):
    """A file of 32,638 relocation sections of a size, from an offset on, in turn without addends and with them."""
    places = enumerate(low_numbers(start, TEXT_SECTIONS - 1))
    return text_file([section(SHT_RELA if i % 2 else SHT_REL, place, size) for i, place in places])


def text_tables():
    places = low_numbers(TEXT_BODY, TEXT_SECTIONS)
    # An index that a section is linked to has bytes below 128.
    return text_file([section(SHT_SYMTAB, TEXT_BODY, 1, link=i - 128) if i & 128 else section(SHT_STRTAB, next(places), TEXT_SIZE)
                      for i in range(1, TEXT_SECTIONS)])


def text_sections():
    headers = [section(SHT_PROGBITS, 0, 0, name=name) for name in low_names(TEXT_SECTIONS - 2)]
    return text_file([section(SHT_STRTAB, TEXT_BODY, TEXT_SIZE)] + headers, SHORT_STRINGS, names=1)


def memory():
    """A 32-bit file of as many sections as fit, because a 64-bit file has fewer and no larger records are made of them. Lists of parts double,
    so there are just more symbol sections, of a byte, than half of a list holds. The others are relocation sections of an entry."""
    header = struct.pack('<16sHHIIIIIHHHHHH', b'\x7fELF\1\1\1', 2, 3, 1, 0, 0, 52, 0, 52, 0, 0, 40, 0, 0)
    section = lambda kind, size, link=0: struct.pack('<IIIIIIIIII', 0, kind, 0, 0, 0, size, link, 0, 0, 0)
    count, symbols = (LONGEST - len(header)) // 40, (1 << 18) + 1
    parts = section(SHT_SYMTAB, 1, link=1) * symbols + section(SHT_REL, 8) * (count - 2 - symbols)
    return (header + section(SHT_NULL, count) + section(SHT_STRTAB, 0) + parts).ljust(LONGEST, b'\0')


# Each file: how it is made, and the most processor seconds that a strict and a permissive run may take, at most some 20 times what they
# took when this was set.
MAKERS = {
    # 65,000 symbol sections of a byte, linked to one string table of 12 MB; 64,999 to two in turn; and to one that ends in a bad byte
    'one': (lambda: in_turn(1, 65_000, b'a' * 12_000_000), 1, 1),
    'turns': (lambda: in_turn(2, 64_999, b'a' * 12_000_000), 1, 1),
    'damaged': (lambda: in_turn(1, 65_000, b'a' * 11_999_999 + BAD), 1, 1),
    # 32,000 overlapping string tables, of characters of one byte and of four
    'narrow': (lambda: in_turn(32_000, 32_000, b'a' * 12_000_000), 1, 1),
    'wide': (lambda: in_turn(32_000, 32_000, WIDE * 3_000_000, len(WIDE)), 3, 1),
    # 60,000 symbol sections linked in turn to two tables of 6 MB, of 3,000,000 strings and a byte that is not UTF-8
    'strings': (lambda: in_turn(2, 60_000, b'a\0' * 2_999_999 + b'a' + BAD), 1, 1),
    # 200,000 names that begin inside a character of four bytes, in a string table of 11 MB
    'inside': (lambda: symbols_file([5] * 200_000, WIDE * 2_750_000), 2, 2),
    # 300,000 symbols with names
    'symbols': (lambda: symbols_file(NAMED, NAMES), 2, 2),
    # 300,000 names in one string of 9 MB that ends in a byte that is not UTF-8, of characters of one byte and of four
    'failing': (lambda: symbols_file(range(1, 29 * 300_000, 29), b'a' * 8_999_999 + BAD), 1, 6),
    'failing_wide': (lambda: symbols_file(range(4, 28 * 300_000, 28), WIDE * 2_249_999 + b'abc' + BAD), 2, 11),
    # 60,000 symbol sections over the same 300,000 symbols with names
    'endless': (lambda: symbols_file(NAMED, NAMES, 60_000), 7, 7),
    # 65,000 relocation sections of one entry each, at the end of a file of 16 MB; and one section of 690,000
    'relocs': (relocs, 1, 1),
    'relocations': (relocations, 2, 2),
    # 419,427 of 262,145 symbol sections and of relocation sections, in 32 bits: no file of this length is known to need more memory
    'memory': (memory, 2, 2),
    # 16,256 symbol sections of a byte, each linked to one of as many overlapping string tables
    'text_tables': (text_tables, 1, 1),
    # 32,637 sections with names, which lie 6 MB and more after the start of a string table of 8 MB
    'text_sections': (text_sections, 1, 1),
    # symbols with names of at most 15 bytes, and of at most 4,095
    'text_symbols': (lambda: text_symbols(253_952, SHORT_STRINGS), 2, 2),
    'text_long_names': (lambda: text_symbols(24_576, LONG_STRINGS), 2, 2),
    # 32,638 overlapping relocation sections of one entry each, of a byte less than an entry, and of 8 MB
    'text_relocs': (lambda: text_relocs(TEXT_SIZE - 0x10000, RELA_SIZE), 1, 1),
    'text_relocs_cut': (lambda: text_relocs(TEXT_SIZE - 0x10000, REL_SIZE - 1), 1, 1),
    'text_relocs_endless': (lambda: text_relocs(TEXT_BODY, TEXT_SIZE), 5, 5),
}


def make(folder):
    for name, (maker, *_) in MAKERS.items():
        made = maker()
        if name.startswith('text_') and not made.isascii():
            sys.exit(f'limits: a byte of {name} is above 127')
        Path(folder, name).write_bytes(made)


def limited(space, *more):
    """What sets limits for a program before it starts: so many MiB of address space, and others before that."""
    return lambda: [resource.setrlimit(what, (most, most)) for what, most in (*more, (resource.RLIMIT_AS, space << 20))]


def took(path, arguments, limit):
    """Whether a run over a file, which is ended where it passes a limit, ends as it should, and its processor seconds."""
    limits = limited(MOST if path.name == 'memory' else USUAL, (resource.RLIMIT_CPU, limit), (resource.RLIMIT_STACK, STACK))
    with open(path, 'rb') as file, subprocess.Popen([PROGRAM, *arguments], stdin=file, preexec_fn=limits, stdout=subprocess.PIPE) as ran:
        said = ran.stdout.read(READ)
        ran.stdout.close()
        _, status, used = os.wait4(ran.pid, 0)
        ran.returncode = status
    ended = len(said) == READ if path.name.endswith('endless') else os.WIFEXITED(status) and os.WEXITSTATUS(status) < 2
    return ended and not said.startswith(OUT_OF_MEMORY), used.ru_utime + used.ru_stime


def holds(form, limit):
    """Whether goblin_allocation_tests can hold the lists of a form in so many MB of address space."""
    ended = subprocess.run([CALLS], input=f'held-{form}\n', text=True, stdout=subprocess.PIPE, preexec_fn=limited(limit))
    return ended.returncode == 0 and ended.stdout == f'held-{form}: `held`\n'


def main():
    wrong = 0
    with tempfile.TemporaryDirectory(prefix='limits-') as folder:
        make(folder)
        for name, (_, *limits) in MAKERS.items():
            for mode, arguments, limit in zip(('strict', 'permissive'), ([], ['permissive']), limits):
                well, seconds = took(Path(folder, name), arguments, limit)
                wrong += not well
                print(f'{name}, {mode}: {seconds:.2f} of {limit} seconds{"" if well else ": OVER THE LIMIT, or it failed"}')
    print(f'limits: {2 * len(MAKERS)} runs, {wrong} over a limit or failed')
    over = [form for form, limit in HELD.items() if not holds(form, limit)]
    print(f'limits: {len(HELD)} lists of the library, over the limit of their memory: {", ".join(over) or "none"}')
    return 1 if wrong or over else 0


if __name__ == '__main__':
    sys.exit(make(sys.argv[1]) if sys.argv[1:] else main())
