"""Prints what a program is loaded with, each library below what needs it, as lddtree does: lddtree.py FILE [ROOT]

ROOT is the folder of another system, whose files are looked for below it. Libraries are looked for where ld.so looks for them, but for its
cache: the folders of ld.so.conf stand for that. Of the variables in search paths it knows $ORIGIN.
"""
import glob
import os
import stat
import sys

from goblin_elf import Elf, Refused

sys.stdout.reconfigure(errors='replace')  # (it need not take each sign)
ROOT = ''.join(sys.argv[2:3])
SYSTEM = '/lib64:/usr/lib64:/lib/x86_64-linux-gnu:/usr/lib/x86_64-linux-gnu:/lib:/usr/lib'


def escaped(text):
    """Returns a text in which a terminal takes nothing as a command."""
    return ''.join(sign if sign.isprintable() and sign != '\\' else ''.join(f'\\x{byte:02x}' for byte in sign.encode('utf-8', 'surrogateescape'))
                   for sign in text)


def opened(path):
    # (what is no regular file may have no end, and some of the kernel's files, which have no size, wait)
    status = os.stat(path)
    if not stat.S_ISREG(status.st_mode):
        raise OSError(0, 'it is no ordinary file', path)
    return Elf.open(path) if status.st_size else Elf(b'')


def folders(path, file=''):
    own = [folder.replace('${ORIGIN}', '$ORIGIN') for folder in (path or '').split(':') if folder]
    return [folder.replace('$ORIGIN', os.path.dirname(file) or '.') if folder.startswith('$ORIGIN') else ROOT + folder for folder in own]


def configured(path, read):
    """Returns the folders that a file like ld.so.conf names, and those of the files that it includes, which are read once."""
    if path in read or not os.path.isfile(path):
        return []
    read.add(path)
    with open(path, encoding='utf-8', errors='surrogateescape') as file:
        lines = [line.split('#')[0].split() for line in file]
    found = []
    for word, *others in filter(None, lines):
        for pattern in others if word == 'include' else ():
            start = ROOT if pattern.startswith('/') else os.path.dirname(path) + '/'
            found += [folder for included in sorted(glob.glob(start + pattern)) for folder in configured(included, read)]
        found += [ROOT + word] if word.startswith('/') else []
    return found


def fits(path, header):
    # (a file may name one that has no end, or that waits for another program)
    try:
        return os.path.isfile(path) and ((own := Elf.open(path).header).e_machine, own.ei_class) == (header.e_machine, header.ei_class)
    except (OSError, Refused):
        return False


class Loaded:
    """A file that is loaded: what it needs, where that is looked for, and what it is known by: its number on its disk, and names."""

    def __init__(self, path, loader=None):
        elf = Elf.open(path)
        self.path, self.loader, self.header, self.needed, self.libraries = path, loader, elf.header, elf.libraries, {}
        self.names = [os.stat(path)[1:3], path, elf.soname]
        self.runpath = folders(':'.join(elf.runpaths), path) if elf.runpaths else None
        self.rpath = folders(':'.join(elf.rpaths), path) if self.runpath is None else []

    def find(self, name):
        """Returns the path of a library that this one needs, or `None`."""
        above, by = [], self if self.runpath is None else None
        # (DT_RPATH holds for all that is loaded by it, and for nothing that has DT_RUNPATH)
        while by:
            above, by = [*above, *by.rpath], by.loader
        searched = [*above, *folders(os.environ.get('LD_LIBRARY_PATH')), *(self.runpath or []), *DEFAULT]
        paths = [ROOT + name] if '/' in name else [os.path.join(folder, name) for folder in searched]
        return next((path for path in paths if fits(path, self.header)), None)


def load(first, interpreter):
    """Finds what a file is loaded with, in the order of ld.so: all that one needs before what these need."""
    loaded, known = [first], {}

    def add(one, *more):
        # (a file is loaded once, and a name is that of the first file that has it)
        one = known.setdefault(one.names[0], one)
        for name in (*one.names, *more):
            known.setdefault(name, one)
        return one

    add(first)
    if interpreter and fits(ROOT + interpreter, first.header):
        add(Loaded(ROOT + interpreter, first), interpreter)
    for one in loaded:
        for name in one.needed:
            path = None if name in known else one.find(name)
            if path:
                made = Loaded(path, one)
                loaded += [made] if add(made, name) is made else []
            one.libraries[name] = known.get(name)


def show(one, margin, seen):
    for name in one.needed:
        library = one.libraries[name]
        print(escaped(f'{margin}{name} => {library.path if library else "not found"}'))
        if library and library not in seen:
            seen.add(library)
            show(library, margin + '    ', seen)


if not sys.argv[1:]:
    sys.exit('usage: lddtree.py FILE [ROOT]')
try:
    DEFAULT = [*configured(ROOT + '/etc/ld.so.conf', set()), *folders(SYSTEM)]
    interpreter = opened(sys.argv[1]).interpreter
    print(escaped(f'{sys.argv[1]} (interpreter => {interpreter})'))
    program = Loaded(sys.argv[1])
    load(program, interpreter)
    show(program, '    ', set())
    print(end='', flush=True)
except Refused as error:
    sys.exit(f'refused: {error}')
except OSError as error:
    os.dup2(os.open(os.devnull, os.O_WRONLY), 1)  # (what is left to be printed may not fit)
    sys.exit(escaped(f'{error.filename or sys.argv[1]}: {error.strerror}'))
