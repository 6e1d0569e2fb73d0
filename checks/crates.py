#!/usr/bin/env python3
"""The crates of crates.txt. Run from the repository's root.

    python3 checks/crates.py CRATE          prints those that a crate stands on and the crate itself, the lowest first, a name a line
    python3 checks/crates.py --sum CRATE [FILE]    prints a sum of all that is proved of them, and of a file
    python3 checks/crates.py --program 'NAME: CRATE ..' MAIN FOLDER    makes a program in a folder, over copies of the crates below it
"""
import hashlib
import os
import re
import shutil
import subprocess
import sys


def fail(why):
    """Ends the command that runs with a sentence, and with status 2."""
    print(f'{os.path.basename(sys.argv[0])[:-len(".py")]}: {why}', file=sys.stderr)
    sys.exit(2)


def run(main):
    """Runs a command, and ends with its status, or with a sentence if it is interrupted."""
    try:
        sys.exit(main())
    except KeyboardInterrupt:
        print(file=sys.stderr)
        fail('it was interrupted')


def text_of(path):
    with open(path, encoding='utf-8', errors='replace') as file:
        return file.read()


def tracked(*patterns):
    """The repository's files: those that git tracks or would add, by their paths from its root."""
    listed = subprocess.run(['git', 'ls-files', '-coz', '--exclude-standard', *patterns], stdout=subprocess.PIPE, text=True)
    if listed.returncode:
        fail("git doesn't list the files of this folder, for the reason above")
    return [path for path in listed.stdout.split('\0') if os.path.isfile(path)]


def copy_files(paths, folder):
    """Copies files to the same paths in a folder, where they can be written to, whatever can be done with these."""
    for path in paths:
        os.makedirs(os.path.dirname(f'{folder}/{path}'), exist_ok=True)
        shutil.copyfile(path, f'{folder}/{path}')


def crates_listed():
    """The crates of crates.txt in its order, each with those of them that it stands on, directly or not."""
    stands_on = dict(re.findall(r'^(\w+)[^:#\n]*:([^#\n]*)', text_of('crates.txt'), re.MULTILINE))
    below = lambda crate: {lower for name in stands_on[crate].split() if name in stands_on for lower in {name, *below(name)}}
    return {crate: below(crate) for crate in stands_on}


def with_those_below(*crates):
    """Some crates and those below them, the lowest first."""
    listed = crates_listed()
    for crate in crates:
        if crate not in listed:
            fail(f'crates.txt has no crate {crate}')
    return [name for name in listed if any(name in {crate, *listed[crate]} for crate in crates)]


def sources_of(crates):
    """The files that the proofs of these crates rest on."""
    parts = [f'crates/{crate}/{part}' for crate in crates for part in ('src', 'specs', 'proofs')]
    return sorted(['crates.txt', 'HANDLES', *(f'{at}/{name}' for part in parts for at, _, names in os.walk(part) for name in names)])


def sum_of(crates, *others):
    """A sum of these files and others, with their names."""
    whole = hashlib.sha256()
    for path in [*sources_of(crates), *others]:
        with open(path, 'rb') as file:
            whole.update(f'{path} {hashlib.sha256(file.read()).hexdigest()}\n'.encode())
    return whole.hexdigest()


def copy_crates(crates, folder, *lines):
    """Copies crates to a folder, with their lines of crates.txt, and others after them. (The toolchain refuses a listed crate without a folder.)"""
    copy_files(sources_of(crates), folder)
    listed = [line for line in text_of('crates.txt').split('\n') if re.match(r'\w*', line)[0] in crates]
    with open(f'{folder}/crates.txt', 'w', encoding='utf-8') as file:
        file.write(''.join(f'{line}\n' for line in [*listed, *lines]))


def make_program(line, main, folder):
    """Makes a program in a folder, over copies of the crates below it: its line of crates.txt, and the file of its main."""
    name, *below = re.findall(r'\w+', line)
    copy_crates(with_those_below(*below), folder, line)
    os.makedirs(f'{folder}/crates/{name}/src')
    shutil.copyfile(main, f'{folder}/crates/{name}/src/main.rt')


if __name__ == '__main__':
    first, *more = sys.argv[1:]
    if first == '--program':
        make_program(*more)
    else:
        print(sum_of(with_those_below(more[0]), *more[1:]) if first == '--sum' else '\n'.join(with_those_below(first)))
