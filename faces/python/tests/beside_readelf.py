#!/usr/bin/env python3
"""Compares what goblin_elf says of dynamic sections with what readelf prints: beside_readelf.py [--files N] [--damaged N] [PATH ..]

It reads N ELF files of the folders (default: 500 of this machine's) by both and compares the needed libraries, the soname, the search paths and
the interpreter. Then it damages or cuts small ones N times (default: 2000), and compares what is not refused where readelf reports no error.
Each difference is listed. The exit status says nothing of them: another readelf prints other things.
"""
import argparse
import collections
import os
import re
import subprocess
import tempfile

from goblin_elf import Elf, Refused

from parts import content_of, damaged, elf_files

CALLS = {'needed': 'libraries', 'rpath': 'rpaths', 'runpath': 'runpaths'}
PATTERNS = {'needed': r'\(NEEDED\) +Shared library: \[(.*)\]$', 'soname': r'\(SONAME\) +Library soname: \[(.*)\]$',
            'rpath': r'\(RPATH\) +Library rpath: \[(.*)\]$', 'runpath': r'\(RUNPATH\) +Library runpath: \[(.*)\]$',
            'interpreter': r'^ +\[Requesting program interpreter: (.*)\]$'}


def ours(content):
    """Returns the texts of each fact, or `None` if it is refused."""
    found = {}
    for fact in PATTERNS:
        try:
            text = getattr(Elf(content), CALLS.get(fact, fact))
            found[fact] = text if isinstance(text, list) else [text] if text is not None else []
        except Refused:
            found[fact] = None
    return found


def theirs(path):
    """Returns the texts of each fact that readelf prints, and whether it reports an error."""
    ran = subprocess.run(['readelf', '-dlW', path], stdout=subprocess.PIPE, stderr=subprocess.PIPE, encoding='utf-8', errors='surrogateescape',
                         env={**os.environ, 'LC_ALL': 'C'})
    found = {fact: re.findall(pattern, ran.stdout, re.M) for fact, pattern in PATTERNS.items()}
    return {fact: texts if fact in CALLS else texts[:1] for fact, texts in found.items()}, bool(ran.stderr)


def compare(name, content, path, counts):
    """Compares a file, and counts what is the same, refused and different."""
    mine, (other, is_error) = ours(content), theirs(path)
    for fact, texts in mine.items():
        state = 'refused' if texts is None else 'the same' if texts == other[fact] else 'with an error of readelf' if is_error else 'different'
        counts[state] += 1
        if state == 'different':
            print(f'{name}: {fact}: ours {texts}, theirs {other[fact]}')


def main():
    parser = argparse.ArgumentParser(description=__doc__.split('\n')[0])
    parser.add_argument('--files', type=int, default=500)
    parser.add_argument('--damaged', type=int, default=2000)
    parser.add_argument('paths', nargs='*', default=['/usr/lib', '/usr/bin'])
    options = parser.parse_args()
    paths, whole, broken = elf_files(options.paths, options.files), collections.Counter(), collections.Counter()
    for path in paths:
        compare(path, content_of(path), path, whole)
    sources = [content_of(path) for path in paths if os.path.getsize(path) < 100000][:40]
    with tempfile.TemporaryDirectory() as folder:
        path = os.path.join(folder, 'damaged')
        for index, content in enumerate(damaged(options.damaged, sources, 1)):
            with open(path, 'wb') as file:
                file.write(content)
            if content[:4] == b'\x7fELF':
                compare(f'damaged file {index}', content, path, broken)
    print(f'readelf: {len(paths)} files, {dict(whole)}; {options.damaged} damaged files, {dict(broken)}')


if __name__ == '__main__':
    main()
