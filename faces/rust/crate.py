#!/usr/bin/env python3
"""Makes the crate with the static libraries in it, as registries have crates: python3 faces/rust/crate.py FOLDER ARCHIVE ..

The archives are those that faces/install.sh makes, each for all processors of another target. The crate has the sources of the first one,
and the library of each. It prints the path of the crate in FOLDER. Its bytes depend on the archives and on Python's zlib alone. The crate
in the repository is not published, since it has no library.
"""
import gzip
import io
import re
import sys
import tarfile

# The folder of an archive, with the version and the platform as build.rs names it.
ROOT = re.compile(r'goblin_c-([\d.]+)-(\w+)-unknown-(linux)-gnu/')
SOURCES = 'share/goblin_c/rust/'


def content_of(path):
    """Returns the version and the platform of an archive, and its files."""
    with tarfile.open(path) as archive:
        files = {member.name: archive.extractfile(member).read() for member in archive if member.isfile()}
    match = ROOT.match(next(iter(files)))
    if not match:
        sys.exit(f'crate.py: {path} is no archive for all processors of a target with Linux')
    return match[1], f'{match[2]}-{match[3]}', {name[match.end():]: content for name, content in files.items()}


def page_of(source):
    """Returns the first page: what the crate's documentation says before it compares the crate with goblin."""
    text = ''.join(f'{line}\n' for line in re.findall(r'^//! ?(.*)', source, re.M)).split('\n# Coming from goblin\n')[0]
    # (an example has lines that are not shown)
    before, example, after = text.split('```\n')
    example = ''.join(line for line in example.splitlines(True) if not line.startswith('# '))
    text = f'# goblin_rs\n\n{before}```rust\n{example}```\n' + after.replace('\n# ', '\n## ')
    # (links within the documentation lead nowhere on a page of its own)
    return re.sub(r'\[(`[^`]*`)\](?!\()|\[([^]`]*)\]\(#[^)]*\)', r'\1\2', text)


def main(folder, *archives):
    contents = [content_of(path) for path in archives]
    version, _, files = contents[0]
    crate = {name[len(SOURCES):]: content for name, content in files.items() if name.startswith(SOURCES)}
    manifest = crate['Cargo.toml'].decode()
    crate['Cargo.toml'] = manifest.replace('publish = false\n', 'readme = "README.md"\n').encode()
    crate['README.md'] = page_of(crate['src/lib.rs'].decode()).encode()
    # (which documents the calls)
    crate['goblin.h'] = files['include/goblin.h']
    for other, platform, files in contents:
        if other != version:
            sys.exit(f'crate.py: the archives are of the versions {version} and {other}')
        library, = (content for name, content in files.items() if name.endswith('/libgoblin_c.a'))
        crate[f'libraries/{platform}/libgoblin_c.a'] = library
    path = f'{folder}/goblin_rs-{version}.crate'
    with open(path, 'wb') as file, gzip.GzipFile('', 'wb', 9, file, 0) as packed, tarfile.open(fileobj=packed, mode='w') as tar:
        for name, content in sorted(crate.items()):
            member = tarfile.TarInfo(f'goblin_rs-{version}/{name}')
            member.size = len(content)
            tar.addfile(member, io.BytesIO(content))
    print(path)


if __name__ == '__main__':
    if len(sys.argv) < 3:
        sys.exit('usage: crate.py FOLDER ARCHIVE ..')
    main(*sys.argv[1:])
