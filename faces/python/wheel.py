#!/usr/bin/env python3
"""Makes a wheel of the package with the shared library: python3 faces/python/wheel.py LIBRARY MACHINE FOLDER, from the repository's root.

LIBRARY is the shared library, and MACHINE is x86_64 or aarch64. It prints the path of the wheel, whose bytes depend on
the sources, on LIBRARY and on Python's zlib alone. `pip install --no-index WHEEL` takes it on a machine with Linux and Python 3.8 or later.
"""
import base64
import hashlib
import os
import re
import sys
import zipfile

HERE = os.path.dirname(os.path.abspath(__file__))


def content_of(version, library_path, machine):
    """Yields the files of the wheel but for the list of them, each with its bytes."""
    with open(library_path, 'rb') as file:
        library = file.read()
    package = os.path.join(HERE, 'goblin_elf')
    for name in sorted(os.listdir(package)):
        if name.endswith('.py') or name == 'py.typed':
            with open(os.path.join(package, name), 'rb') as file:
                yield f'goblin_elf/{name}', file.read()
    with open(os.path.join(package, '_interface.py'), encoding='utf-8') as file:
        interface = re.search(r'^INTERFACE = (\d+)$', file.read(), re.M)[1]
    yield f'goblin_elf/libgoblin_c.so.{interface}', library
    info = f'goblin_elf-{version}.dist-info'
    for name in ('LICENSE', 'CHANGELOG.md'):
        with open(os.path.join(HERE, '..', '..', name), 'rb') as file:
            yield f'{info}/{name}', file.read()
    yield f'{info}/entry_points.txt', b'[console_scripts]\ngoblin-scan = goblin_elf.scan:main\n'
    with open(os.path.join(HERE, 'README.md'), encoding='utf-8') as file:
        page = file.read()
    yield f'{info}/METADATA', f'''Metadata-Version: 2.1
Name: goblin_elf
Version: {version}
Summary: ELF files, read by a proved library
License: MIT
License-File: LICENSE
Classifier: License :: OSI Approved :: MIT License
Requires-Python: >=3.8
Provides-Extra: arrays
Requires-Dist: numpy; extra == 'arrays'
Description-Content-Type: text/markdown

{page}'''.encode()
    yield f'{info}/WHEEL', f'''Wheel-Version: 1.0
Generator: faces/python/wheel.py
Root-Is-Purelib: false
Tag: py3-none-linux_{machine}
'''.encode()


def main(library, machine, folder):
    with open(os.path.join(HERE, '..', 'rust', 'Cargo.toml'), encoding='utf-8') as file:
        version = re.search(r'^version = "(.*)"', file.read(), re.M)[1]
    files = list(content_of(version, library, machine))
    path = os.path.join(folder, f'goblin_elf-{version}-py3-none-linux_{machine}.whl')
    record = f'goblin_elf-{version}.dist-info/RECORD'
    rows = ''
    os.makedirs(folder, exist_ok=True)
    with zipfile.ZipFile(path, 'w', zipfile.ZIP_DEFLATED) as wheel:
        for name, content in files:
            digest = base64.urlsafe_b64encode(hashlib.sha256(content).digest()).rstrip(b'=').decode()
            rows += f'{name},sha256={digest},{len(content)}\n'
            write(wheel, name, content)
        write(wheel, record, f'{rows}{record},,\n'.encode())
    print(path)


def write(wheel, name, content):
    """Adds a file whose time and mode are always the same."""
    member = zipfile.ZipInfo(name, (1980, 1, 1, 0, 0, 0))
    member.compress_type, member.external_attr = zipfile.ZIP_DEFLATED, 0o100644 << 16
    wheel.writestr(member, content)


if __name__ == '__main__':
    if len(sys.argv) != 4:
        sys.exit(__doc__.split('\n')[0])
    main(*sys.argv[1:])
