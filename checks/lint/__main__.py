#!/usr/bin/env python3
"""Says what is wrong with the repository's text: python3 checks/lint, from its root.

Each of the modules beside this one checks what its first lines say. No line is over the width of its language, below. If shellcheck
is installed, it must find nothing in the shell scripts by the checks that version 0.9.0 has. What it finds by others is printed.
"""
import os
import re
import shutil
import subprocess
import sys

sys.dont_write_bytecode = True
sys.path.append(os.path.dirname(os.path.dirname(os.path.abspath(__file__))))
import hidden
import names
import pinned
import quotes
import readme
import signatures
import words
from crates import text_of, tracked


# How many columns a line may have, and the files of that width; and what the toolchain's formatter leaves on one line in Rattle's code.
LONG = re.compile(r'\s*(?:ghost use |#\[|")')
WIDTHS = {120: ('*.antt', '*.c', '*.h', '*.js', '*.mjs', '*.ts', '*.rs', '*.rt', '*.css'), 150: ('*.py', '*.sh')}
# The numbers of the checks of shellcheck 0.9.0.
CHECKS = {*range(1000, 1146), *range(2000, 2324), *range(3000, 3061)}


def wide():
    paths = {path: width for width, kinds in WIDTHS.items() for path in tracked(*kinds, ':!checks/files')}
    wrong = [f'{path}:{number}: it is over {width} columns' for path, width in paths.items()
             for number, line in enumerate(text_of(path).split('\n'), 1) if len(line) > width and not (path.endswith('.rt') and LONG.match(line))]
    return f'columns of {len(paths)} files', wrong


def shell():
    paths = tracked('*.sh', '.ci/run')
    if not shutil.which('shellcheck'):
        print('left out: shellcheck is not installed, so shell scripts are not read')
        return 'no shell script', []
    ran = subprocess.run(['shellcheck', '--norc', '-x', '-f', 'gcc', *paths], stdout=subprocess.PIPE, text=True)
    wrong = [line for line in ran.stdout.splitlines() if int(re.search(r'\[SC(\d+)\]$', line)[1]) in CHECKS]
    print(''.join(f'{line}\n' for line in ran.stdout.splitlines() if line not in wrong), end='')
    return f'{len(paths)} shell scripts', wrong or ['shellcheck failed'] * (ran.returncode > 1)


def main():
    read, failed = [], 0
    for check in (quotes.faults, words.faults, names.faults, pinned.faults, hidden.faults, signatures.faults, readme.faults, wide, shell):
        what, wrong = check()
        read.append(what)
        failed += len(wrong)
        print(''.join(f'{line}\n' for line in wrong), end='')
    print(f'lint: {failed} faults; it has read {", ".join(read)}')
    return 1 if failed else 0


if __name__ == '__main__':
    sys.exit(main())
