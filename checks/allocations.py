#!/usr/bin/env python3
"""Checks that each call that allocates reports out of memory, or returns what it returns with ample memory, whichever one of its allocations is
refused: python3 checks/allocations.py, from the repository's root.

The calls are those that goblin_allocation_tests lists in its stdin, a run of goblin_text over files that reach each of its lines, and text_of
over two of them. Nothing is proved here.
"""
import os
import re
import shutil
import subprocess
import sys
import tempfile
from collections import namedtuple
from pathlib import Path

sys.dont_write_bytecode = True
from crates import make_program
from program import changed, wanted_of

CALLS = 'crates/goblin_allocation_tests'
# The number of the allocation of a program that is refused. So many are made before a call that it is one of the call's own.
REFUSED = 1000
WELL, MORE = 'as expected', 'it makes more allocations than were refused'
# What is printed of a call that makes more allocations than were refused.
FOUND_MORE = re.compile(rf'^the output differs from .(.*)\.\d+\.stdout.: at byte 0, expected "{WELL}\\n", found "{MORE}\\n"$', re.MULTILINE)
# A call that does, and is tried once.
TOO_FEW = 'too_few'

# How many allocations of a call are refused in a round, one in each case, its line, the file, and what it writes with ample memory, if that is
# known: then it is first called with none refused.
Call = namedtuple('Call', 'count line file shown', defaults=(b'', None))


def cases_of(call, rounds):
    """The number of each case of a call after some rounds, its input, and what it is to write."""
    first, last = rounds * call.count + 1, (rounds + 1) * call.count
    for number in range(0 if first == 1 and call.shown else first, last + 1):
        line = f'{call.line} {number} {REFUSED}{" last" if number == last else ""}\n'
        yield number, line.encode() + call.file, f'{WELL}\n'.encode() if number else call.shown


def try_calls(crate, calls):
    """Runs a crate's program over calls. Those that make more allocations are tried again with as many more refused, until none makes more. The
    toolchain must report that in the words that are read here, and other cases as expected."""
    rounds = 0
    while calls:
        with tempfile.TemporaryDirectory(prefix='cases-') as folder:
            for name, call in calls.items():
                for number, given, wanted in cases_of(call, rounds):
                    Path(folder, f'{name}.{number}').write_bytes(given)
                    Path(folder, f'{name}.{number}.stdout').write_bytes(wanted)
            count = len(os.listdir(folder)) // 2
            command = ['rt', 'try', '--steps', '100000', '--fail-alloc', f'{REFUSED}', '--cases', folder]
            said = subprocess.run(command, cwd=crate, stdout=subprocess.PIPE, stderr=subprocess.STDOUT, text=True, errors='replace').stdout
        more, expected = FOUND_MORE.findall(said), len(re.findall('^case=.* output=expected', said, re.MULTILINE))
        if expected + len(more) != count:
            sys.exit('\n'.join(line for line in said.split('\n') if 'output=expected' not in line))
        if rounds == 0 and not (expected and TOO_FEW in more):
            sys.exit(f'{said}\nallocations: this script does not understand the output of rt try, which is above; its wording may have changed')
        calls = {name: calls[name] for name in more if name != TOO_FEW}
        rounds += 1


def runs():
    """The runs of goblin_text, as checks/allocations.main makes them."""
    read = lambda path: Path(path).read_bytes()
    names, shown, symbols = (read(path) for path in ('crates/goblin_show/stdin', 'crates/goblin_show/stdout', 'checks/files/symbols'))
    damaged, text = changed('crates/goblin_show/stdin', (53, b'\xff')), wanted_of('checks/files/symbols').encode()
    return {
        'symbols': Call(20, 'strict 0', symbols, text),
        'relocations': Call(20, 'strict 0', read('checks/files/relocations'), read('checks/files/relocations.shown')),
        'names': Call(20, 'strict 0', names, shown),
        'damaged': Call(20, 'permissive 0', damaged, shown.replace(b'name=.s\n', b'name=\n')),
        # (each of its cases takes seconds, so its count is small: few cases refuse an allocation that it doesn't make)
        'longest': Call(8, 'strict 16777200', b'0123456789abcdef', b'refused: Invalid magic number: 0x3736353433323130\n'),
        'text': Call(20, 'text 0', symbols, text),
        'text_damaged': Call(20, 'text 0', damaged, b'refused\n'),
        TOO_FEW: Call(1, 'strict 0', symbols)}


def main():
    lines = Path(CALLS, 'stdin').read_text().split()
    try_calls(CALLS, {**{line: Call(8, line) for line in lines}, TOO_FEW: Call(1, 'segments-parse')})
    with tempfile.TemporaryDirectory(prefix='runs-') as room:
        make_program('goblin_runs: goblin goblin_text', 'checks/allocations.main', room)
        shutil.copy(f'{CALLS}/src/allocations.rt', f'{room}/crates/goblin_runs/src')
        try_calls(f'{room}/crates/goblin_runs', runs())
    print('allocations: with each one refused, every call reported out of memory or the same result as without')


if __name__ == '__main__':
    main()
