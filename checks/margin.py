#!/usr/bin/env python3
"""Which functions the search proves with little to spare, and which take longest: python3 checks/margin.py [CRATE ..], from the repository's
root.

Each crate of crates.txt, or each one named, is checked without its tests: at the full limits, unless earlier checks in its folder
have cached that, and then at half of them. A function is open where a goal of its own stays open then: the next toolchain, or one
field more, may leave it open at the full limits too. One that only calls an open function isn't listed. The libraries below a
crate are proved at the full limits.

The checker reports the end of each function, and no times. So a function's seconds are those since the function before it, on the
clock and with one job, and the first has none. They are those of the second check, and so of what depends on the limits.
"""
import os
import subprocess
import sys
import tempfile
import time

sys.dont_write_bytecode = True
sys.path.append('checks/edits')
from crates import crates_listed, run, with_those_below
from gate import copied
from verdict import CHECKED, Said

SLOWEST = 10


def check(crate, folder):
    """What a check at half limits says of a crate, and the seconds of the functions that it checked."""
    how = {'cwd': folder, 'stdin': subprocess.DEVNULL, 'stderr': subprocess.STDOUT}
    # at the full limits, which leaves what depends on them to the second check, and builds the libraries below
    subprocess.run(['rt', 'check'], stdout=subprocess.DEVNULL, **how)
    lines, ends = [], []
    with subprocess.Popen(['rt', 'check', '--margin', '--jobs', '1'], stdout=subprocess.PIPE, text=True, errors='replace', **how) as ran:
        for line in ran.stdout:
            lines.append(line)
            ends += [(found[1], time.time()) for found in CHECKED.finditer(line)]
    return Said(''.join(lines), crate), {name: end - before for (_, before), (name, end) in zip(ends, ends[1:])}


def main():
    crates, failed = sys.argv[1:] or list(crates_listed()), 0
    with_those_below(*crates)
    with tempfile.TemporaryDirectory(prefix='margin-') as room:
        copied(room, '.')
        for number, crate in enumerate(crates, 1):
            print(f'checking {crate} ({number} of {len(crates)})', flush=True)
            said, seconds = check(crate, f'{room}/crates/{crate}')
            # (but for those that only wait for others)
            found = [path for path, own in said.functions.items() if not own.is_proved and (own.refused or not own.waits)] + said.others
            print(f'{crate}: {len(found)} of {len(said.functions)} functions are not proved at half the limits')
            for path in found:
                print(f'  not proved: {path}')
            for path in sorted(seconds, key=seconds.get, reverse=True)[:SLOWEST]:
                print(f'  {seconds[path]:.1f} seconds: {path}')
            if not said.is_proved:
                failed += 1
                print(f'{"" if found else said.text[-2000:]}{crate}: NOT PROVED at half the limits', flush=True)
    print(f'margin: {failed} of {len(crates)} crates are not proved at half the limits')
    return 1 if failed else 0


if __name__ == '__main__':
    run(main)
