#!/usr/bin/env python3
"""Times the built program beside readelf: python3 bench/program.py [FILE], from the repository's root.

First over the files of checks/limits.py and over FILE: for each the least of RUNS runs, strict and permissive, in milliseconds, and
readelf's time divided by the strict one. The programs run in turn. readelf is stopped after 10 seconds, and of a text without end the first
100 MB are read. Then over 64 programs and libraries of this machine, spread evenly over their names: readelf's time divided by the
program's, the least, the middle and the most. Both print the header, the sections, the symbols and the relocations. Then calls of the
library, by the program of bench/calls.main, which is proved first.
"""
import glob
import os
import shutil
import statistics
import subprocess
import sys
import tempfile
import time

sys.dont_write_bytecode = True
sys.path.append('checks')
from crates import make_program, with_those_below
from kept import take

SHOW = 'crates/goblin_show/out/goblin_show'
READELF = ['timeout', '10', 'readelf', '-W', '-h', '-S', '-s', '-r']
LONGEST = 1 << 24
RUNS, COUNT, TURNS = 15, 64, 9


def seconds(command, path):
    """How long a command takes over a file on its standard input."""
    with open(path, 'rb') as file:
        start = time.perf_counter()
        ran = subprocess.Popen(command, stdin=file, stdout=subprocess.PIPE, stderr=subprocess.DEVNULL)
        left = 100_000_000
        while left > 0 and (piece := ran.stdout.read(min(left, 1 << 20))):
            left -= len(piece)
        ran.stdout.close()
        ran.wait()
        return time.perf_counter() - start


def least(commands, path, turns):
    """The least time of each of these commands, which run in turn."""
    times = [[seconds(command, path) for command in commands] for _ in range(turns)]
    return [min(own) for own in zip(*times)]


def real_files():
    """ELF files of this machine that the program takes, about COUNT of them."""
    found = []
    for path in sorted(glob.glob('/usr/bin/*') + glob.glob('/usr/lib/*-linux-gnu*/*.so*')):
        if os.path.isfile(path) and not os.path.islink(path) and os.path.getsize(path) <= LONGEST:
            with open(path, 'rb') as file:
                if file.read(4) == b'\x7fELF':
                    found.append(path)
    return found[::max(1, len(found) // COUNT)][:COUNT]


def calls():
    """Times calls of the library, by a program over a copy of the crates and of what checks have cached of them."""
    print('calls of the library, in nanoseconds, the least of 9 runs, once their program is proved:', flush=True)
    with tempfile.TemporaryDirectory(prefix='bench-') as room:
        make_program('goblin_bench: goblin goblin_base', 'bench/calls.main', room)
        for crate in with_those_below('goblin'):
            take(crate, '.', room)
        ran = subprocess.run(['rt', 'run'], cwd=f'{room}/crates/goblin_bench', stdout=subprocess.PIPE, stderr=subprocess.PIPE, text=True)
        if ran.returncode:
            sys.exit(f'{ran.stderr[-3000:]}\nmake bench: the program of bench/calls.main is not proved or does not run')
        print(ran.stdout, end='')


def main(given):
    if not os.access(SHOW, os.X_OK):
        sys.exit(f'make bench: {SHOW} is not built. To build it: make show FILE=/bin/true')
    has_readelf = shutil.which('readelf') is not None
    with tempfile.TemporaryDirectory(prefix='bench-') as folder:
        subprocess.run([sys.executable, 'checks/limits.py', folder], check=True)
        files = sorted(f'{folder}/{name}' for name in os.listdir(folder)) + given
        print(f'{len(files)} files, in milliseconds, the least of {RUNS} runs:\n'
              f'{"file":<20} {"strict":>10} {"permissive":>10} {"readelf":>10} {"ratio":>8}')
        for path in files:
            others = [[*READELF, path]] if has_readelf and seconds([*READELF, path], path) < 9 else []
            times = least([[SHOW], [SHOW, 'permissive'], *others], path, RUNS)
            ratio = f'{times[2] / times[0]:.2f}' if others else '-'
            print(f'{os.path.basename(path):<20}', *(f'{1000 * own:10.1f}' for own in times), *['         -'] * (3 - len(times)),
                  f'{ratio:>8}', flush=True)
    if has_readelf:
        print(f'{len(real_files())} programs and libraries of this machine, each {TURNS} times by both ..', flush=True)
        times = [least([[*READELF, path], [SHOW]], path, TURNS) for path in real_files()]
        ratios = sorted(other / own for other, own in times)
        print(f'{len(ratios)} real files: readelf takes {ratios[0]:.2f} to {ratios[-1]:.2f} times as long, in the middle '
              f'{statistics.median(ratios):.2f}; for {sum(r < 1 for r in ratios)} it takes less time')
    calls()


if __name__ == '__main__':
    main(sys.argv[1:])
