#!/usr/bin/env python3
"""Runs the parts of a test side by side, and says what comes of each and what it takes. Run from the repository's root.

    python3 checks/gate.py test            every proof but those of the tests' own bodies, every test and program, must-fail/ and controls/
    python3 checks/gate.py gate            `rt ci`, which proves the tests too and tries must-fail/, and edits/ and controls/
    python3 checks/gate.py test --over FOLDER     in another surrounding: over the proofs that a test of the same sources left in FOLDER,
                                           without edits, which try the proofs alone
    python3 checks/gate.py edits [CRATE ..] [--edit NAME] [--from FOLDER]     the edits alone, of these crates or of all
    python3 checks/gate.py prove CRATE     in a copy of the repository in which the crates below are proved: a part of each of these

With --anew nothing is taken over from an earlier run (checks/kept.py, and what `rt ci` keeps).

The crates are proved in a copy of the repository, which holds nothing that an earlier run left there. About as many parts run side by side as
there are processors. Proofs and the calls from other languages begin as soon as they can, and what the longest chain waits for gets a processor
first. A part that fails is printed whole, and what waits for it is left out. What each part prints stands in out/log.
"""
import argparse
import glob
import os
import re
import shutil
import subprocess
import sys
import tempfile
import time
from dataclasses import dataclass

sys.dont_write_bytecode = True
from crates import copy_files, crates_listed, fail, run, text_of, tracked, with_those_below
from kept import Kept, alone, take

LOGS = 'out/log'
# What a part says of what it took over from earlier runs.
KEPT = re.compile(r'\d+ tried, \d+ kept|over what an earlier run kept|done in this run: \d+ of the \d+ proofs')
PYTHON = sys.executable or 'python3'


@dataclass
class Part:
    """A command, the parts that must pass before it, whether it goes before others, about how many minutes it takes, and by how many
    processes side by side."""
    name: str
    command: list
    after: tuple = ()
    where: str = '.'
    is_first: bool = False
    weight: int = 1
    width: int = 1
    begun: float = 0
    ended: float = 0
    seconds: float = 0
    status: int = None

    @property
    def log(self):
        return f'{LOGS}/{self.name.replace(" ", "-")}'

    def printed(self, start=''):
        """The lines that it printed so far and that begin so."""
        return [line for line in text_of(self.log).splitlines() if line.startswith(start)]


def copied(folder, cached=None):
    """Copies the repository's files, and what checks have cached of the crates of another copy, if one is given."""
    copy_files(tracked(), folder)
    for crate in crates_listed() if cached else []:
        take(crate, cached, folder)
    return folder


def prove(crate, anew):
    """Proves a crate over those below it that are proved here, and over what an earlier proof of the same sources cached."""
    is_from_nothing, kept = not os.path.isdir(f'crates/{crate}/out'), Kept(crate)
    is_kept = is_from_nothing and not anew and kept.take_proof()
    with tempfile.TemporaryDirectory(prefix='proof-', dir='..') as room:
        folder = alone(crate, room)
        status = subprocess.run(['sh', os.path.abspath('checks/prove.sh'), crate], cwd=room).returncode
        if not status:
            shutil.rmtree(f'crates/{crate}/out', ignore_errors=True)
            os.rename(f'{folder}/out', f'crates/{crate}/out')
            if is_kept:
                print(f'{crate}: proved, over what an earlier run kept')
            elif is_from_nothing:
                kept.keep_proof()
    return status


# What `make gate` leaves to `rt ci`, which proves and runs it too. (Long tests take minutes without a proof, with checks of each access.)
LEFT = ('goblin_allocation_tests', 'goblin_long_tests', 'goblin_names', 'goblin_show')

# The folders of a crate that hold edits.
KINDS = ('edits', 'must-fail', 'controls')

# What takes seconds. All else waits for it.
QUICK = {'lint': f'{PYTHON} checks/lint', 'whether edits fit': f'{PYTHON} checks/edits --fits', 'views': 'sh checks/views.sh'}


def proofs(crates, copy, anew, after=()):
    """The proofs of these crates and of those below them."""
    waits = lambda crate: (*after, *(f'proof of {name}' for name in crates_listed()[crate]))
    command = [PYTHON, 'checks/gate.py', 'prove', *anew]
    return [Part(f'proof of {crate}', [*command, crate], waits(crate), copy, True) for crate in with_those_below(*crates)]


def edits(crates, copy, *words, what='edits'):
    """The edits of these crates. (Those of a crate that has most take longest.)"""
    return [Part(f'{what} of {crate}', [PYTHON, 'checks/edits', *words, crate], (f'proof of {crate}',), copy, weight=3)
            for crate in sorted(crates, key=lambda crate: -len(glob.glob(f'crates/{crate}/edits/*')))]


def crates_with(kinds, name='', folder=''):
    """The crates that have edits of these kinds, or of a folder that has a folder for each crate; or one of this name."""
    folders = lambda crate: [f'{folder}/{crate}'] if folder else [f'crates/{crate}/{kind}' for kind in kinds]
    return [crate for crate in crates_listed() if any(glob.glob(f'{glob.escape(path)}/{name or "*"}.edit') for path in folders(crate))]


def test(room, whole, over, anew):
    """The parts of `make test`, or where it is to be whole, of `make gate`, or of a test over the proofs of a folder."""
    copy = copied(f'{room}/proved', over)
    waits = tuple(QUICK)
    # (`rt ci` tries must-fail/)
    kinds = [] if over else ['controls', 'edits'] if whole else ['must-fail', 'controls']
    built = copied(f'{room}/whole') if whole else copy
    here = lambda name, command, *after, where=copy: Part(name, command.split(), after or waits, where)
    ran = lambda name, command, *after: here(name, command, *(['rt ci'] if whole else after), where=built)
    parts = [Part(name, command.split(), is_first=True) for name, command in QUICK.items()]
    # (half of the processors, since it is about half of the work; each of its proofs by one process, which takes least, where the toolchain
    # heeds this)
    half = (len(os.sched_getaffinity(0)) + 1) // 2
    parts += [Part('rt ci', ['env', f'RT_JOBS={half}', 'rt', 'ci', *anew], waits, built, True, width=half)] if whole else []
    # (a crate whose name ends so holds tests alone)
    proved = [crate for crate in crates_listed() if (not whole if crate in LEFT else not crate.endswith('_tests'))]
    parts += proofs(proved, copy, anew, waits)
    has_tests = lambda crate: not subprocess.run(['git', 'grep', '-qF', '#[test]', '--', f'crates/{crate}/src']).returncode
    if not whole:
        parts += [here(f'tests of {crate}', f'sh checks/tests.sh {crate}') for crate in crates_listed() if has_tests(crate) and crate not in LEFT]
    parts += [Part('calls from other languages', ['sh', 'checks/faces.sh'], ('proof of goblin_c',), copy, True, weight=3)]
    # (all kinds together take fewer checks, and each by itself ends sooner)
    for some in [','.join(kinds)] if whole else kinds:
        parts += edits(crates_with(some.split(',')), copy, *anew, '--kinds', some, what='edits' if whole else some)
    parts += [here('refused allocations', f'{PYTHON} checks/allocations.py'),
              ran('the program', f'{PYTHON} checks/program.py', 'proof of goblin_show', 'proof of goblin_uses'),
              ran('hostile files', f'{PYTHON} checks/limits.py', 'proof of goblin_show', 'proof of goblin_allocation_tests'),
              # (it builds the program here, which these run too unless `rt ci` built theirs)
              here("README's commands", f'{PYTHON} checks/readme.py', *(['proof of goblin_text'] if whole else ['the program', 'hostile files']))]
    # (in this folder, which git knows)
    parts += [Part('commands', ['sh', 'checks/commands.sh'], waits)]
    return parts + [here("the edits' own test", f'{PYTHON} checks/edits/self_test.py')] * whole


def leave(copy):
    """Leaves the programs and libraries in the repository, with the sums of the sources that they were built of, for later commands, and
    what the checks have cached where none have before."""
    for made in glob.glob(f'{copy}/crates/*/out/*'):
        there = made[len(f'{copy}/'):]
        os.makedirs(os.path.dirname(there), exist_ok=True)
        if os.path.isfile(made):
            shutil.copy2(made, there)
        elif os.path.basename(made) in ('incremental', 'rlib') and not os.path.exists(there):
            shutil.move(made, there)
    if os.path.isdir(f'{copy}/out/library'):
        shutil.copytree(f'{copy}/out/library', 'out/library', dirs_exist_ok=True)


class Run:
    def __init__(self, parts):
        self.parts, self.running, self.start, self.said = parts, {}, time.time(), time.time()
        self.named = {part.name: part for part in parts}
        # How long the longest chain of parts is that wait for each one. (They stand after it.)
        self.chain = dict.fromkeys(self.named, 0)
        for part in reversed(parts):
            self.chain.update({name: max(self.chain[name], self.chain[part.name] + part.weight) for name in part.after})

    def say(self, line):
        self.said = time.time()
        minutes, seconds = divmod(int(self.said - self.start), 60)
        print(f'[{minutes:3}:{seconds:02}] {line}', flush=True)

    def begin(self, part):
        part.begun = time.time()
        level = 15 if not part.is_first else 0 if self.chain[part.name] + part.weight > 3 else 8
        with open(part.log, 'w', encoding='utf-8') as log:
            ran = subprocess.Popen(['nice', '-n', str(level), *part.command], cwd=part.where, stdin=subprocess.DEVNULL, stdout=log, stderr=log)
        self.running[ran.pid] = (part, ran)

    def end(self, pid, status, used):
        part, ran = self.running.pop(pid)
        ran.returncode = status
        part.ended, part.seconds, part.status = time.time(), used.ru_utime + used.ru_stime, status
        lines = part.printed()
        self.say('\n'.join([f'{part.name} FAILED. It printed:', *lines]) if status else f'{part.name}: {next(filter(None, reversed(lines)), "")}')
        for other in self.parts:
            if other.status is None and any(self.named[name].status for name in other.after):
                other.status = 1
                self.say(f'{other.name} IS LEFT OUT')

    def all(self, places, spare):
        """Runs all parts, as many side by side as there are places, and of those that don't go first some more, which get what these leave.
        Returns the exit status."""
        os.makedirs(LOGS, exist_ok=True)
        self.say(f'{len(self.parts)} parts, about {places} side by side; what each prints is left in {LOGS}')
        busy = lambda some: sum(part.width for part in some)
        while left := [part for part in self.parts if part.status is None]:
            now = [part for part, _ in self.running.values()]
            waiting = [part for part in left if part not in now]
            ready = [part for part in waiting if all(self.named[name].status == 0 for name in part.after)]
            for part in sorted(ready, key=lambda part: (not part.is_first, -self.chain[part.name])):
                if busy(other for other in now if other.is_first) < places if part.is_first else busy(now) < places + spare:
                    self.begin(part)
                    now.append(part)
            pid, status, used = os.wait4(-1, os.WNOHANG)
            if pid in self.running:
                self.end(pid, status, used)
            elif time.time() - self.said > 60:
                # (`rt ci`, which takes longest, reports how far it is)
                doing = ', '.join(' '.join([part.name, *part.printed('rt: ')[-1:]]) for part in now)
                self.say(f'running: {doing}; {len(waiting)} other parts are left')
            else:
                time.sleep(0.2)
        self.table()
        return 1 if any(part.status for part in self.parts) else 0

    def table(self):
        ended = sorted((part for part in self.parts if part.ended), key=lambda part: part.begun)
        row = lambda name, begun, end, seconds: f'{name:<32} {(begun - self.start) / 60:6.1f} {(end - self.start) / 60:6.1f} {seconds / 60:18.1f}'
        print(f'{"part":<32} {"from":>6} {"to":>6} {"processor minutes":>18}')
        for part in ended:
            kept = KEPT.findall('\n'.join(part.printed()[-3:]))
            print(row(part.name, part.begun, part.ended, part.seconds), *kept[:1], sep='  ')
        print(row('all', self.start, time.time(), sum(part.seconds for part in self.parts)))
        # (which programs the machine lacks, and what is not tested for each)
        print(''.join(dict.fromkeys(f'{line}\n' for part in ended for line in part.printed('left out: '))), end='')


def main():
    parser = argparse.ArgumentParser(prog='python3 checks/gate.py', description=__doc__.split('\n')[0])
    parser.add_argument('goal', choices=('test', 'gate', 'edits', 'prove'))
    parser.add_argument('crates', nargs='*')
    parser.add_argument('--edit', default='')
    parser.add_argument('--from', dest='folder', default='')
    parser.add_argument('--over')
    parser.add_argument('--anew', action='store_const', const=['--anew'], default=[])
    options = parser.parse_intermixed_args()
    if options.goal == 'prove':
        return prove(*options.crates, options.anew)
    if not os.access('.', os.W_OK):
        fail('this folder is read-only, and what the parts print is left in it. Use a copy')
    if options.over is not None and not os.path.isdir(f'{options.over}/crates'):
        fail(f'{options.over} is no checkout of this repository, so its proofs are not taken over')
    with tempfile.TemporaryDirectory(prefix='gate-') as room:
        if options.goal == 'edits':
            folder, copy = options.folder and os.path.abspath(options.folder), copied(f'{room}/proved')
            crates = [crate for crate in crates_with(KINDS, options.edit, folder) if crate in (options.crates or [crate])]
            parts = proofs(crates, copy, options.anew) + edits(crates, copy, *options.anew, '--edit', options.edit, '--from', folder)
        else:
            parts = test(room, options.goal == 'gate', options.over, options.anew)
        if not parts:
            fail('no edit was found')
        # (`rt ci` counts on the memory that is free)
        status = Run(parts).all(len(os.sched_getaffinity(0)), 0 if options.goal == 'gate' else 2)
        if not status and options.goal != 'edits':
            subprocess.run(['sh', 'commands/show.sh', 'built'], cwd=f'{room}/proved', check=True)
            leave(f'{room}/proved')
    passed = f'PASSED, without edits, over {options.over}' if options.over else 'PASSED'
    print('FAILED: the messages are above the table' if status else passed, flush=True)
    return status


if __name__ == '__main__':
    run(main)
