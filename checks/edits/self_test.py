#!/usr/bin/env python3
"""Tests that checks/edits judges edits right: python3 checks/edits/self_test.py

It makes a small crate with edits whose judgement is known, and compares what checks/edits prints of each. So it also shows that the
prover's words are understood, of each way of refusing. Then it changes what verdicts rest on, part by part: none may be taken over.
"""
import glob
import os
import shutil
import subprocess
import sys
import tempfile
from types import SimpleNamespace

HERE = os.path.dirname(os.path.abspath(__file__))
sys.dont_write_bytecode = True
sys.path[:0] = [HERE, os.path.dirname(HERE)]
from crates import text_of
from edit import read_edits
from kept import SCRIPTS, Kept
from verdict import open_of

CODE = {
    'src/lib.rt': '''#![tactic(auto)]
ghost use Rattle.std.specs.Prelude.{◌≡◌, ◌+◌, ◌<◌, ◌≤◌};

pub mod left;
pub mod numbers;
pub mod right;

pub fn next(x: u8) -> u8
    requires { x < 250 }
    ensures { result ≡ x + 1 }
{
    x + 1
}

pub fn second(x: u8) -> u8
    requires { x < 249 }
    ensures { result ≡ x + 2 }
{
    next(next(x))
}

pub fn third(x: u8) -> u8
    requires { x < 248 }
    ensures { result ≡ x + 3 }
{
    let one = next(x);
    one + 2
}

pub fn no_more(x: u8) -> u8
    ensures { result ≤ x }
{
    x / 2
}
''',
    'src/numbers.rt': 'pub const ONE: u8 = 1;\npub const TWO: u8 = 2;\n',
    # (whose law says what it passes on)
    'src/left.rt': '''ghost use Rattle.std.specs.Prelude.{◌≡◌};
pub use crate::numbers::{ONE, TWO};

pub fn constants()
    ensures one { ONE ≡ 1 }
    ensures two { TWO ≡ 2 }
{}
''',
    # (whose law says half of it)
    'src/right.rt': '''ghost use Rattle.std.specs.Prelude.{◌≡◌};
pub use crate::numbers::{ONE, TWO};

pub fn constants()
    ensures { ONE ≡ 1 }
{}
''',
    'proofs/third/Answers.antt': '''use Rattle.std.proofs.Common.{arith}
use Rattle.planted.proofs.third.Goals as goal

pub returns : goal.returns
returns c = omega (arith, c.next-one.ensures)
''',
}

# The edits of each file: their folder and names, their old and new texts, and what is to be said of each.
PLANTED = {
    'src/lib.rt': [
        ('edits/adds_nothing', '    x + 1', '    x', 'refused with values: planted::next'),
        ('edits/changes_nothing', '    next(next(x))', '    next(next(x))', 'NOT REFUSED: the crate is still proved with it'),
        ('edits/counts_by_itself', '    next(next(x))', '    next(x) + 1', 'NOT REFUSED: the crate is still proved with it'),
        ('edits/counts_once', '    next(next(x))', '    next(x)', 'refused with values: planted::second'),
        ('edits/counts_one_less', '    one + 2', '    one + 1', 'refused by an answer: planted::third'),
        ('edits/lacks_its_brace', '    x / 2', '    x / 2 }', 'NOT REFUSED: the edited code is no valid Rattle, so no contract was tried'),
        ('edits/gives_less', '    x / 2', '    x / 3', 'NOT REFUSED: the crate is still proved with it'),
        ('edits/says_less', '    ensures { result ≡ x + 1 }', '    ensures { x < result }',
         'NOT REFUSED: its own function is still proved with it, though planted::'),
        ('edits/takes_a_name_away', '    let one = next(x);', '    let two = next(x); let one = two;',
         'NOT REFUSED: no goal of its own function is refused, but by names that the edit took away'),
        ('must-fail/adds_two', '    x + 1', '    x + 2', 'refused with values: planted::next'),
        ('controls/adds_two', '    x + 1', '    1 + x', 'accepted: planted::next'),
        ('must-fail/gives_half', '    x / 2', '    x / 2 + 0', 'NOT REFUSED: the crate is still proved with it'),
        ('controls/gives_half', '    x / 2', '    x + x', 'NOT ACCEPTED: its function is not proved with it'),
    ],
    # (each names what alone is checked)
    'src/numbers.rt': [
        ('edits/one_is_two', 'ONE: u8 = 1;', 'ONE: u8 = 2;\nonly: planted::left::constants', 'refused with values: planted::left::constants'),
        ('edits/two_is_three', 'TWO: u8 = 2;', 'TWO: u8 = 3;\nonly: planted::right::constants',
         'NOT REFUSED: nothing is refused of planted::right::constants'),
    ],
    'src/left.rt': [('edits/left_exchanges_two', '{ONE, TWO}', '{TWO as ONE, ONE as TWO}\nonly: planted::left::constants',
                     'refused with values: planted::left::constants')],
}

# An edit of must-fail/ that doesn't fit the code and has no control, a control that never runs, and what is to be said of them.
MISFITS = {'must-fail/stands_nowhere': ('    x + 9', '    x'), 'controls/adds_two': ('    x + 1', '    if x < 9 && 0 > 1 { return x; } x + 1')}
MISFIT = ['planted/must-fail/stands_nowhere.edit: 0 times in ', 'planted/stands_nowhere.edit: no control has its name',
          'planted/controls/adds_two.edit: a condition of it, or a part of one, is constant']

# Lines of the prover, and what each says is open of a function.
OPEN = {
    'note: src/lib.rt:7:1: it is not proved that this holds (`returns-clause-one`); the facts known there allow': 'with values',
    'note: src/lib.rt:7:1: it is not proved that this holds (`returns-then-x-clause-one`)': 'goal',
    'note: src/lib.rt:7:1: it is not proved that this holds (`returns`)': 'goal',
    './proofs/third/Answers.antt:5:1: error: `returns`: `omega`: the goal does not follow from what it read': 'goal',
    './proofs/third/Answers.antt:5:1: error: `returns`: as printed, the two types differ only where one has `c`': '',
}


def write(path, text):
    os.makedirs(os.path.dirname(path) or '.', exist_ok=True)
    with open(path, 'w', encoding='utf-8') as file:
        file.write(text)


# What a verdict rests on: files, with a text of each that is exchanged. (The crate below, the definition, the scripts, and `rt`, which only has
# a version, are made for this.)
RESTS_ON = {'crates/planted/src/lib.rt': ('x / 2', 'x / 3'), 'crates/planted/proofs/third/Answers.antt': ('omega', 'grind'),
            'crates/planted/edits/adds_nothing.edit': ('    x\n', '    0\n'), 'crates/planted/specs/Lib.antt': ('one', 'two'),
            'crates/low/src/lib.rt': ('one', 'two'), 'crates.txt': ('low:', '#\nlow:'), 'bin/rt': ('logic 1', 'logic 2'),
            **{f'checks/{name}': ('\n', '\n\n') for name in SCRIPTS}}
DAMAGES = [lambda path: write(path, '["with values", "ref'), lambda path: write(path, '["with values", "refused", "0"]'),
           lambda path: (os.unlink(path), os.mkdir(path))]


def is_known():
    """Whether a verdict of an edit is known. If not, it is kept from now on."""
    (edit,), _ = read_edits('planted', SimpleNamespace(folder='', kinds='edits', edit='adds_nothing'))
    kept = Kept('planted', os.path.abspath('checks'))
    return bool(kept.verdict(edit) or kept.keep_verdict(edit, 'with values', 'refused'))


def taken_over_wrongly():
    """What is taken over though something that it rests on is changed, or though it is damaged; or not taken over though nothing is. In the
    folder of the crate `planted`."""
    for path, text in {'crates/low/src/lib.rt': 'one', 'crates/planted/specs/Lib.antt': 'one', 'crates.txt': 'planted: low\nlow:\n',
                       'bin/rt': '#!/bin/sh\necho kit logic 1\n'}.items():
        write(path, text)
    os.chmod('bin/rt', 0o755)
    shutil.copytree(os.path.dirname(HERE), 'checks', ignore=shutil.ignore_patterns('files', 'faces', '__pycache__'))
    os.environ.update(PATH=f'{os.path.abspath("bin")}:{os.environ["PATH"]}', XDG_CACHE_HOME=os.path.abspath('other cache'))
    faults = ['a verdict that was not kept'] * is_known()
    for path, (old, new) in RESTS_ON.items():
        faults += [f'not before a change of {path}'] * (not is_known())
        text = text_of(path)
        write(path, text.replace(old, new, 1))
        faults += [f'a verdict after a change of {path}'] * is_known()
        write(path, text)
    for damage in DAMAGES:
        faults += ['not what is whole'] * (not is_known())
        for path in glob.glob('other cache/*/*/*/verdicts/*'):
            damage(path)
        faults += ['a verdict that is cut, wrong or unreadable'] * is_known()
    os.environ['XDG_CACHE_HOME'] = os.path.abspath('crates.txt')
    return faults + ['a verdict without a folder'] * (is_known() or is_known())


def runs_wrongly(room, tried):
    """What runs over kept verdicts print wrong: one after another, one whose check is killed, and two side by side."""
    is_edited = f'[ "$1" = check ] && ! cmp -s src/lib.rt {room}/crates/planted/src/lib.rt'
    write(f'{room}/killed/rt', f'#!/bin/sh\n{is_edited} && kill -9 $$\nexec {shutil.which("rt")} "$@"\n')
    os.chmod(f'{room}/killed/rt', 0o755)
    line, = (line for line in tried.splitlines() if line.startswith('planted/edits/adds_nothing: '))
    faults = []
    for cache, path, lines in (('cache', '', [line, '0 tried, 1 kept']), ('empty', f'{room}/killed:', ['NOT REFUSED: the edited code is no valid']),
                               ('empty', '', [line, '1 tried, 0 kept']), ('empty', '', [line, '0 tried, 1 kept'])):
        variables = {**os.environ, 'PATH': path + os.environ['PATH'], 'XDG_CACHE_HOME': f'{room}/{cache}'}
        command = [sys.executable, HERE, 'planted', '--edit', 'adds_nothing']
        runs = [subprocess.Popen(command, cwd=room, stdout=subprocess.PIPE, text=True, env=variables) for _ in range(2)]
        faults += [f'{text}\nself_test: this lacks {lines}' for text, _ in [ran.communicate() for ran in runs]
                   if not all(part in text for part in lines)]
    return faults


def main():
    wanted = {name: said for edits in PLANTED.values() for name, _, _, said in edits}
    wrong = sum(said.startswith('NOT') for said in wanted.values())
    edits = {f'{name}.edit': f'file: {file}\nold: {old}\nnew: {new}\n' for file, edits in PLANTED.items() for name, old, new, _ in edits}
    with tempfile.TemporaryDirectory(prefix='planted-') as room:
        write(f'{room}/HANDLES', 'Handles allowed: none.\n')
        write(f'{room}/crates.txt', 'planted:\n')
        for path, text in {**CODE, **edits}.items():
            write(f'{room}/crates/planted/{path}', text)
        os.environ['XDG_CACHE_HOME'] = f'{room}/cache'
        run = lambda *command: subprocess.run(command, cwd=room, stdout=subprocess.PIPE, stderr=subprocess.STDOUT, text=True)
        proved = run('sh', f'{os.path.dirname(HERE)}/prove.sh', 'planted')
        tried = run(sys.executable, HERE, 'planted')
        faults = runs_wrongly(room, tried.stdout)
        for name, (old, new) in MISFITS.items():
            write(f'{room}/crates/planted/{name}.edit', f'file: src/lib.rt\nold: {old}\nnew: {new}\n')
        fits = run(sys.executable, HERE, '--fits')
        os.chdir(room)
        faults += [f'self_test: this is taken over: {what}' for what in taken_over_wrongly()]
        os.chdir(HERE)
    count = f'planted: {len(wanted)} edits, of which {wrong} are at fault'
    for ran, lines in ((tried, [count, *(f'planted/{name}: {said}' for name, said in wanted.items())]), (fits, MISFIT)):
        lacking = [line for line in lines if f'\n{line}' not in f'\n{ran.stdout}']
        if lacking or ran.returncode != 1:
            faults += [proved.stdout, ran.stdout, f'self_test: {ran.args[1:]} ended with {ran.returncode}, and lacks lines that begin so:', *lacking]
    faults += [f'self_test: this line was read wrong: {line}' for line, said in OPEN.items() if open_of([line]) != said]
    print(*faults or [f'self_test: checks/edits judged {len(wanted)} edits right, {wrong} of which test nothing, and kept what it may'], sep='\n')
    return 1 if faults else 0


if __name__ == '__main__':
    sys.exit(main())
