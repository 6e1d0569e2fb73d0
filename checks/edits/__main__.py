#!/usr/bin/env python3
"""Whether the prover refuses each wrong body that crates/NAME/edits/ and must-fail/ plant, and accepts each right one of controls/.

    python3 checks/edits CRATE ..   tries those of some crates, in a copy of the repository in which checks/prove.sh has proved them
    python3 checks/edits --fits     only whether each fits the code, and each of must-fail/ has its control: nothing is proved

`--kinds must-fail,controls` tries those alone, `--edit NAME` the one of that name, and `--from FOLDER` those of FOLDER/CRATE/ in place of
the crates' own. A verdict that an earlier run reached is kept (checks/kept.py), and not tried again but with `--anew`. Edits are planted in
copies. Run from the root of the repository, or of the copy; checks/gate.py proves the crates and runs this.
"""
import argparse
import os
import sys
import tempfile
import time
from pathlib import Path

HERE = os.path.dirname(os.path.abspath(__file__))
sys.dont_write_bytecode = True
sys.path[:0] = [HERE, os.path.dirname(HERE)]
from crates import crates_listed, text_of
from edit import CONTROLS, EDITS, MUST_FAIL, read_edits
from kept import Kept, alone
from trial import Trial
from verdict import Said


def without_pair(crate):
    """The edits of must-fail/ without a control, and the controls without a wrong body. A search that finds no proof of a wrong body shows
    little if it finds none of a right one in the same form either."""
    wrong, must_fail, right = ({path.name for path in Path(f'crates/{crate}/{kind}').glob('*')} for kind in (EDITS, MUST_FAIL, CONTROLS))
    lacking = {**dict.fromkeys(must_fail - right, 'control'), **dict.fromkeys(right - wrong - must_fail, 'wrong body')}
    return [f'{crate}/{name}: no {what} has its name' for name, what in sorted(lacking.items())]


def fits(options):
    count, wrong = 0, []
    for crate in crates_listed():
        edits, misfits = read_edits(crate, options)
        count += len(edits)
        wrong += misfits + without_pair(crate)
    print('\n'.join([*wrong, f'edits: {count} fit the code, {len(wrong)} do not']))
    return 1 if wrong or not count else 0


def try_crate(crate, options):
    """Tries the edits of a crate that no earlier run did, says what came of each, and returns how many are at fault."""
    start, (edits, wrong) = time.time(), read_edits(crate, options)
    if not wrong:
        kept = Kept(crate)
        if not kept.folder:
            print('edits: no cache folder can be written, so all are tried')
        known = {edit: verdict for edit in edits if not options.anew and (verdict := kept.verdict(edit))}
        trial = Trial(crate, [edit for edit in edits if edit not in known], Said(text_of(f'crates/{crate}/out/said'), crate), kept)
        for edit, verdict in known.items():
            trial.report(edit, *verdict)
        if trial.edits:
            # (beside the proved copy, whose files are linked)
            with tempfile.TemporaryDirectory(prefix='edits-', dir='..') as room:
                trial.run(alone(crate, room))
        judged = sum(trial.ways.values()) + len(trial.wrong)
        wrong = trial.wrong + [f'{crate}: {judged} of {len(edits)} edits were tried'] * (judged != len(edits) or not edits)
        ways = ', '.join(f'{count} {way}' for way, count in trial.ways.items())
        seconds, counts = time.time() - start, f'{len(edits) - len(known)} tried, {len(known)} kept'
        print(f'{crate}: {len(edits)} edits, of which {len(wrong)} are at fault: {ways}; {counts}; {trial.checks} checks, {seconds:.0f} seconds')
    for line in wrong:
        print(f'edits: {line}')
    return len(wrong)


def main():
    parser = argparse.ArgumentParser(prog='python3 checks/edits', description=__doc__.split('\n')[0])
    parser.add_argument('crates', nargs='*')
    parser.add_argument('--kinds', default=f'{EDITS},{MUST_FAIL},{CONTROLS}')
    parser.add_argument('--edit')
    parser.add_argument('--from', dest='folder')
    parser.add_argument('--fits', action='store_true')
    parser.add_argument('--anew', action='store_true')
    options = parser.parse_args()
    if options.fits:
        return fits(options)
    if not options.crates or not all(os.path.isfile(f'crates/{crate}/out/said') for crate in options.crates):
        parser.error('it takes --fits, or crates that are proved in this folder; make edits [CRATES=..] proves them first')
    return 1 if sum(try_crate(crate, options) for crate in options.crates) else 0


if __name__ == '__main__':
    sys.exit(main())
