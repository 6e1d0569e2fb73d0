"""What checks on this machine reached before, so that a later one tries only what changed. It stands in the user's cache folder.

What the proof of a crate has cached, and the verdicts of its edits, stand in a folder whose name is a sum of all that they rest on: the
toolchain's version and logic, the scripts below, crates.txt, HANDLES, and the sources of the crate and of those below it. A verdict's name is
a sum of its edit, and it holds one of its own. What is kept is written under another name first, and renamed once it is whole.
"""
import contextlib
import glob
import hashlib
import json
import os
import shutil
import subprocess
import tempfile

from crates import copy_files, crates_listed, sources_of, sum_of, text_of, with_those_below

HERE = os.path.dirname(os.path.abspath(__file__))
# What reaches a verdict, or a proof.
SCRIPTS = ['crates.py', 'kept.py', 'prove.sh', 'rattle.py', *(f'edits/{name}.py' for name in ('__main__', 'edit', 'trial', 'verdict'))]
# Of how many folders of a crate, those used last, the verdicts are kept, and of how many what its proof has cached, some hundred MiB.
MOST, MOST_PROOFS = 8, 2


def link(path, to):
    """Gives a file another name, or where that can't be, as on another disk, copies it."""
    try:
        os.link(path, to)
    except OSError:
        shutil.copy2(path, to)


def take(crate, source, to, parts=('incremental', 'rlib')):
    """Takes what checks of a crate have cached in one copy, and its library, to another one. (No check writes into a file that is there.)"""
    for part in parts:
        if os.path.isdir(f'{source}/crates/{crate}/out/{part}'):
            shutil.copytree(f'{source}/crates/{crate}/out/{part}', f'{to}/crates/{crate}/out/{part}', copy_function=link)


def alone(crate, room):
    """Copies the crates here for one crate, with what its checks have cached and the libraries below it as they were proved, and returns its
    folder there. The toolchain lets one check at a time into a crate's folder and those below it, so each proof has folders of its own."""
    copy_files([*sources_of(crates_listed()), *glob.glob(f'crates/{crate}/std*')], room)
    for name in crates_listed()[crate]:
        take(name, '.', room, ['rlib'])
    take(crate, '.', room)
    return f'{room}/crates/{crate}'


def sum_of_texts(*texts):
    return hashlib.sha256(json.dumps(texts).encode()).hexdigest()


class Kept:
    """What is kept of a crate as it is now. Where no folder of it can be written, there is none, and nothing is kept."""

    def __init__(self, crate, scripts=HERE):
        cache = os.environ.get('XDG_CACHE_HOME', '')
        at = os.path.join(cache if os.path.isabs(cache) else os.path.expanduser('~/.cache'), 'goblin-checks', crate)
        version = subprocess.run(['rt', 'version'], stdout=subprocess.PIPE, text=True, check=True).stdout
        scripts = [text_of(f'{scripts}/{name}') for name in SCRIPTS]
        self.crate, self.folder = crate, f'{at}/{sum_of_texts(version, sum_of(with_those_below(crate)), *scripts)}'
        try:
            os.makedirs(f'{self.folder}/verdicts', exist_ok=True)
            os.utime(self.folder)
            # (an unwritable disk)
            tempfile.TemporaryFile(dir=self.folder).close()
            used = sorted(glob.glob(f'{glob.escape(at)}/*'), key=os.path.getmtime)
            for old in used[:-MOST] + [f'{one}/crates' for one in used[:-MOST_PROOFS]]:
                shutil.rmtree(old, ignore_errors=True)
        except OSError:
            self.folder = None

    def path(self, edit):
        return f'{self.folder}/verdicts/{sum_of_texts(edit.read)}'

    def verdict(self, edit):
        """In which way an edit was judged as it should be, and what was said of it; or None if that is not known."""
        try:
            way, line, own = json.loads(text_of(self.path(edit)))
        except (OSError, ValueError, TypeError):
            return None
        return (way, line) if own == sum_of_texts(self.path(edit), way, line) else None

    def keep_verdict(self, edit, way, line):
        # (nothing is kept if the disk is full)
        with contextlib.suppress(OSError):
            with tempfile.NamedTemporaryFile('w', dir=f'{self.folder}/verdicts', prefix='made-', delete=False) as file:
                json.dump([way, line, sum_of_texts(self.path(edit), way, line)], file)
            os.replace(file.name, self.path(edit))

    def take_proof(self):
        """Takes what an earlier proof has cached, and returns whether it is kept. (The toolchain reads it as that of any check.)"""
        # (another run may remove it now)
        with contextlib.suppress(OSError):
            if os.path.isdir(f'{self.folder}/crates'):
                take(self.crate, self.folder, '.')
                return True
        return False

    def keep_proof(self):
        """Keeps what the proof has cached, if another run has not."""
        with contextlib.suppress(OSError), tempfile.TemporaryDirectory(prefix='made-', dir=self.folder) as made:
            if self.folder:
                take(self.crate, '.', made)
                os.rename(f'{made}/crates', f'{self.folder}/crates')
