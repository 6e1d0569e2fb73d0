"""Tests of goblin_elf over the stored files: it reads what pyelftools 0.29 read of them, and refuses what is damaged."""
import os
import unittest

from goblin_elf import Refused

from parts import FILES, PARTS, Ours, OursWhole, content_of, damaged, made_files, read_by, sum_of


def stored():
    """Returns the stored files by their names."""
    folder = os.path.join(FILES, 'made')
    return {name: content_of(os.path.join(folder, name)) for name in sorted(os.listdir(folder)) if not name.endswith('.listed')}


class Stored(unittest.TestCase):
    def test_what_pyelftools_reads(self):
        """Sums of what it read are stored. `make compare` shows what differs, if pyelftools is installed."""
        files = {**dict(made_files()), **stored()}
        with open(os.path.join(FILES, 'pyelftools'), encoding='utf-8') as sums:
            rows = [line.split() for line in sums]
        self.assertEqual({name for name, _, _ in rows}, set(files))
        for name, part, wanted in rows:
            with self.subTest(name, part=part):
                self.assertEqual(sum_of(read_by(Ours, files[name], part)), wanted)

    def test_damaged_files(self):
        sources = [*dict(made_files()).values(), *stored().values()]
        refused = 0
        for content in damaged(200, sources, 1):
            found = [read_by(Ours, content, part) for part in PARTS]
            found += [read_by(OursWhole, content, part) for part in ('whole_sections', 'whole_segments')]
            exceptions = [result for result in found if isinstance(result, Exception)]
            self.assertEqual([error for error in exceptions if not isinstance(error, Refused)], [])
            refused += bool(exceptions)
        self.assertTrue(20 < refused < 200)
