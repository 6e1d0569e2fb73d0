"""The edits of one crate, tried in groups.

A function is judged by its own clauses alone: those of other functions stay, whatever their bodies are. So edits that change
bodies of different functions are applied at once, and one check judges them all. An edit is refused where a goal of its own
function's is. One that only waits for another function, as does a right body that calls a wrong one, or that fails by names
alone, is judged in a later group, and in the end alone. An edit that changes more, as a constant or a definition, stands alone,
because whatever cites that may refuse it, and beside another one nothing would show which of the two did. What it names as its
judge must refuse it, or unless it has a control something of the crate; with a control its own function must. A control is a
right body, which must be accepted.
Each check goes by what the crate's own proof left, so that none proves anew what an edit before it had changed.
"""
import os
import shutil
import subprocess
from collections import Counter

from crates import text_of
from edit import BODY, CONTROLS, HEAD, apply
from verdict import Said

# From this status on a check was killed; what comes of a right body.
KILLED, ACCEPTED = 128, 'accepted'


class Trial:
    """Edits of a crate, with what its proof reported, and where verdicts are kept."""

    def __init__(self, crate, edits, before, kept):
        self.crate, self.edits, self.before, self.kept = crate, edits, before, kept
        self.ways, self.wrong, self.checks = Counter(), [], 0

    def run(self, folder):
        """Judges every edit in a copy of the crate, which has what checks have cached of it. Where the crate itself is not proved, none counts."""
        self.folder, self.cached, self.proved = folder, f'{folder}/out/incremental', f'{folder}/out/proved'
        os.rename(self.cached, self.proved)
        # a library whose proof was cached reports nothing about its functions
        before = self.before if self.before.functions else self.check([])
        if not before.is_proved:
            self.wrong.append(f'{self.crate}: the crate is not proved without edits\n{before.text[-2000:]}')
            return
        known = {edit: edit.among(before.functions) for edit in self.edits}
        for edit in [edit for edit in known if not known[edit]]:
            self.report_wrong(edit, 'the prover names no function of this name')
        edits = [edit for edit in known.values() if edit]
        pending = [edit for edit in edits if edit.stands_in(BODY)]
        while pending:
            group = self.next_group(pending)
            # (the first one alone, if none can be judged beside others)
            judged = self.judged_of(group) or self.judged_of(group[:1])
            pending = [edit for edit in pending if edit not in judged]
        for edit in [edit for edit in edits if not edit.stands_in(BODY)]:
            self.try_alone(edit)

    def check(self, edits, only=()):
        """What the prover says of the crate with these edits, or of some functions. A check that is killed, as where memory is short, is made
        once more."""
        texts = apply(edits, self.folder)
        before = {path: text_of(f'{self.folder}/{path}') for path in texts}
        self.write(texts)
        for _ in range(2):
            # (what the crate's own proof left, in place of what the last check did; no check writes into a file that is there)
            shutil.rmtree(self.cached, ignore_errors=True)
            shutil.copytree(self.proved, self.cached, copy_function=os.link)
            command = ['rt', 'check', '--jobs', '1', *(f'--only={path}' for path in sorted(only))]
            ran = subprocess.run(command, cwd=self.folder, stdin=subprocess.DEVNULL, capture_output=True, text=True, errors='replace')
            if ran.returncode < KILLED:
                break
        self.write(before)
        self.checks += 1
        return Said(ran.stdout + ran.stderr, self.crate)

    def write(self, texts):
        for path, text in texts.items():
            with open(f'{self.folder}/{path}', 'w', encoding='utf-8') as file:
                file.write(text)

    def next_group(self, pending):
        """As many edits as change different functions."""
        group, taken = [], set()
        for edit in pending:
            if not edit.functions & taken:
                group.append(edit)
                taken |= edit.functions
        return group

    def judged_of(self, group):
        """Judges a group by one check, or a single edit alone, and returns those that are judged. Where a text is no valid Rattle, each half
        of the group is checked by itself."""
        if len(group) == 1:
            self.try_alone(*group)
            return group
        said = self.check(group, frozenset().union(*(edit.functions for edit in group)))
        if not said.is_whole:
            half = len(group) // 2
            return self.judged_of(group[:half]) + self.judged_of(group[half:])
        return [edit for edit in group if self.judge(edit, said)]

    def verdict(self, edit, said):
        """Whether a check judges an edit as it should be, how it refuses each of the edit's functions that it refuses, and whether it proves
        all of them."""
        own = {path: said.functions.get(path) for path in sorted(edit.functions)}
        # (what has a control leaves a goal open, of a clause or at values)
        is_refused = lambda function: function and function.refused and (function.open or not edit.has_control)
        refused = {path: function.refused for path, function in own.items() if is_refused(function)}
        is_proved = bool(own) and all(function and function.is_proved for function in own.values())
        return is_proved if edit.kind == CONTROLS else bool(refused), refused, is_proved

    def judge(self, edit, said):
        """Reports what a check says of an edit's functions, if it judges them."""
        is_right, refused, is_proved = self.verdict(edit, said)
        if is_right:
            self.report_right(edit, refused, said)
        elif refused or is_proved:
            # alone it shows what the rest of the crate says of it
            self.try_alone(edit)
        return bool(refused) or is_proved

    def try_alone(self, edit):
        """Judges an edit by a check of its own."""
        # (the whole crate only where its functions do not judge it)
        by_its_own = edit.stands_in(BODY) or edit.kind == CONTROLS or edit.has_control
        for only in [edit.only] if edit.only else [edit.functions, ()] if by_its_own else [()]:
            said = self.check([edit], only)
            is_right, refused, is_proved = self.verdict(edit, said)
            if is_right:
                break
        all_refused = said.refused()
        if not said.is_whole:
            self.report_wrong(edit, 'the edited code is no valid Rattle, so no contract was tried')
        elif is_right:
            self.report_right(edit, refused, said)
        elif edit.kind == CONTROLS:
            self.report_wrong(edit, f'its function is not proved with it\n{said.text[-2000:]}')
        elif said.is_proved:
            self.report_wrong(edit, 'the crate is still proved with it')
        elif all_refused and not edit.has_control and not edit.stands_in(BODY, HEAD):
            # it changes a definition, a constant or a type: whatever cites it may refuse it
            self.report_right(edit, dict(list(all_refused.items())[:3]), said)
        elif edit.only and not all_refused:
            self.report_wrong(edit, f'nothing is refused of {" and ".join(edit.only)}')
        elif is_proved:
            others = f', though {next(iter(all_refused))} is not' if all_refused else ''
            self.report_wrong(edit, f'its own function is still proved with it{others}')
        else:
            self.report_wrong(edit, 'no goal of its own function is refused, but by names that the edit took away')

    def report_right(self, edit, refused, said):
        """Reports and keeps that an edit is judged as it should be: which functions are refused, by what the first is, and a goal of its, or
        none of a control."""
        path, by = next(iter(refused.items()), ('', ''))
        goal = said.functions[path].goal if path in said.functions else ''
        functions = ' and '.join(refused or sorted(edit.functions))
        line = f'{f"refused {by}" if by else ACCEPTED}: {functions}{f" ({goal})" if goal else ""}'
        self.report(edit, by or ACCEPTED, line)
        self.kept.keep_verdict(edit, by or ACCEPTED, line)

    def report(self, edit, way, line):
        self.ways[way] += 1
        print(f'{self.crate}/{edit.name}: {line}', flush=True)

    def report_wrong(self, edit, why):
        self.wrong.append(f'{self.crate}/{edit.name}: NOT {"ACCEPTED" if edit.kind == CONTROLS else "REFUSED"}: {why}')
        print(self.wrong[-1], flush=True)
