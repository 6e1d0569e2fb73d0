"""Edits, each of which plants a wrong body, or as a control a right one in the same form, and where their changes are.

An edit is a file. It has a line 'file: src/lib.rt', or with a file of specs/ or proofs/, and after it pairs of lines 'old: TEXT'
and 'new: TEXT'. Each old text occurs exactly once in that file as it is committed. A line 'only: FUNCTION' names a function by its path, by
which an edit of more than a body is judged, as one of a list of constants that a module passes on by its law `constants`: the function, what
it calls and their lemmas are checked, and something of these must be refused.
"""
import os
import re
from collections import namedtuple
from dataclasses import dataclass, replace
from pathlib import Path

from crates import text_of
from rattle import clauses, closing, code_of


class Misfit(Exception):
    """Why an edit can't be applied."""


# Where a change stands: in a function's body, in its head, or elsewhere.
BODY, HEAD, ELSEWHERE = 'body', 'head', 'elsewhere'
# The folders of a crate that hold edits: wrong bodies; those that break a promise outright; and for each of these, and some others, a right
# body of its name.
EDITS, MUST_FAIL, CONTROLS = 'edits', 'must-fail', 'controls'

# One text of a file that is replaced: where it starts, its place, and the function that is to be refused for it, or that it writes elsewhere, if
# there is one.
Change = namedtuple('Change', 'file start old new place function', defaults=(ELSEWHERE, None))


@dataclass(frozen=True)
class Edit:
    """A wrong body, or another wrong text, or a right one: its folder and name, its changes, what alone is checked with it, whether it is
    wrong and has a control, the functions by which it is judged, and all of this as it was read."""
    kind: str
    name: str
    changes: tuple
    only: tuple = ()
    has_control: bool = False
    functions: frozenset = frozenset()
    read: str = ''

    def stands_in(self, *places):
        return all(change.place in places for change in self.changes)

    def among(self, known):
        """The edit with its functions among those that the prover names, or None if it doesn't name one of them."""
        paths = {change: path_among(change.function, known) for change in self.changes if change.function}
        # (what it writes elsewhere may be new)
        is_named = all(path or change.place == ELSEWHERE for change, path in paths.items()) and all(path in known for path in self.only)
        return replace(self, functions=frozenset(paths.values()) - {None}) if is_named else None


def read_edits(crate, options):
    """The edits of a crate that are asked for, by name, and what is wrong with those that don't fit."""
    folders = {EDITS: f'{options.folder}/{crate}'} if options.folder else {kind: f'crates/{crate}/{kind}' for kind in options.kinds.split(',')}
    edits, misfits = [], []
    for kind, folder in folders.items():
        for path in sorted(Path(folder).glob(f'{options.edit}.edit' if options.edit else '*')):
            try:
                edits.append(read_edit(path, kind, crate))
            except Misfit as misfit:
                misfits.append(f'{crate}/{kind}/{path.name}: {misfit}')
    return edits, misfits


def read_edit(path, kind, crate):
    if path.suffix != '.edit':
        raise Misfit('it is no edit')
    changes, only, file, old = [], [], '', ''
    for key, text in re.findall('^(file|old|new|only): ?(.*)', text_of(path), re.MULTILINE):
        if key == 'file':
            file = text.strip()
        elif key == 'only':
            only.append(text.strip())
        elif key == 'old':
            old = text
        elif not file or not old:
            raise Misfit('a new text without a file or an old one')
        else:
            changes.append(placed(crate, Change(file, start_of(old, f'crates/{crate}/{file}'), old, text)))
            old = ''
    if not changes or old:
        raise Misfit('an old text without a new one, or no pair at all')
    if not only and any(is_listed(crate, change) for change in changes):
        raise Misfit('it changes a list that a module passes on, and names no law by which it is judged')
    if kind == CONTROLS and any(map(is_idle, changes)):
        raise Misfit('a condition of it, or a part of one, is constant')
    has_control = kind != CONTROLS and os.path.isfile(f'crates/{crate}/{CONTROLS}/{path.name}')
    edit = Edit(kind, f'{kind}/{path.stem}', tuple(changes), tuple(only), has_control)
    return replace(edit, read=repr(edit))


def is_listed(crate, change):
    """Whether a text stands in a list of names that a module passes on."""
    before = text_of(f'crates/{crate}/{change.file}')[:change.start]
    return change.file.startswith('src/') and before.rfind('pub use ') > before.rfind(';')


def start_of(old, path):
    if not os.path.isfile(path):
        raise Misfit(f'there is no file {path}')
    text = text_of(path)
    if text.count(old) != 1:
        raise Misfit(f'{text.count(old)} times in {path}, and not once: {old}')
    return text.index(old)


def apply(edits, source):
    """The files that these edits change, by their path in the crate, with all changes made at once."""
    texts = {}
    for change in sorted((c for edit in edits for c in edit.changes), key=lambda c: -c.start):
        text, end = texts.get(change.file) or text_of(f'{source}/{change.file}'), change.start + len(change.old)
        texts[change.file] = text[:change.start] + change.new + text[end:]
    return texts


FUNCTION = re.compile(r'\bfn\s+(\w+)')
BLOCK = re.compile(r'^[ \t]*(?:pub\s+)?(impl|trait|mod)\b([^{;]*)\{', re.M)
# A condition, and what a part of one names unless it is constant.
CONDITION = re.compile(r'\b(?:if|while) (?!let\b)([^{]*)\{')
NAMED = re.compile(r'\b(?!(?:true|false|as|[ui]\d+|[ui]size)\b)[a-z]\w*')


def is_idle(change):
    """Whether a part of a condition is constant, so that a right body after it may never run, and shows nothing."""
    return any(not NAMED.search(part) for condition in CONDITION.findall(change.new) for part in re.split(r'&&|\|\|', condition))


def placed(crate, change):
    """A change with its place: the innermost function round it, or the function that it writes."""
    if not re.fullmatch(r'src/.*\.rt', change.file):
        return change
    code, module, end = code_of(f'crates/{crate}/{change.file}'), module_of(crate, change.file), change.start + len(change.old)
    for found in reversed([*FUNCTION.finditer(code)]):
        start, stop = body_of(code, found.end())
        if found.start() < end and change.start < stop:
            place = BODY if start < change.start and end <= stop else HEAD
            return change._replace(place=place, function=(module, block_at(code, found.start()), found[1]))
    written = FUNCTION.search(change.new)
    return change._replace(function=(module, block_at(code, change.start), written[1])) if written else change


def body_of(code, at):
    """Returns where the body of the function begins and ends whose name ends at `at`. The range is empty if it has no body."""
    passed, depth = clauses(code), 0
    while at < len(code) and (depth or code[at] not in '{;' or at in passed):
        depth += (code[at] in '([') - (code[at] in ')]')
        at = passed.get(at, at) + 1
    return at, closing(code, at)


def block_at(code, at):
    """The head of the innermost impl or trait round a place, or nothing."""
    heads = [f'{found[1]}{found[2]}'.strip() for found in BLOCK.finditer(code) if found.end() <= at < closing(code, found.end() - 1)]
    return heads[-1] if heads else ''


def module_of(crate, file):
    """The path of the module that a file of src/ is."""
    parts = file[len('src/'):-len('.rt')].split('/')
    return '::'.join([crate, *(part for part in parts if part not in ('lib', 'main', 'mod'))])


def path_among(function, known):
    """Returns the path by which the prover names a function, of those that it knows, or None if that is uncertain."""
    module, block, name = function
    ends = [f'::{part}::{name}' for part in blocks_named(block)] if block else [f'{module}::{name}']
    same = [path for path in known if any(path.endswith(end) for end in ends)]
    here = [path for path in same if path.startswith(f'{module}::')]
    # a block whose name holds more than its head shows, as of a tuple, is known where its module has one such function
    more = [path for path in known if re.fullmatch(rf'{module}::\w+::{name}', path)] if block and not same else []
    return next((found[0] for found in (here, same, more) if len(found) == 1), None)


def blocks_named(head):
    """Returns the names that the prover may use for an impl or a trait: its type, then its trait and the trait's arguments."""
    head = re.sub(r"^(impl|trait)\b\s*(<(?:[^<>]|<[^<>]*>)*>)?|'\w+\s*|&|\bmut\b|\bwhere\b.*", '', head)
    trait, split, kind = head.rpartition(' for ')
    kind = re.match(r'[\s]*([\w:]+)', kind)[1]
    if not split:
        return [kind]
    taken = re.findall(r'\w+', re.sub(r'\w+::', '', trait))
    kind = ''.join(part[:1].upper() + part[1:] for part in kind.split('::'))
    return [kind + ''.join(taken[:count]) for count in range(1, len(taken) + 1)]
