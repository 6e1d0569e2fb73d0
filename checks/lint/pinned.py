"""Whether laws pin the numbers that promises cite by a name.

A promise that cites a constant of the code says whatever number the code gives it. So each constant of an integer type that a
definition imports from the code, or that a clause of a public function or of a trait's impl names, must be equal to a number in a
clause of a function `constants` or `laws`: alone or in a list, under no condition. On the right there is no constant of the code and
no definition of a module that imports one. It reads the crates that the program and the library for C stand on.
"""
import os
import re

from crates import crates_listed, text_of, tracked
from rattle import CLAUSE, closing, code_of

CONSTANT = re.compile(r'^ *(?:pub(?:\(crate\))? )?(?:const|static) ([A-Z][A-Z0-9_]*): ([^=]*)', re.MULTILINE)
NUMBER = re.compile(r'[ui](\d+|size) ')
LISTED = re.compile(r'[\sA-Z0-9_∷\[\]()]+')
NAME = re.compile(r'(?<![\w.])[A-Z][A-Z0-9_]*\b')
USE = re.compile(r'^(?:pub(?:\(crate\))? )?use ((?:\w+::)+)(?:\{([^}]*)\}|(\w+));', re.MULTILINE)
IMPORT = re.compile(r'^use Rattle\.(\w+)\.specs\.declared\.([\w.]+)\.TheConstants\b(?:\.\{([^}]*)\})?', re.MULTILINE)
DEFINED = re.compile(r'^(?:abbrev |unfoldable |record |data )*pub (?:record |data )?(\w+)', re.MULTILINE)
# A function, the head of an impl, or a clause up to its opening brace.
PART = re.compile(r'^ *(?P<public>pub(?:\(crate\))? )?(?:const |unsafe )*fn (?P<function>\w+)|^(?P<block>impl|(?:pub )?trait)\b(?P<head>[^{]*)'
                  r'|^\}|' + CLAUSE.pattern, re.MULTILINE)


def file_of(crate, module):
    """The file of a module, by the names of its path. The root has none."""
    return f'crates/{crate}/src/{"/".join(module) or "lib"}.rt'


def declared(name, path):
    """The file that declares the constant that a name stands for in a file, with its type. There is none for a type parameter."""
    if not os.path.isfile(path):
        return None
    types = dict(CONSTANT.findall(code_of(path)))
    if name in types:
        return path, types[name]
    for module, names, one in USE.findall(code_of(path)):
        if name in re.split(r'\W+', names or one):
            first, *rest = module[:-2].split('::')
            return declared(name, file_of(path.split('/')[1] if first == 'crate' else first, rest))
    return None


def clauses(path):
    """Each clause of a file, with the name of its function, and whether that is public or of a trait."""
    code, function, public, of_trait = code_of(path), '', False, False
    for part in PART.finditer(code):
        if part['function']:
            function, public = part['function'], bool(part['public']) or of_trait
        elif part['block'] or part[0] == '}':
            function, of_trait = '', bool(part['block']) and (part['block'] != 'impl' or ' for ' in part['head'])
            public = of_trait
        else:
            yield code[part.end():closing(code, part.end() - 1)], function, public


def pinned_by(clause, unfit):
    """The names in a clause of a law that are equal to numbers."""
    for fact in [] if re.search('[→⊎λ]', clause) else clause.split('×'):
        left, _, right = fact.partition('≡')
        if LISTED.fullmatch(left) and not NAME.search(right) and not unfit & set(re.findall(r'\w+', right)):
            yield from NAME.findall(left)


def promised(crates):
    """The constants that definitions and public clauses of these crates cite, each by the file and type that declare it and by its name, with
    a file that cites it; those that laws pin; and what could not be read."""
    cited, pinned, unfit, wrong = {}, set(), set(), []
    for path in tracked(*(f'crates/{crate}/specs/*.antt' for crate in crates)):
        for owner, module, names in IMPORT.findall(text_of(path)):
            wrong += [] if names else [f'{path} imports constants of {owner} without a list of their names']
            unfit.update(DEFINED.findall(text_of(path)))
            for name in re.findall(r'\w+', names):
                cited.setdefault((declared(name, file_of(owner, module.split('.'))), name), path)
    for path in tracked(*(f'crates/{crate}/src/*.rt' for crate in crates)):
        for clause, function, public in clauses(path):
            if function in ('constants', 'laws'):
                pinned.update((declared(name, path), name) for name in pinned_by(clause, unfit))
            elif public:
                for name in NAME.findall(clause):
                    cited.setdefault((declared(name, path), name), path)
    return cited, pinned, wrong


def faults():
    listed = crates_listed()
    cited, pinned, wrong = promised({name for top in ('goblin_show', 'goblin_c') for name in (top, *listed[top])})
    wrong += [f'{path} cites {name}, and the file that declares it was not found'
              for (source, name), path in cited.items() if source is None and len(name) > 1]
    numbers = {key: path for key, path in cited.items() if key[0] and NUMBER.match(key[0][1])}
    wrong += [f'{path} cites {key[1]} of {key[0][0]}, and no law `constants` says its number' for key, path in numbers.items() if key not in pinned]
    return f'laws that pin {len(numbers)} constants of promises', wrong if numbers else ['no promise cites a constant']
