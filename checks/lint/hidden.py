"""Whether a call hides the method of a trait.

A type's own method comes before a trait's of the same name: with one, `a.eq(&b)` would no longer be what `a == b` is, and no contract
would notice. So none has the name of a method of the traits that std and this library have for records, views and iterators.
"""
import re

from crates import tracked
from rattle import closing, code_of

BLOCK = re.compile(r'^impl\b([^{;]*)\{', re.MULTILINE)
METHOD = re.compile(r'\bfn (\w+)')
TAKEN = {*'eq ne cmp partial_cmp clone clone_from default fmt drop from into try_from try_into'.split(),
         *'next size_hint nth last fold into_iter try_from_ctx try_into_ctx from_ctx into_ctx size_with'.split()}
# (a type that is no iterator may count its reads)
COUNT = 'count'


def faults():
    count, wrong = 0, []
    for path in tracked('crates/*/src/*.rt'):
        code = code_of(path)
        for block in BLOCK.finditer(code):
            if ' for ' in block[1]:
                continue
            own = METHOD.findall(code[block.end():closing(code, block.end() - 1)])
            name = re.search(r'(\w+)(<[^<>]*>)?\s*$', block[1].split(' where ')[0])
            taken = TAKEN | ({COUNT} if name and re.search(rf'\bIterator for {name[1]}\b', code) else set())
            count += len(own)
            wrong += [f'{path}: {method} hides the method of a trait' for method in own if method in taken]
    return f'{count} methods that hide no trait\'s', wrong if count else ['no method was found']
