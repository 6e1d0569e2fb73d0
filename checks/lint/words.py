"""Words that only this repository understood. All text that git tracks is read, but for code and the list here."""
import re

from crates import text_of, tracked
from rattle import blank

# A regular expression for each private word, and what to say instead. A space stands for any white space.
WORDS = {
    r'want of memory|memory (is|was) (wanting|wanted)': 'out of memory',
    r'(?-i:[Gg]rowths?)|\w*growths\w*': 'allocation',
    # (the toolchain names facts that begin with `c.told`)
    r'(?<!\.)(told|tells?|telling|[a-z]+_(told|tells)|(told|tells)_\w+)': 'reports, returns, converts, prints',
    r'lowest byte (comes )?first|(?-i:little) order': 'little endian',
    r'highest byte (comes )?first|(?-i:big) order': 'big endian',
    r'where (it|they|there|one) (has|have|is|are) (none|such)': 'if there is none, or `None`',
    r'no text': 'not UTF-8, nothing',
    r'save (for|where|that|what)': 'except',
    r'behind': 'after',
    r'as far as(?! possible)': 'a sentence of its own',
    r'by turns': 'in turn',
    r'(kept|keeps|keep) in mind|(has|have|hasn.t|haven.t|checks|proofs) (kept|keep|keeps)': 'is cached',
    r'naive': 'plain',
    r'in vain': 'without an end, without a result',
    r'(and|which|that) answers|answers (it|what|how|whether|those|this|the|so)': 'returns',
}
ANY = re.compile('|'.join(rf'(\b(?:{word})\b)'.replace(' ', r'\s+') for word in
                          (re.sub(r'\((?!\?)', '(?:', word) for word in WORDS)), re.IGNORECASE)
# Code on a page or in a comment, and the sign that begins a line of a comment, so that a phrase may pass the end of a line.
UNREAD = re.compile(r'^ *```.*?^ *```|`[^`\n]*`|^[ \t]*(?:///?!?|--|\*|#)', re.DOTALL | re.MULTILINE)


def faults():
    wrong, paths = [], tracked(':!checks/lint/words.py', ':!LICENSE', ':!*.png')
    for path in paths:
        text = UNREAD.sub(blank, text_of(path))
        for found in ANY.finditer(text):
            line = text.count('\n', 0, found.start()) + 1
            wrong.append(f'{path}:{line}: "{" ".join(found[0].split())}": say {list(WORDS.values())[found.lastindex - 1]}')
    return f'private words of {len(paths)} files', wrong
