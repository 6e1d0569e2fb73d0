"""Whether the code that pages and doc comments quote stands in the code.

A quotation is a code block below a line '<!-- quoted: FILE -->'. Its parts, which blank lines separate, must stand in FILE, line for
line and in this order. Indentation doesn't count. A part neither begins nor ends inside a clause of a contract, since a clause without
its condition says something else.
"""
import os
import re

from crates import text_of, tracked
from rattle import clauses, code_of

# The file of a quotation, and its block, if that is closed.
QUOTATION = re.compile(r'^<!-- quoted: (.*?)(?: -->(?:\n+```.*\n((?:.*\n)*?)```)?|$)', re.MULTILINE)


def inside_clauses(path):
    """The lines of a file, counted from 0, before which a clause is open."""
    code = code_of(path) if path.endswith('.rt') else ''
    return {line for start, end in clauses(code).items() for line in range(code.count('\n', 0, start) + 1, code.count('\n', 0, end) + 1)}


def faults_in(source, body):
    """What is wrong with a quotation: of each part that doesn't stand in its source, the first line that differs."""
    if body is None:
        return ['no closed code block follows']
    parts = [[line.strip() for line in part.split('\n')] for part in re.split(r'\n\s*\n', body.strip('\n')) if part.strip()]
    if not os.path.isfile(source) or not parts:
        return ['it is empty, or there is no such file']
    lines, inside, start, wrong = [line.strip() for line in text_of(source).split('\n')], inside_clauses(source), 0, []
    for part in parts:
        begins = lambda count: [at for at in range(start, len(lines)) if lines[at:at + count] == part[:count]]
        whole = [at + len(part) for at in begins(len(part)) if not {at, at + len(part)} & inside]
        if whole:
            start = whole[0]
        else:
            same = max((count for count in range(len(part) + 1) if begins(count)), default=0)
            wrong.append(f'it differs from here on: {part[same]}' if same < len(part) else f'it has a part of a clause: {part[0]}')
    return wrong


def faults():
    count, wrong = 0, []
    for page in tracked('*.md', 'crates/*.rt'):
        text = text_of(page)
        if page.endswith('.rt'):
            text = re.sub(r'^ *(?:/// ?|(?!///).*)', '', text, flags=re.MULTILINE)
        for found in QUOTATION.finditer(text):
            count += 1
            line = text.count('\n', 0, found.start()) + 1
            wrong += [f'{page}:{line}: quoted from {found[1]}: {why}' for why in faults_in(*found.groups())]
    return f'{count} quotations', wrong if count else ['no quotation was found']
