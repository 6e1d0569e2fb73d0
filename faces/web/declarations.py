#!/usr/bin/env python3
"""Writes goblin.d.ts, the declarations of goblin.js for TypeScript, to standard output: python3 declarations.py

They are made from the JSDoc comments of goblin.js, interface.js and constants.js, whose types are TypeScript's. Only what has such a comment
is declared. calls.mjs compares the declarations with what goblin.js exports.
"""
import os
import re
import sys

HERE = os.path.dirname(os.path.abspath(__file__))
COMMENT = re.compile(r'^(?P<indent> *)/\*\*(?P<text>(?:(?!\*/).)*)\*/\n(?=(?P<code>[^\n]*))', re.M | re.S)
TAG = re.compile(r'(?:^|\s)@(typedef|property|type|template|extends|index)\b')
CLASS = re.compile(r'export class (?P<name>\w+)(?: extends (?P<base>\w+))? {')
FUNCTION = re.compile(r'export (?:default )?(?:async )?function (?P<name>\w+)\((?P<parameters>.*)\) {$')
ARROW = re.compile(r'export const (?P<name>\w+) = \((?P<parameters>[^()]*)\) =>')
CONSTANT = re.compile(r'export const (?P<name>\w+) = (?P<value>.*)')
METHOD = re.compile(r'(?P<is_static>static )?(?P<is_getter>get )?\*?(?P<name>\w+|\[Symbol\.iterator\])\((?P<parameters>.*?)\) {')
FIELD = re.compile(r'this\.(?P<name>\w+) = ')


def split_type(text):
    """Splits a text into the type in braces that it starts with, and the rest."""
    depth = 0
    for index, character in enumerate(text):
        depth += (character == '{') - (character == '}')
        if depth == 0:
            return text[1:index].strip(), text[index + 1:].strip()
    sys.exit(f'declarations.py: the type has no closing brace: {text}')


class Comment:
    """A JSDoc comment: its text, and for each name of a tag the types and texts of the tags with that name."""

    def __init__(self, source):
        lines = [re.sub(r'^ *\* ?', '', line) for line in source.split('\n')]
        text, *parts = TAG.split('\n'.join(lines).strip())
        self.text = text.strip()
        self.tags = {}
        for name, body in zip(parts[::2], parts[1::2]):
            body = ' '.join(body.split())
            self.tags.setdefault(name, []).append(split_type(body) if body.startswith('{') else ('', body))

    def first(self, name):
        """Returns the type and the text of the first tag with a name."""
        return self.tags.get(name, [('', '')])[0]

    def printed(self, indent, of_type=''):
        """Returns the comment of a declaration: the text, and the text of its type."""
        text = '\n\n'.join(part for part in (self.text, of_type) if part)
        if '\n' not in text:
            return f'{indent}/** {text} */\n' if text else ''
        return f'{indent}/**\n' + ''.join(f'{indent} * {line}'.rstrip() + '\n' for line in text.split('\n')) + f'{indent} */\n'

    def templates(self):
        names = [name for _, name in self.tags.get('template', [])]
        return f'<{", ".join(names)}>' if names else ''

    def call(self, name, code):
        """Returns the declaration of a function, one for each of its types. `code` is what is between the parentheses of its definition."""
        calls = [split_call(kind) for kind, _ in self.tags.get('type', [])]
        names = [re.match(r'(?:\.\.\.)?\w+', parameter)[0] for parameter in split_list(calls[-1][1])] if calls else ['no type']
        if '{' not in code and names != [parameter.split(' = ')[0] for parameter in split_list(code)]:
            sys.exit(f'declarations.py: {name} has the parameters {code}, but its comment has {names}')
        return [f'{name}{templates}({parameters}): {result};\n' for templates, parameters, result in calls]


def split_list(text):
    """Splits a text at its commas, but for those in brackets of any kind."""
    parts, depth = [''], 0
    for before, character in zip(' ' + text, text):
        depth += (character in '([{<') - (character in ')]}' or character == '>' and before != '=')
        parts[-1] += character
        if character == ',' and depth == 0:
            parts[-1:] = [parts[-1][:-1], '']
    return [part.strip() for part in parts if part.strip()]


def split_call(kind):
    """Splits the type of a function into its templates, its parameters and its result."""
    templates, rest = re.match(r'(<\w+>)?(.*)', kind, re.S).groups()
    end = next(i for i in range(len(rest)) if rest[:i].count('(') == rest[:i].count(')') > 0)
    return templates or '', rest[1:end - 1], rest[end + 4:]


def type_of(value, source):
    """Returns the type of a constant by its value, which starts on the first line of the source."""
    if value.startswith('Object.freeze({'):
        body = source[:source.index('});')]
        return '{ ' + ' '.join(f'readonly {name}: number;' for name in re.findall(r'(\w+): [^,]+,', re.sub(r'/\*\*.*?\*/', '', body))) + ' }'
    if value.startswith('Object.freeze(['):
        is_big = 'SHF_' in source[:source.index(']);')]
        return f'readonly {"bigint" if is_big else "number"}[]'
    return 'bigint' if re.search(r'[\da-f]n\b', value) else 'number'


def interface(comment):
    kind, name = comment.first('typedef')
    if kind != 'object':
        return f'{comment.printed("")}export type {name} = {kind};\n\n'
    base, fields = comment.first('extends')[0], ''
    for kind, text in comment.tags['property']:
        field, _, text = text.partition(' ')
        fields += (f'    /** {text} */\n' if text else '') + f'    {field}: {kind};\n'
    return f'{comment.printed("")}export interface {name}{base and f" extends {base}"} {{\n{fields}}}\n\n'


def exported(comment, code, source):
    """Returns the declaration of an exported function or constant, whose definition is the first line of the source."""
    if code.startswith('import '):
        return f'{comment.printed("")}\n'
    match = FUNCTION.match(code) or ARROW.match(code)
    if match:
        keyword = 'default function' if 'export default' in code else 'function'
        return f'{comment.printed("")}export {keyword} {comment.call(match["name"], match["parameters"])[0]}\n'
    match = CONSTANT.match(code)
    return f'{comment.printed("")}export const {match["name"]}: {type_of(match["value"], source)};\n' if match else ''


def member(comment, code):
    """Returns the declaration of a method, or of a field that a constructor sets."""
    field, method = FIELD.match(code), METHOD.match(code)
    if field or method['is_getter']:
        kind, text = comment.first('type')
        return f'{comment.printed("    ", text)}    readonly {(field or method)["name"]}: {kind};\n'
    calls = comment.call(method['name'], method['parameters'])
    return comment.printed('    ') + ''.join(f'    {method["is_static"] or ""}{call}' for call in calls)


def declarations(name):
    """Returns the declarations of a file."""
    with open(f'{HERE}/{name}', encoding='utf-8') as file:
        source = file.read()
    declared, is_open = '', False
    for match in COMMENT.finditer(source):
        comment, code = Comment(match['text']), match['code'].strip()
        if is_open and not match['indent']:
            declared, is_open = f'{declared}}}\n\n', False
        of_class = CLASS.match(code)
        if 'typedef' in comment.tags:
            declared += interface(comment)
        elif of_class:
            base = comment.first('extends')[0] or of_class['base']
            declared += f'{comment.printed("")}export class {of_class["name"]}{comment.templates()}{f" extends {base}" if base else ""} {{\n'
            declared += '    protected constructor();\n'
            declared += f'    readonly [index: number]: {comment.first("index")[0]};\n' if 'index' in comment.tags else ''
            is_open = True
        elif is_open:
            declared += member(comment, code)
        elif not match['indent']:
            declared += exported(comment, code, source[match.start('code'):])
    return declared


print('// The types of goblin.js, made from its comments by declarations.py.\n')
print(''.join(map(declarations, ('goblin.js', 'interface.js', 'constants.js'))).strip())
