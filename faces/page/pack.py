#!/usr/bin/env python3
"""Packs the page into one file, which a browser can open from a folder: python3 pack.py MODULE writes it to standard output.

A page that is opened from a folder may not fetch other files. So the page's script is one text, with all files that it imports, each
in its own scope; and so is its worker's. The module, compressed, and the worker's script are data in the page. The page's policy allows
only its own script and style, by their hashes, and no request.
"""
import base64
import hashlib
import os
import re
import sys
import zlib

HERE = os.path.dirname(os.path.abspath(__file__))
# Where the page's files are, and goblin.js, which they import.
FOLDERS = [HERE, f'{HERE}/../web']
IMPORT = re.compile(r"^import (?P<what>[^;]+?) from '\.(?:\./web)?/(?P<name>\w+)\.js';\n", re.M)
EXPORT = re.compile(r'^export (?:const|class|function|function\*|async function) (\w+)', re.M)
REEXPORT = re.compile(r"^export \* from '\./(?P<name>\w+)\.js';\n", re.M)
LISTED = re.compile(r'^export { (.+) };\n', re.M)
COMMENT = re.compile(r'^ *(?:/\*\*(?:(?!\*/).)*\*/|//[^\n]*)\n', re.M | re.S)


def read(name):
    path = next(filter(os.path.exists, (f'{folder}/{name}' for folder in FOLDERS)))
    with open(path, encoding='utf-8') as file:
        return file.read()


def replaced(text, old, new):
    """Replaces a part of a text, which must have it exactly once."""
    if text.count(old) != 1:
        sys.exit(f'pack.py: {old!r} must be there once, and is there {text.count(old)} times')
    return text.replace(old, new)


def hash_of(text):
    return "'sha256-" + base64.b64encode(hashlib.sha256(text.encode()).digest()).decode() + "'"


def source_of(name):
    """Returns the source of a file without the comments that have lines of their own. In goblin.js it also drops the address of the file,
    which only a module has."""
    text = COMMENT.sub('', read(f'{name}.js'))
    if name == 'goblin':
        text = replaced(text, 'export default async function init', 'export async function init')
        text = replaced(text, " = new URL('goblin_c.wasm', import.meta.url)", '')
    return text


def constants_for(statement, exported):
    """Returns the constants that replace an import statement: the names that it imports, from the scope of the other file."""
    imported, name = ' '.join(statement['what'].split()), statement['name']
    form = re.fullmatch(r'{ (?P<names>[^}]+?),? }|(?:(?P<init>init), )?\* as (?P<whole>\w+)', imported)
    names = re.findall(r'\w+', form['names'] or form['init'] or '') if form else ['?']
    for missing in set(names) - set(exported[name]):
        sys.exit(f'pack.py: {name}.js does not export {missing}')
    whole = f'const {form["whole"]} = $_{name};\n' if form['whole'] else ''
    return whole + (f'const {{ {", ".join(names)} }} = $_{name};\n' if names else '')


def script_of(name):
    """Returns a file and all that it imports as one script: each file in its own scope, after those that it imports."""
    exported, begun = {}, []

    def add(name):
        if name in exported:
            return ''
        if name in begun:
            sys.exit(f'pack.py: {name}.js imports itself')
        begun.append(name)
        text = source_of(name)
        before = ''.join(add(match['name']) for match in [*IMPORT.finditer(text), *REEXPORT.finditer(text)])
        reexported = REEXPORT.findall(text)
        names = EXPORT.findall(text) + [name for names in LISTED.findall(text) for name in names.split(', ')]
        text = LISTED.sub('', REEXPORT.sub('', text))
        known = [len(form.findall(text)) for form in (EXPORT, IMPORT)]
        if known != [len(re.findall(f'^{word} ', text, re.M)) for word in ('export', 'import')]:
            sys.exit(f'pack.py: {name}.js has an export or an import of an unknown form')
        text = re.sub('^export ', '', IMPORT.sub(lambda match: constants_for(match, exported), text), flags=re.M)
        exported[name] = [*names, *(other_name for other in reexported for other_name in exported[other])]
        returned = [*(f'...$_{other}' for other in reexported), *names]
        return f'{before}const $_{name} = (() => {{\n{text}\nreturn {{ {", ".join(returned)} }};\n}})();\n'

    return f"'use strict';\n{add(name)}"


def main(module):
    with open(module, 'rb') as file:
        encoded = base64.b64encode(zlib.compress(file.read(), 9)).decode()
    style, script, worker = read('page.css'), script_of('page'), script_of('worker')
    for text in (script, worker):
        if '</' in text or '<!--' in text:
            sys.exit('pack.py: a script has `</` or `<!--`, which could end its element in the page')
    policy = f"default-src 'none'; script-src {hash_of(script)} 'wasm-unsafe-eval'; style-src {hash_of(style)}; img-src data:; " \
        "worker-src blob:; base-uri 'none'; form-action 'none'"
    page = read('index.html')
    page = replaced(page, '<meta charset="utf-8">', f'<meta charset="utf-8">\n<meta http-equiv="Content-Security-Policy" content="{policy}">')
    page = replaced(page, '<link rel="stylesheet" href="page.css">', f'<style>{style}</style>')
    data = f'<script type="text/plain" id="module">{encoded}</script>\n<script type="text/plain" id="worker">{worker}</script>\n'
    page = replaced(page, '<script type="module" src="page.js"></script>', f'{data}<script>{script}</script>')
    sys.stdout.write(page)


if __name__ == '__main__':
    main(sys.argv[1])
