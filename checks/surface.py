#!/usr/bin/env python3
"""Compares the public surface of each language with the lists in checks/surface: python3 checks/surface.py [FOLDER], from the root.

What is lost or changed fails by its name, and so does what is new, until it is stored. FOLDER is an installation, whose library and package
for Python are compared, too. The table of calls in faces/README.md is made of the lists. With --store it writes the lists and the table, once
CHANGELOG.md has what is lost and new. With --self-test it renames something of each list in a copy, and fails unless that alone is seen.
"""
import functools, re, shutil, subprocess, sys, tempfile
from pathlib import Path

sys.dont_write_bytecode = True
from crates import text_of
LISTS, PAGE, PACKAGE = 'checks/surface', 'faces/README.md', 'share/goblin_c/python/goblin_elf'
TOKEN = re.compile(r'\s+|//[^\n]*|/\*.*?\*/|'
                   r'(b?r(#*)".*?"\2|b?"(?:\\.|[^"\\])*"|b?\'(?:\\[^\']+|[^\'\\])\'|\'\w+|\w+|->|=>|::|\.\.=?|&&|\|\||.)', re.S)


def printed(*command, **options):
    ran = subprocess.run(command, stdout=subprocess.PIPE, encoding='utf-8', **options)
    return ran.stdout if ran.returncode == 0 else sys.exit(f'surface: failed: {" ".join(map(str, command))}')


def c(root):
    """What the compiler says of goblin.h: the calls, the structs with sizes and offsets, the numbers."""
    header = f'{root}/faces/c/goblin.h'
    code = ' '.join(printed('cc', '-E', '-P', header).split())
    lines = [f'{name}({arguments}) -> {kind.strip()}' for kind, name, arguments in re.findall(r'(\w[\w ]*[ *])(goblin_\w+)\(([^()]*)\) ?[;_]', code)]
    shown, numbers = [], re.findall(r'\bGOBLIN_\w+', ' '.join(re.findall(r'\benum \{([^{}]*)\}', code)))
    for body, name in re.findall(r'typedef struct \{ ([^{}]*)\} (goblin_\w+);', code):
        shown.append(f'"{name}: %zu bytes", sizeof({name})')
        shown += [f'"{name}.{field}: {kind.strip()} at %zu", offsetof({name}, {field})' for kind, field in re.findall(r'(\w[^;]*?)(\w+);', body)]
    for name, value in re.findall(r'^#define (GOBLIN_\S+) ?(.*)', printed('cc', '-E', '-dM', header), re.M):
        is_of_release = re.match('GOBLIN_(VERSION|PACKAGE)_', name)
        has_text = is_of_release or re.match(r'["{]|.*goblin_refusal_t|$', value) or not re.fullmatch(r'\w+', name)
        (lines if has_text else numbers).append(f'{name} = {value}' if value[:1] in ('"', '{') and not is_of_release else name)
    kinds = 'int: "int", unsigned: "uint32_t", unsigned long: "uint64_t", unsigned long long: "uint64_t"'
    shown += [f'"{name} = %llu, %s", (unsigned long long){name}, _Generic({name}, {kinds})' for name in numbers]
    with tempfile.TemporaryDirectory() as folder:
        program = '#include "goblin.h"\n#include <stdio.h>\nint main(void) {\n' + ''.join(f'printf({one}); puts("");\n' for one in shown) + '}\n'
        printed('cc', '-std=c11', f'-I{root}/faces/c', '-xc', '-o', f'{folder}/shown', '-', input=program)
        return lines + printed(f'{folder}/shown').splitlines()


class Node:
    """An item of Rust or Rattle: what is said of it after its path, a line each. A module has names, of items and of what it imports."""
    def __init__(self, name, parent=None, kind='mod', is_public=True):
        self.name, self.parent, self.kind, self.is_public, self.path = name, parent, kind, is_public, None
        self.names, self.passed_on, self.said, self.items, self.uses, self.impls = {}, {}, [], [], [], []
        self.modules = parent.modules if parent else []  # those of the crate, the root first
        self.modules += [self] * (kind == 'mod')

    def publish(self, path):
        """Gives paths to this item and to the public ones in it, and returns the lines of those that are no modules."""
        self.path = path
        inner = (one.publish(f'{path}::{one.name}') for one in self.items if one.is_public and not one.path)
        return sum(inner, [path + said for said in self.said])


def grouped(tokens):
    """The tokens up to the end of a group, with each pair of brackets and what it holds as a list."""
    group = []
    for token in tokens:
        group.append([token, *grouped(tokens)] if token in '([{' else token)
        if token in ')]}':
            break
    return group


def split(tokens):
    """The parts between commas, without attributes."""
    parts, depth = [[]], 0
    for token in tokens:
        depth += (token == '<') - (token == '>')
        parts.append([]) if token == ',' and not depth else parts[-1].append(token)
        parts[-1][:] = [] if parts[-1][:1] == ['#'] and token[0] == '[' else parts[-1]
    return [part for part in parts if part]


def joined(tokens):
    """The text of some tokens, without the paths of names of std and of the same crate."""
    text = ' '.join(token if isinstance(token, str) else joined(token) for token in tokens)
    text = re.sub(r'(?::: )?\b(?:core|std|alloc|crate) :: (?:\w+ :: )*| ,(?= [)\]>}])', '', text)
    return re.sub(r'(?<=[(\[<&!.]) +|(?<=::) | +(?=[)\],;:>?.])|(?<=\w) (?=[(<])|(?<=[^-]>) (?=\()', '', text)


def imported(tokens, before=()):
    """The paths in a `use`, each with the name that it gets."""
    words = [*before, *(word for word in tokens if word not in ('::', 'self'))]
    if words[-1][0] == '{':
        return [path for part in split(words.pop()[1:-1]) for path in imported(part, words)]
    return [(words[:-2] if 'as' in words else words, words[-1])]


def parse(module, tokens, folder=''):
    """Reads the items in a text, or in some tokens. The folder has the files of modules."""
    tokens = grouped(token[1] for token in TOKEN.finditer(tokens) if token[1]) if isinstance(tokens, str) else tokens
    words, derived, is_public = [], [], module.kind == 'trait'
    for token in tokens:
        words.append(token)
        if words[0] == '#' or token == 'pub' or len(words) == 1 and token[0] == '(':
            derived += [['impl', *one] for one in split(token[2][1:-1])] if token[1:2] == ['derive'] else []
            derived += [token[1:2]] * (token[1:2] == ['non_exhaustive'])
            is_public, words = token == 'pub' or is_public and token[0] != '(', words if token in ('#', '!') else []
            continue
        kind = 'fn' if 'fn' in words[:4] else words[0]
        is_clause = isinstance(words[-2:][0], str) and {'requires', 'ensures'} & {*map(str, words[-3:-1])}
        if token != ';' and (token[0] != '{' or is_clause or kind in ('use', 'const', 'type', 'ghost')):
            continue
        name, *head = words[words.index(kind) + 1:-1]
        node, body = Node(name, module, kind, is_public), token[1:-1]
        if kind == 'use':
            module.uses += [(*pair, is_public) for pair in imported(words[1:-1])]
        elif kind == 'fn':
            clauses = re.findall(r'\b(requires|ensures) (\w*) ?{', joined(head))
            asked = ', '.join(clause or 'a clause' for word, clause in clauses if word == 'requires')
            node.said = [re.split(' (?:requires|ensures) ', joined(head))[0] + f' requires {asked}' * bool(asked)]
            node.said += [f' ensures {clause}'.rstrip() for word, clause in clauses if word == 'ensures']
        elif kind in ('struct', 'enum', 'trait'):
            parts = split(body or (head or [''])[-1][1:-1])
            shown = [part for part in parts if kind == 'enum' or part[0] == 'pub' and part[1][0] != '(']
            hidden = ', with private fields' * (kind == 'struct' and shown != parts)
            node.said = [f': {kind}{joined(word for word in head if word[0] != "(")}{hidden}', *(f': {joined(one)}' for one in derived)]
            node.said += [f'::{joined(part)}' if kind == 'enum' else f'.{joined(part[1:])}' for part in shown if kind != 'trait']
        elif kind in ('const', 'type', 'ghost', 'impl') and name not in ('_', 'use'):
            node.said = words[:-1] if kind == 'impl' else [joined(head) if kind != 'ghost' else ' (ghost)']
        if kind in ('mod', 'trait', 'impl'):
            parse(node, body if token != ';' else text_of(f'{folder}/{name}.rt'), f'{folder}/{name}')
        (module.impls if kind == 'impl' else module.items).extend([node] if kind == 'mod' or node.said else [])
        words, derived, is_public = [], [], module.kind == 'trait'


def reached(*roots):
    """The lines of what the public paths of some crates lead to."""
    modules = [one for root in roots for one in root.modules]
    find = lambda module, words: functools.reduce(lambda one, word: one and one.names.get(word), words, module)
    for one in modules:
        one.names = {'crate': one.modules[0], 'self': one, 'super': one.parent, **{inner.name: inner for inner in (*roots, *one.items)}}
    for module in modules * 4:
        for words, name, is_public in module.uses:
            node = find(module, words[:-1] if name == '*' else words)
            found = {} if not node else {name: node} if name != '*' else {one.name: one for one in node.items}
            module.names = {**found, **module.names}
            module.passed_on.update(found if is_public else {})
    lines = [line for root in roots for line in root.publish(root.name)]
    queue = [one for one in modules if one.path]
    for module in queue:
        for path, node in sorted((f'{module.path}::{name}', node) for name, node in module.passed_on.items()):
            lines += node.publish(path) if not node.path else [f'{path} is {node.path}'] * (node.path != path)
        queue += [one for one in modules if one.path and one not in queue]
    for module, one in [(module, one) for module in modules for one in module.impls]:
        text = joined(one.said)
        found = lambda part: [find(module, path.split('::')) for path in re.findall(r'\w+(?:::\w+)*', part)]
        trait, _, own = re.sub(r'^impl(<(?:[^<>]|<(?:[^<>]|<[^<>]*>)*>)*>)? ', '', text.split(' where ')[0].replace('->', '')).rpartition(' for ')
        owner = next((node for node in found(own) + found(text) if node and node.path), None)
        if trait and owner and not re.match('Structural|TrivialClone', trait) and all(node.path for node in found(trait) if node):
            lines.append(f'{owner.path}: {text}' + ''.join(f', {item.name} {item.said[0]}' for item in one.items if item.kind == 'type'))
        lines += [line for item in one.items if owner and not trait and item.is_public for line in item.publish(f'{owner.path}::{item.name}')]
    return lines


def rattle(root):
    """The public items of the crates in Rattle, with the names of clauses."""
    crates = [Node(name) for name in ('goblin_base', 'goblin_headers', 'goblin_records', 'goblin', 'goblin_dynamic')]
    for crate in crates:
        parse(crate, text_of(f'{root}/crates/{crate.name}/src/lib.rt'), f'{root}/crates/{crate.name}/src')
    return reached(*crates)


def rust(root):
    """The public items of the crate in Rust, whose macros the compiler expands."""
    printed(sys.executable, f'{root}/faces/constants.py', '--made')
    crate, flags = Node('goblin_rs'), ('--edition', '2021', '--crate-type', 'lib', '--cfg', 'feature="std"', '-Zunpretty=expanded')
    parse(crate, printed('env', 'RUSTC_BOOTSTRAP=1', 'CARGO_PKG_VERSION=0', 'rustc', *flags, f'{root}/faces/rust/src/lib.rs'))
    return reached(crate)


def definitions(root):
    """What stands in the modules of specs/ that goblin and goblin_dynamic have or pass on: definitions and fields of records, no lemmas."""
    lines, crates, listed = [], f'{root}/crates', r'^pub (?:mod |use Rattle\.(\w+)\.specs\.)(?!Common)(\w+)$'
    for crate in ('goblin', 'goblin_dynamic'):
        for owner, module in re.findall(listed, text_of(f'{crates}/{crate}/specs/Lib.antt'), re.M):
            lines += [f'{crate}.specs.{module} is {owner}.specs.{module}'] if owner else []
            text, path = text_of(f'{crates}/{owner or crate}/specs/{module}.antt'), f'{owner or crate}.specs.{module}'
            for name, body in re.findall(r'^(?:abbrev pub|unfoldable pub|pub record|pub data) ((?!use )\S+)((?:.|\n(?= ))*)', text, re.M):
                lines += [f'{path}.{name}'] + [f'{path}.{name}.{field}' for field in re.findall(r'^ +pub (\S+)', body, re.M)]
    return lines


def javascript(root):
    """What goblin.d.ts declares, a line each."""
    printed(sys.executable, f'{root}/faces/constants.py', '--made')
    text, lines = re.sub(r'/\*.*?\*/|//[^\n]*', '', printed(sys.executable, f'{root}/faces/web/declarations.py'), flags=re.S), []
    for head, body in re.findall(r'^export (?:function |const )?([^\n]*?)(?:;| \{\n(.*?)^\})$', text, re.M | re.S):
        lines += [head] + [f'{re.split("[ <]", head)[1]}.{one.strip().rstrip(";")}' for one in body.split('\n') if one.strip()]
    return lines


def python(installed):
    """What inspect finds of the package for Python, and the symbols of its library."""
    import importlib, inspect, pkgutil
    sys.path.insert(0, str(Path(installed, PACKAGE).parent))
    for name in [name for name in sys.modules if name.startswith('goblin_elf')]:
        del sys.modules[name]
    package, libraries = importlib.import_module('goblin_elf'), map(str, Path(installed, PACKAGE).glob('*.so.*'))
    lines = re.findall(r'(?<= T )\S+', printed('nm', '-D', '--with-symbol-versions', *libraries))
    is_own = lambda one: getattr(one, '__module__', '').startswith('goblin_elf')
    def said(one):
        one, get = getattr(one, '__func__', one), getattr(one, 'fget', getattr(one, 'func', None))
        if not inspect.isfunction(get or one):
            return f' = {int(one)}' if isinstance(one, int) else f': {one.__base__.__name__}' if inspect.isclass(one) else ''
        found = re.search(r'def \w+(\(.*?\)(?: -> [^\n]*?)?):\n', inspect.getsource(get or one), re.S)
        text = re.sub(r'^\((?:self|cls)(?:: \w+)?(?:, )?', '(', ' '.join(found[1].split())).replace("'", '')
        return text[2:].replace(' ->', ':') if get else text
    names = [one.name for one in pkgutil.iter_modules(package.__path__) if one.name[0] != '_']
    for module in [package, *(importlib.import_module(f'goblin_elf.{name}') for name in names)]:
        lines += [f'goblin-scan: a column {name}' for name in vars(module).get('COLUMNS', [])]
        for name in [name for name in getattr(module, '__all__', []) if module is package or name not in package.__all__]:
            one, path = vars(module)[name], f'{module.__name__}.{name}'
            lines.append(path + said(one))
            for base in one.__mro__ if inspect.isclass(one) and is_own(one) else []:
                own = {inner: value for inner, value in vars(base).items() if is_own(base) and not (isinstance(value, int) and inner in vars(module))}
                lines += [f'{path}.{inner}{said(value)}' for inner, value in own.items() if inner[0] != '_' or name + inner == 'Elf__init__']
    return lines


# Each list, with the compiler that it needs, and what --self-test renames in which file: last in goblin.h, of which others are made.
PLANTS = {rust: ('rustc', 'faces/rust/src/sym.rs', 'is_function'), rattle: ('', 'crates/goblin_records/src/sym.rt', 'get_type'),
          definitions: ('', 'crates/goblin_base/specs/Strtab.antt', 'look_up'), javascript: ('', 'faces/web/goblin.js', 'section_by_type'),
          python: ('nm', f'{PACKAGE}/*elf.py', 'put_header'), c: ('cc', 'faces/c/goblin.h', 'goblin_linked_section')}
# How lists name a call and its type; calls that a language names otherwise; and what Python and JavaScript have in place of a call.
CALL = r'(?:goblin_\w+(?:::|\.))?(?:[a-z]\w*::)*(?:(?!List)([A-Z]\w*)(?:::|\.))?(?:static |readonly |default function )?([a-z]\w*)(?:<[^(]*>)?(\(|: )'
SAME = dict(pair.split('=') for pair in '''
    parse=file Elf.open=file whole=whole_header section_header=section section_headers=sections program_header=segment program_headers=segments
    Elf.section=named len=count section_count=count segment_count=count symbol_count=count reloc_count=count dynamic_count=count goblin_symbol=get
    goblin_reloc=get goblin_symbols=iter goblin_relocs=iter Strtab.get=string_utf8 Strings.get=string_utf8 get_bytes=string
    get_closed_bytes=string_closed is_at=string_is starts_at=string_starts get_all_bytes=strings get_all=strings closed=closed_strings
    section_data=section_range segment_data=segment_range readable_data=range_in_file shdr_strtab=names_section Dynamic.entries=dynamic_entries
    Dynamic.value=dynamic_value Dynamic.strings=dynamic_strings notes=note_utf8 notes_bytes=note_whole Header.put=put_header
    put_section_header=put_section put_program_header=put_segment Section.number=number_in Segment.number=number_in Section.put_number=put_number_in
    Segment.put_number=put_number_in Section.name=section_name Note.type_to_str=note_type_to_str NoteBytes.type_to_str=note_type_to_str
    ProgramHeader.holds=segment_holds Dyn.string=string_of_entry Section.data=section_range Segment.data=segment_range Symbol.name=name
    goblin_dynamic=dynamic_section'''.split())
SAID = {'count': ('len(table)', 'list.length'), 'get': ('table[index]', 'list.get(index)'), 'iter': ('for item in table', 'for (item of list)'),
        'to_vec': ('list(table)', '[...list]'), 'is_empty': ('not table', '!list.length')}


def table():
    """The table of calls: a row for those of one name, or of names that SAME has for one."""
    rows, fields = {key: [{}, {}, *({one: [one]} for one in said)] for key, said in SAID.items()}, set()
    for column, language in enumerate(('c', 'rust', 'python', 'javascript')):
        text, between = text_of(f'{LISTS}/{language}.txt'), '::' if language == 'rust' else '.'
        records = re.findall(r'^interface (\w+)', text, re.M) + re.findall(r'(\w+): struct(?:<.*>)?$', text, re.M)
        for owner, name, after in sorted({found.groups('') for found in map(re.compile(CALL).match, text.splitlines()) if found}):
            own, short = f'{owner}.{name}'.strip('.'), name.replace('goblin_', '')
            fields.update([name] * (after != '(' and owner in records))
            if after == '(' or owner and owner not in records and (own in SAME or name not in fields):
                cell = rows.setdefault(SAME.get(own, SAME.get(short, short)), [{}, {}, {}, {}])[column]
                cell.setdefault(name, []).append(owner + between * bool(owner) + name)
    shown = lambda name, all: f'`{name}` of {len(all)} types' if len(all) > 3 else ', '.join(f'`{one}`' for one in all)
    line = lambda cells: '|'.join(', '.join(shown(*one) for one in cell.items()) or '-' for cell in cells)
    return '|C|Rust|Python|JavaScript|\n|-|-|-|-|\n' + ''.join(f'|{line(rows[key])}|\n' for key in sorted(rows))


def self_test(installed):
    with tempfile.TemporaryDirectory() as folder:
        shutil.copytree('.', folder, ignore=shutil.ignore_patterns('.git', 'out', 'target', 'files'), dirs_exist_ok=True)
        shutil.copytree(f'{installed}/{PACKAGE}', f'{folder}/{PACKAGE}')
        for one, (_, path, name) in PLANTS.items():
            before, file = set(one(installed if path.startswith(PACKAGE) else '.')), next(Path(folder).glob(path))
            file.write_bytes(file.read_bytes().replace(name.encode(), f'{name[:-1]}q'.encode()))
            after = set(one(folder))
            if not before - after or any(name[:-1] not in line for line in before ^ after):
                sys.exit(f'surface: {name} is renamed in {path}, and {before ^ after} is seen')
    print(f'surface: a loss in each of {len(PLANTS)} lists is seen')


def main(*arguments):
    installed, faults = next((one for one in arguments if one[:2] != '--'), ''), []
    if '--self-test' in arguments:
        return self_test(installed)
    for one, (program, path, _) in PLANTS.items():
        stored, is_installed = Path(LISTS, f'{one.__name__}.txt'), path.startswith(PACKAGE)
        if program and not shutil.which(program) or is_installed and not installed:
            print(f'left out: {program} or an installation is missing, so {stored} is not compared')
            continue
        new = sorted(set(one(installed if is_installed else '.')))
        if '--store' in arguments:
            stored.write_text(''.join(f'{line}\n' for line in new), 'utf-8')
        faults += [f'{one.__name__}: {"new" if line in new else "lost"}: {line}' for line in sorted({*text_of(stored).splitlines()} ^ {*new})]
    page = re.sub(r'(?<=<!-- made by checks/surface.py -->\n)(.*\n)*?(?=<!-- end -->)', lambda _: table(), text_of(PAGE))
    if '--store' in arguments:
        Path(PAGE).write_text(page, 'utf-8')
    faults += [f'{PAGE}: its table of calls is another one'] * (page != text_of(PAGE))
    print(''.join(f'{fault}\n' for fault in faults) + f'surface: {len(faults)} differences')
    return bool(faults)


if __name__ == '__main__':
    sys.exit(main(*sys.argv[1:]))
