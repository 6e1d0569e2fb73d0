#!/usr/bin/env python3
"""Writes the constants of the library's records for C, Rust, JavaScript and Python.

    python3 faces/constants.py            writes the end of faces/c/goblin.h, constants.js and interface.js of faces/web, constants.py, _interface.py
                                          and _names.py of faces/python/goblin_elf, and by faces/rust/generated.py the file for Rust
    python3 faces/constants.py --made     writes only the files for JavaScript, Python and Rust
    python3 faces/constants.py --check    writes nothing, and fails if goblin.h is not what it would write, or if a constant is not in the table
                                          that the library's are compared with, crates/goblin_names/stdout
    python3 faces/constants.py --fields   prints STRUCT(name) for each struct of goblin.h, and FIELD(name, field, number) for each of its fields
                                          in order, for faces/c/tests
    python3 faces/constants.py --nulls    prints a program whose lines pass a null pointer for each argument that may not be null, and read no
                                          status, for a test of what compilers warn of

The names, values, types and comments are those of crates/goblin_headers and crates/goblin_records, and of faces/other_constants.rs for what
the library doesn't have. So a constant is written by hand only there. Git has goblin.h, because it is read as documentation. It ignores the
others, which faces/install.sh makes, and the one for Rust also cargo; by hand they must be made before node or Python reads them.

Flags of sections and indices of sections get the type of the field that holds them: `sh_flags` and `st_shndx`. What the dynamic section holds
has 64 bits. Each language also gets what goblin.h declares, and the number of the interface.
"""
import os
import re
import struct
import subprocess
import sys
import textwrap

ROOT = os.path.dirname(os.path.dirname(os.path.abspath(__file__)))
WIDTH = 120
HEADER = 'faces/c/goblin.h'
# Each record: its name in Rust, its crate, its title in JavaScript and C, and what its file in Rust holds.
RECORDS = [
    ('header', 'goblin_headers', 'file headers', "The constants of a file's header"),
    ('program_header', 'goblin_headers', 'program headers', 'The constants of program headers'),
    ('section_header', 'goblin_headers', 'section headers', 'The constants of section headers'),
    ('sym', 'goblin_records', 'symbols', 'The constants of symbols'),
    ('reloc', 'goblin_records', 'relocations', 'The sizes of relocations'),
    ('note', 'goblin_records', 'notes', 'The constants of notes'),
    ('dynamic', 'goblin_dynamic', 'the dynamic section', 'The constants of the dynamic section'),
    ('other', '', 'what the library does not have', 'Constants that the library does not have'),
]
# What stands elsewhere.
MORE = {'program_header': ['crates/goblin_headers/src/whole_part.rt'], 'other': ['faces/other_constants.rs'],
        'dynamic': ['crates/goblin_dynamic/src/tags.rt', 'crates/goblin_dynamic/src/entry.rt']}
CLASSES = (32, 64)
MADE = "Made by faces/constants.py of the library's constants: do not edit."


class Constant:
    """A constant of the library, with the lines of its comment, and with what stands before it: a heading, an empty line."""

    def __init__(self, name, kind, value, comment, heading, is_apart):
        self.name, self.kind, self.value = name, kind, value
        self.comment, self.heading, self.is_apart = comment, heading, is_apart

    def prefix(self):
        return self.name.split('_')[0]

    def is_text(self):
        return self.value.startswith('b"')

    def is_list(self):
        return self.value.startswith('[')

    def items(self):
        """The names in a list."""
        return re.findall(r'\w+', self.value)

    def has_wide_field(self):
        """Whether it is held by a field of 64 bits."""
        return self.kind == 'u64' or self.prefix() in ('SHF', 'SHN') and 'u32' in self.kind


def path_of(name):
    return os.path.join(ROOT, *name.split('/'))


def read(name):
    with open(path_of(name), encoding='utf-8') as file:
        return file.read()


def constants_in(name):
    """The constants of a source in Rattle, in its order."""
    constants, comment, heading, is_apart, statement = [], [], '', False, ''
    for line in read(name).split('\n'):
        if statement or line.startswith('pub const '):
            statement += line.strip() if statement.endswith(('[', ',')) else line
            if statement.endswith(';'):
                match = re.fullmatch(r'pub const (\w+): ([^=]+) = (.+);', statement)
                constants.append(Constant(*match.groups(), comment, heading, is_apart))
                comment, heading, is_apart, statement = [], '', False, ''
        elif line.startswith('///'):
            comment.append(line[4:])
        elif line == '':
            is_apart = True
        else:
            # (a heading stands before an empty line and a comment; all else has no constant)
            comment, heading = [], line[3:] if line.startswith('// ') else ''
    return constants


def constants_of(record, crate):
    """The constants of a record for both classes."""
    names = [f'crates/{crate}/src/constants_{record}.rt', *MORE.get(record, [])]
    return [constant for name in names if os.path.exists(path_of(name)) for constant in constants_in(name)]


def constants_of_class(record, crate, bits):
    """The constants of a record for one class."""
    name = f'crates/{crate}/src/{record}{bits}.rt'
    return constants_in(name) if os.path.exists(path_of(name)) else []


def listed(constants, write, heading_format, has_gaps=True):
    """The constants as some text each, with their headings and the empty lines between them."""
    text = ''
    for constant in constants:
        if constant.heading:
            text += '\n' + heading_format.format(constant.heading) + '\n' * (1 + has_gaps)
        elif constant.is_apart and has_gaps:
            text += '\n'
        text += write(constant)
    return text


# ---- JavaScript ----

def js_value(constant):
    if constant.is_text():
        return f'Object.freeze([{", ".join(f"0x{byte:02x}" for byte in bytes_of(constant))}])'
    if constant.is_list():
        names = textwrap.fill(', '.join(constant.items()) + ',', WIDTH, initial_indent='    ', subsequent_indent='    ')
        return f'Object.freeze([\n{names}\n])'
    value = constant.value.replace('_', '') if re.match(r'\d', constant.value) else constant.value
    return re.sub(r'\b(\d\w*)', r'\1n', value) if constant.has_wide_field() else value


def js_comment(constant, indent=''):
    text = re.sub(r'\[(`\w+`)\]', r'\1', ' '.join(constant.comment))
    if len(constant.comment) == 1:
        return f'{indent}/** {text} */\n'
    lines = textwrap.fill(text, WIDTH + 8, initial_indent=f'{indent} * ', subsequent_indent=f'{indent} * ', break_on_hyphens=False)
    return f'{indent}/**\n{lines}\n{indent} */\n'


def js_constant(constant):
    return f'{js_comment(constant)}export const {constant.name} = {js_value(constant)};\n'


def js_object(record, bits, constants):
    fields = ''.join(f'{js_comment(constant, "    ")}    {constant.name}: {js_value(constant)},\n' for constant in constants)
    return f'\n/** What the {bits}-bit class has of its own. */\nexport const {record}{bits} = Object.freeze({{\n{fields}}});\n'


def interface():
    """Returns the number of the interface."""
    return re.search(r'^#define GOBLIN_VERSION (\d+)$', read(HEADER), re.M)[1]


def version():
    """Returns the version of all that is installed."""
    return re.search(r'^#define GOBLIN_VERSION_STRING "(.+)"$', read(HEADER), re.M)[1]


def js_file():
    text = f"""// The constants of goblin's ELF layer; goblin.js exports them all. The flags and the indices of sections are BigInts, as the fields
// that hold them are: `sh_flags` and `st_shndx`. But `e_shstrndx` is a Number: compare it with `Number(SHN_XINDEX)`.
// {MADE}

/** The number of the interface: `GOBLIN_VERSION` of `goblin.h`. */
export const VERSION = {interface()};
"""
    for record, crate, title, _ in RECORDS:
        text += f'\n// ---- {title} ----\n' + listed(constants_of(record, crate), js_constant, '// {}')
        for bits in CLASSES:
            constants = constants_of_class(record, crate, bits)
            text += js_object(record, bits, constants) if constants else ''
    return text


# The structs that are items, with their names in JavaScript, the fields that are BigInts though C has them in fewer than 64 bits, and the kinds
# of refusals that no call for C returns.
JS_ITEMS = {'range': 'Range', 'header': 'Header', 'section': 'SectionHeader', 'segment': 'ProgramHeader', 'symbol': 'Sym', 'reloc': 'Reloc',
            'dyn': 'Dyn'}
JS_WIDE = ('sh_name', 'st_name', 'st_shndx', 'r_sym')
JS_KINDS = [(f'{words} This kind is of goblin.js.', name, value) for words, name, value in (
    ('No section has the number of the symbols that the dynamic section has: their address.', 'NOT_COUNTED', '0xfffffff9'),
    ('A number is to be written in bytes that are not 1, 2, 4 or 8: how many.', 'NUMBER_WIDTH', '0xfffffffa'),
    ('An item is to be written past the end of its list: its index.', 'NO_ITEM', '0xfffffffb'),
    ('Of strings that are read at once no zero byte closes one: its offset in the table.', 'OPEN_STRING', '0xfffffffd'),
    ('The value of an entry of the dynamic section is the offset of no string: its tag; its value.', 'NO_STRING', '0xfffffffe'),
    ('A section was read as symbols or relocations, and has another type: its type.', 'SECTION_TYPE', '0xffffffff'))]


def js_lines(text, indent):
    return textwrap.fill(text, WIDTH, initial_indent=' * ', subsequent_indent=f' * {indent}', break_on_hyphens=False) + '\n'


def js_type(field, code):
    return 'bigint' if code in 'Qq' or field in JS_WIDE else 'number'


def js_item(name, comment, fields):
    text = f'\n/**\n{js_lines(comment.split(". ")[0].rstrip(".") + ".", "")} * @typedef {{object}} {JS_ITEMS[name]}\n'
    for field, code, words in fields:
        kind = js_type(field, code)
        if field == 'r_addend':
            kind, words = 'bigint | undefined', 'the addend, or `undefined` if the relocation has none of its own'
        text += js_lines(f'@property {{{kind}}} {field} {words}'.rstrip(), '  ')
    return text + ' */\n'


def js_struct(name, fields):
    """A struct with its size, and its fields, each with its offset in C, its number of bytes, or `s` if it is signed, and its type."""
    codes = ''.join(code for _, code, _ in fields)
    rows = ((field, struct.calcsize(f'{codes[:i]}0{code}'), 's' if code == 'q' else struct.calcsize(code), js_type(field, code))
            for i, (field, code, _) in enumerate(fields))
    return f'    {name}: {{ size: {struct.calcsize(codes + "0Q")}, fields: [\n' + ''.join(f'        {list(row)},\n' for row in rows) + '    ] },\n'


def js_interface():
    kinds, parts, calls = declared()
    kinds, all_structs = kinds + JS_KINDS, list(structs())
    numbers = [f'{{\n{"".join(f"    {name}: {value},{chr(10)}" for name, value in pairs)}}}' for pairs in ([kind[1:] for kind in kinds], parts)]
    return f"""// What goblin.h declares: its refusals, its structs and its calls.
// {MADE.replace("the library's constants", HEADER)}

/**
 * The kinds of refusals. After the colon are the `numbers` that belong to a kind, in order.
{''.join(js_lines(f'- `{name}`. {words}', '  ') for words, name, _ in kinds)} */
export const Kind = Object.freeze({numbers[0]});

/** What a refusal is about, if its kind alone does not say it: the numbers of `item`. */
export const Item = Object.freeze({numbers[1]});
{''.join(js_item(name, comment, fields) for name, comment, fields in all_structs if name in JS_ITEMS)}
// The structs, as goblin_layout marks them.
export const STRUCTS = {{
{''.join(js_struct(name, fields) for name, _, fields in all_structs)}}};

// The calls.
export const CALLS = [
{textwrap.fill(', '.join(f"'goblin_{name}'" for name, _ in calls), WIDTH, initial_indent='    ', subsequent_indent='    ')},
];
"""


# ---- Python ----

# The constants that make an enumeration, by the start of their names, and those whose values are flags.
GROUPS = re.compile(r'(ELFCLASS|ELFDATA|ELFOSABI|ELF_NOTE_OS|NT_GNU|NT|ET|EM|PT|PF|SHN|SHT|SHF|STB|STT|STV|DT)(?=_|NONE|NUM|\d)')
FLAGS = ('PF', 'SHF')
# The ends of ranges, which come after all other members, so that a number that also has a name of its own gets that one.
BOUND = re.compile(r'_(LO|HI)(OS|PROC|SUNW|USER|RESERVE)$|NUM$')


def py_group(constant):
    """The name of the enumeration that a constant is a member of, or an empty name."""
    match = GROUPS.match(constant.name)
    return match[1] if match and not constant.is_list() and 'NUM_' not in constant.name else ''


def py_value(constant):
    if constant.is_text():
        return repr(bytes_of(constant))
    if constant.is_list():
        names = textwrap.fill(', '.join(constant.items()) + ',', WIDTH, initial_indent='    ', subsequent_indent='    ')
        return f'(\n{names}\n)'
    return re.sub(r'(?<=[\da-f])_(?=[\da-f])', '', constant.value)


def py_comment(constant, indent):
    text = re.sub(r'\[(`\w+`)\]', r'\1', ' '.join(constant.comment))
    return textwrap.fill(text, WIDTH, initial_indent=f'{indent}# ', subsequent_indent=f'{indent}# ', break_on_hyphens=False) + '\n'


def py_enumeration(name, constants):
    kind = 'IntFlag' if name in FLAGS else 'IntEnum'
    text = f'\n\nclass {name}(enum.{kind}):\n    """The constants {name}, as Python integers."""\n\n'
    for constant in sorted(constants, key=lambda constant: bool(BOUND.search(constant.name))):
        text += py_comment(constant, '    ') + f'    {constant.name} = {py_value(constant)}\n'
    if kind == 'IntFlag':
        # (since Python 3.11 `~` of a flag would have the known flags alone)
        text += '\n    def __invert__(self) -> int:  # type: ignore[override]\n        return ~int(self)\n'
    return text + '\n\n' + ''.join(f'{constant.name} = {name}.{constant.name}\n' for constant in constants)


def py_file():
    groups, others = {}, []
    for record, crate, _, _ in RECORDS:
        constants = constants_of(record, crate)
        known = {constant.name for constant in constants}
        for constant in constants:
            group = py_group(constant)
            (groups.setdefault(group, []) if group else others).append((constant.name, constant))
        for bits in CLASSES:
            more = constants_of_class(record, crate, bits)
            others += [(f'{constant.name}{bits}', constant) for constant in more if f'{constant.name}{bits}' not in known]
    text = f"""\"\"\"The constants of goblin's ELF layer, by the standard's names.

{MADE}
\"\"\"
import enum

"""
    for name, members in groups.items():
        text += py_enumeration(name, [constant for _, constant in members])
    for name, constant in others:
        text += '\n' + py_comment(constant, '') + f'{name} = {py_value(constant)}\n'
    names = [*groups, *(name for members in groups.values() for name, _ in members), *(name for name, _ in others)]
    lines = textwrap.fill(', '.join(map(repr, names)) + ',', WIDTH, initial_indent='    ', subsequent_indent='    ')
    return f'{text}\n# What `from goblin_elf.constants import *` imports.\n__all__ = [\n{lines}\n]\n'


# What goblin.h declares, for the module _interface.py: the structs that are items, with the class of their tables, and the types of C as
# codes of Python's module struct. `z` is a size_t, `b` a bool, and `p` any pointer.
ITEMS = {'header': '', 'section': 'Sections', 'segment': 'Segments', 'symbol': 'Symbols', 'reloc': 'Relocations', 'dyn': 'Dynamic'}
# The fields of items in the order of comparisons and of `repr`, where it is not that of the struct.
ORDER = {name: fields.split() for name, fields in {
    'section': 'sh_offset sh_size sh_name sh_flags sh_addr sh_addralign sh_entsize sh_type sh_link sh_info',
    'segment': 'p_offset p_filesz p_vaddr p_paddr p_memsz p_align p_type p_flags',
    'symbol': 'st_name st_value st_size st_shndx st_info st_other', 'reloc': 'r_offset r_sym r_addend r_type'}.items()}
CODES = {'uint64_t': 'Q', 'int64_t': 'q', 'uint32_t': 'I', 'uint16_t': 'H', 'uint8_t': 'B', 'size_t': 'z', 'bool': 'b', 'void': '-'}


def words_of(comment):
    """A comment of C as one line, with the names of Python."""
    return re.sub(r'\ba (?=[ES]\w*_ )', 'an ', re.sub(r'\bGOBLIN_(?:REFUSED_|ITEM_)?', '', ' '.join(comment.split())))


def structs(in_c=False, words=words_of):
    """Yields each struct that goblin_layout marks: its name, its comment, and its fields, each with its code and comment. A range is two fields,
    whose names are those of Python or of C."""
    pattern = r'(?:/\* ([^/]*?) \*/\n)?typedef struct \{\n(.*?)^\} goblin_(\w+)_t;'
    for comment, body, name in re.findall(pattern, read(HEADER), re.M | re.S):
        if name in ('file', 'layout'):
            continue
        fields, declared = [], re.findall(r'^ +(\w+) (\w+);(?: +/\*(.*?)\*/)?', body, re.M | re.S)
        if len(declared) != re.sub(r'/\*.*?\*/', '', body, flags=re.S).count(';'):
            sys.exit(f'constants.py: each field of goblin_{name}_t must have a line of its own')
        for kind, field, text in declared:
            if kind != 'goblin_range_t':
                fields.append((field, CODES.get(kind), words(text)))
                continue
            # (the standard's names of its two numbers)
            names = {'section': ('sh_offset', 'sh_size'), 'segment': ('p_offset', 'p_filesz')}.get(name, (f'{field}_offset', f'{field}_size'))
            names = (f'{field}.offset', f'{field}.size') if in_c else names
            fields += [(names[0], 'Q', words(text)), (names[1], 'Q', '')]
        yield name, words(comment), fields


def ordered(name, fields):
    """Returns the indexes of a struct's fields in the order of its item."""
    names = [field for field, _, _ in fields]
    return tuple(map(names.index, ORDER.get(name, names)))


def numbers_in(comment):
    """How many numbers a refusal has, by its comment."""
    return len(comment.split(': ')[1].split('. ')[0].split(';')) if ': ' in comment else 0


def declared():
    """Returns what goblin.h declares: the kinds of refusals with their comments, the items, and the calls with their types."""
    header = read(HEADER)
    refusals, items = re.findall(r'^enum \w+ \{\n(.*?)^\};', header, re.M | re.S)[:2]
    pattern = r'/\* ((?:(?!\*/).)*) \*/\n +GOBLIN_REFUSED_(\w+) = (\d+)'
    kinds = [(words_of(comment.split('*/')[-1]), name, value) for comment, name, value in re.findall(pattern, refusals, re.S)]
    calls = [(name, CODES[result] + ''.join('p' if '*' in argument else CODES[argument.split()[0]] for argument in arguments.split(',')))
             for result, name, arguments in re.findall(r'^(\w+) goblin_(\w+)\(([^)]*)\)[^;)]*(?:\(\(.*\)\))?;', header, re.M)]
    # (not each item has a comment)
    return kinds, re.findall(r'GOBLIN_ITEM_(\w+) = (\d+)', items), calls


def py_members(name, comment, members):
    text = f'\n\nclass {name}(Named):\n    """{comment}"""\n\n'
    return text + ''.join(textwrap.indent(textwrap.fill(words, WIDTH, initial_indent='# ', subsequent_indent='# '), '    ') + '\n'
                          + f'    {member} = {value}\n' for words, member, value in members)


def py_item(name, comment, fields):
    in_order = (fields[index] for index in ordered(name, fields))
    of_item = [(field, 'Optional[int]' if field == 'r_addend' else 'int', words) for field, _, words in in_order]
    if ITEMS[name]:
        of_item += [('index', 'int', 'the index in its table'), ('table', f"'{ITEMS[name]}'", 'its table')]
    text = f'\n\nclass {name.capitalize()}Fields:\n    """{comment}"""\n    __slots__ = ()\n'
    for field, kind, words in of_item:
        words = 'the addend, or `None` if the relocation has none of its own' if field == 'r_addend' else words or field
        doc = textwrap.fill(f'"""{words[0].upper()}{words[1:].rstrip(".")}."""', WIDTH, initial_indent=' ' * 8, subsequent_indent=' ' * 8)
        text += f'\n    @property\n    def {field}(self) -> {kind}:\n{doc}\n        raise NotImplementedError\n'
    return text


def py_interface():
    kinds, parts, calls = declared()
    all_structs = list(structs())
    text = f"""\"\"\"What goblin.h declares: its number, its refusals, its structs and its calls.

{MADE.replace("the library's constants", HEADER)}
\"\"\"
import enum
from typing import TYPE_CHECKING, Optional

if TYPE_CHECKING:
    from ._items import {', '.join(sorted(filter(None, ITEMS.values())))}

# The number of the interface, GOBLIN_VERSION of goblin.h, and the version of the package.
INTERFACE = {interface()}
VERSION = '{version()}'


class Named(enum.IntEnum):
    \"\"\"A number with a name, which `print` and f-strings show on each version of Python.\"\"\"

    def __str__(self) -> str:
        return self.name

    def __format__(self, form: str) -> str:
        return format(int(self), form) if form else self.name

    @classmethod
    def _missing_(cls, value: object) -> Optional['Named']:
        # (a later library may have more)
        if not isinstance(value, int):
            return None
        member = int.__new__(cls, value)
        member._name_, member._value_ = f'OTHER_{{value}}', value
        return member
"""
    kinds += [('Strings of a table that are read at once overlap: how many have more bytes than are read; the table\'s size. This kind is the '
               'package\'s own.', 'OVERLAP', '0xfffffffc'),
              ('Of strings that are read at once no zero byte of the table closes one: its offset in the table. This kind is the package\'s own.',
               'OPEN_STRING', '0xfffffffd'),
              ('The value of an entry of the dynamic section is the offset of no string: its tag; its value. This kind is the package\'s own.',
               'NO_STRING', '0xfffffffe'),
              ('A section was read as symbols or relocations, and has another type: its type. This kind is the package\'s own.', 'SECTION_TYPE',
               '0xffffffff')]
    text += py_members('Kind', 'The kinds of refusals. After the colon are the numbers that belong to a kind, in order.', kinds)
    text += '\n\nclass Item(Named):\n    """What a refusal is about, if its kind alone does not say it."""\n\n'
    text += ''.join(f'    {name} = {value}\n' for name, value in parts)
    for name, comment, fields in all_structs:
        text += py_item(name, comment, fields) if name in ITEMS else ''
    text += '\n\n# How many numbers belong to each kind.\nNUMBERS = {\n'
    text += ''.join(f'    Kind.{name}: {numbers_in(words)},\n' for words, name, _ in kinds)
    text += '}\n\n# The fields of each struct, their codes in the module struct, and their indexes in the order of comparisons.\nSTRUCTS = {\n'
    text += ''.join(f"    '{name}': ({tuple(field for field, _, _ in fields)!r}, '{''.join(code for _, code, _ in fields)}', "
                    f'{ordered(name, fields)}),\n' for name, _, fields in all_structs)
    text += '}\n\n# The result of each call, and then its arguments: p a pointer, z a size_t, b a bool, - nothing, else as in the module struct.\n'
    return text + 'CALLS = {\n' + ''.join(f"    '{name}': '{codes}',\n" for name, codes in calls) + '}\n'


def py_names():
    text = f'''"""The names of numbers, as the library has them.

{MADE.replace("the library's constants", HEADER)}
"""
from ._library import text, unsigned
'''
    pattern = r'/\* Writes the name of ((?:(?!\*/).)*)\n +Example: (?:(?!\*/).)* \*/\nuint64_t goblin_(\w+_to_str)\(([^)]*)\);'
    for comment, name, arguments in re.findall(pattern, read(HEADER), re.S):
        kind, number = arguments.split(', ')[-3].split()
        lines = textwrap.fill(f'"""Returns the name of {words_of(comment)}"""', WIDTH - 4)
        value = f'unsigned({number}, {kind[4:-2]})'
        if 'name_len' not in arguments:
            text += f'\n\ndef {name}({number}: int) -> str:\n{textwrap.indent(lines, "    ")}\n    return text({name!r}, {value})\n'
            continue
        text += f'\n\ndef {name}(name: str, {number}: int) -> str:\n{textwrap.indent(lines, "    ")}\n'
        text += f"    encoded = name.encode('utf-8', 'surrogateescape')\n    return text({name!r}, encoded, len(encoded), {value})\n"
    return text


# ---- C ----

def nulls():
    """Yields for each argument that a declaration of goblin.h lists by its number a call that passes a null pointer for it."""
    declared = re.findall(r'^\w+ (goblin_\w+)\(([^()]*)\)\s+GOBLIN_(?:STATUS|GIVEN)\(\(([\d, ]+)\)\);', read(HEADER), re.M)
    for call, parameters, listed_ones in declared:
        kinds = [re.fullmatch(r'(.*?)\w+', ' '.join(parameter.split()))[1] for parameter in parameters.split(',')]
        for number in map(int, listed_ones.split(',')):
            given = ['NULL' if i == number else f'({kind.strip()})p' if '*' in kind else '0' for i, kind in enumerate(kinds, 1)]
            yield f'    {call}({", ".join(given)});'


START = '/* ---- constants ----\n'
END = '\n#endif\n'


def bytes_of(constant):
    return constant.value[2:-1].encode().decode('unicode_escape').encode('latin-1')


def c_value(constant):
    if constant.is_text():
        # (an octal escape ends after three digits, whatever follows it)
        signs = (chr(byte) if 0x20 <= byte < 0x7f else f'\\{byte:03o}' for byte in bytes_of(constant))
        return '"' + ''.join(signs) + '"'
    if constant.is_list():
        names = textwrap.wrap(', '.join(f'GOBLIN_{name}' for name in constant.items()), WIDTH - 6, break_on_hyphens=False)
        return '{ \\\n' + ''.join(f'    {line} \\\n' for line in names) + '}'
    value = re.sub(r'(?<=[\da-f])_(?=[\da-f])', '', constant.value)
    value = re.sub(r'\b([A-Z]\w*)', r'GOBLIN_\1', value)
    # (a symbol's index of a section has 16 bits in C)
    if constant.has_wide_field() and constant.prefix() != 'SHN':
        value = re.sub(r'^(\d\w*)', r'UINT64_C(\1)', value)
    elif not constant.is_text():
        # (a shift has the type of its first operand)
        value = re.sub(r'(?<!<< )\b(\d\w*)', r'\1u', value)
    return f'({value})' if ' ' in value else value


def c_constant(suffix, known):
    def write(constant):
        definition = f'#define GOBLIN_{constant.name}{suffix} {c_value(constant)}'
        comment = re.sub(r'\[?`(\w+)`\]?', lambda match: f'GOBLIN_{match[1]}' if match[1] in known else match[1],
                         ' '.join(constant.comment))
        if constant.is_list() or len(definition) + len(comment) + 7 > WIDTH:
            lines = textwrap.fill(f'/* {comment} */', WIDTH, subsequent_indent='   ', break_on_hyphens=False)
            return f'{lines}\n{definition}\n'
        return f'{definition} /* {comment} */\n'
    return write


def c_part():
    records = [(title, constants_of(record, crate), {bits: constants_of_class(record, crate, bits) for bits in CLASSES})
               for record, crate, title, _ in RECORDS]
    known = {constant.name for _, constants, _ in records for constant in constants}
    text = START + f"""
   The library's constants. Each has the standard's name after GOBLIN_, so this file and <elf.h> can be included
   together. Flags of sections (sh_flags) have 64 bits, as their field has, so `section.sh_flags & ~GOBLIN_SHF_WRITE`
   clears one bit alone.

   {MADE} */
"""
    for title, constants, of_class in records:
        text += f'\n/* -- {title} -- */\n' + listed(constants, c_constant('', known), '/* {} */', False)
        # (the class byte of a class is a constant already)
        own = ''.join(c_constant(bits, known)(constant) for bits, more in of_class.items() for constant in more
                      if f'{constant.name}{bits}' not in known)
        text += own
    return text


def c_file():
    text = read(HEADER)
    if text.count(START) != 1 or not text.endswith(END):
        sys.exit(f'constants.py: goblin.h must have one line {START.strip()!r}, and end with a line {END.strip()!r}')
    return text[:text.index(START)] + c_part() + END


def write(name, text):
    """Writes a file and returns True, or returns False if the file has this text."""
    path = path_of(name)
    if os.path.exists(path) and read(name) == text:
        return False
    os.makedirs(os.path.dirname(path), exist_ok=True)
    # (it may be root's, after an installation by sudo)
    if os.path.exists(path):
        os.remove(path)
    with open(path, 'w', encoding='utf-8') as file:
        file.write(text)
    return True


def missing():
    """The paths of the library's constants that are not in the table."""
    table = {line.split()[0] for line in read('crates/goblin_names/stdout').splitlines()}
    files = [name for record, crate, _, _ in RECORDS if crate for name in
             [*MORE.get(record, []), *(f'crates/{crate}/src/{file}.rt' for file in (f'constants_{record}', f'{record}32', f'{record}64'))]]
    paths = [f'{os.path.basename(name)[:-3].replace("constants_", "")}::{constant.name}' for name in files if os.path.exists(path_of(name))
             for constant in constants_in(name)]
    return [path for path in paths if path not in table]


def main(arguments):
    if arguments not in ([], ['--made'], ['--check'], ['--fields'], ['--nulls']):
        sys.exit('usage: python3 faces/constants.py [--made | --check | --fields | --nulls]')
    if arguments == ['--nulls']:
        print('#include "goblin.h"', 'void nulls(void *p);', 'void nulls(void *p) {', *nulls(), '}', sep='\n')
        return 0
    if arguments == ['--fields']:
        for name, _, fields in structs(in_c=True):
            print(f'STRUCT({name})', *(f'FIELD({name}, {field}, {number})' for number, (field, _, _) in enumerate(fields, 1)), sep='\n')
        return 0
    is_stale = read(HEADER) != c_file()
    if arguments == ['--check']:
        if is_stale:
            print(f'{HEADER} does not have the constants of the library: run python3 faces/constants.py')
        for path in missing():
            print(f'crates/goblin_names/stdout does not have {path}')
        return 1 if is_stale or missing() else 0
    write('faces/web/constants.js', js_file())
    write('faces/web/interface.js', js_interface())
    for name, text in [('constants', py_file()), ('_interface', py_interface()), ('_names', py_names())]:
        write(f'faces/python/goblin_elf/{name}.py', text)
    if is_stale and not arguments:
        write(HEADER, c_file())
        print(f'{HEADER} is written anew')
    subprocess.run([sys.executable, path_of('faces/rust/generated.py')], check=True)
    return 0


if __name__ == '__main__':
    sys.exit(main(sys.argv[1:]))
