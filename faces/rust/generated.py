#!/usr/bin/env python3
"""Writes src/generated.rs, which git ignores: the library's constants and names of numbers, and of goblin.h the structs and what is refused.

    python3 faces/rust/generated.py           writes it, as build.rs does in the repository, and faces/constants.py for all languages
    python3 faces/rust/generated.py --check   writes nothing, and fails if the file is not what it would write

Flags and indices of sections get the type of the field that holds them: `sh_flags` and `st_shndx`.
"""
import os
import re
import sys
import textwrap

sys.dont_write_bytecode = True
sys.path.append(os.path.dirname(os.path.dirname(os.path.abspath(__file__))))
import constants  # noqa: E402 pylint: disable=wrong-import-position

NAME = 'faces/rust/src/generated.rs'
# The structs by their names in Rust, and what the public type of a struct that differs from it is: its name, and the fields with other types.
STRUCTS = {'refusal': 'Refusal', 'range': 'Range', 'header': 'Header', 'section': 'Section', 'segment': 'ProgramHeader', 'symbol': 'Symbol',
           'reloc': 'Reloc', 'note': 'Note', 'dyn': 'Dyn'}
PUBLIC = {'section': ('SectionHeader', {'sh_name': 'usize'}), 'symbol': ('Sym', {'st_name': 'usize', 'st_shndx': 'usize'})}
SIZES = {'sh_size': 'Its size: see `sh_offset`.', 'p_filesz': 'Its size in the file: see `p_offset`.'}
TYPES = {'Q': 'u64', 'q': 'i64', 'I': 'u32', 'H': 'u16', 'B': 'u8'}
# The numbers of a kind that have names, with their types if these are not u64.
NUMBERS = {'TOO_BIG': 'size len', 'BAD_INPUT': 'size', 'SYMTAB_OFFSET': 'offset len', 'SYMTAB_PAST': 'requested available',
           'STRTAB_OFFSET': 'offset len', 'STRTAB_RANGE': 'size offset len overflow:bool', 'NO_STRING': 'tag value'}
OF_DYNAMIC = '[`Error::offset`](crate::Error::offset) is that of the dynamic section.'
# The kinds of errors that are this crate's own, whose numbers the library doesn't use: the comment of each, as those of goblin.h are.
OWN = {
    'SECTION_TYPE': 'A section was read as symbols or relocations, which [`Error::item`](crate::Error::item) returns, and has another type:'
                    ' its type, an `SHT_` number',
    'NO_STRING': 'The value of an entry of the dynamic section is the offset of no string: its tag, a `DT_` number; its value. ' + OF_DYNAMIC,
    'NO_ITEM': 'An item was to be written at an index past the end of its list, of which [`Error::offset`](crate::Error::offset) is that:'
               ' the index',
    'NUMBER_WIDTH': 'A number was to be written in so many bytes, which are not 1, 2, 4 or 8: the bytes',
    'NOT_LOADED': 'An entry of the dynamic section has an address that no segment loads from the file: the address. ' + OF_DYNAMIC,
    'NOT_COUNTED': 'The dynamic section has the address of symbols, but no section of type `SHT_DYNSYM` has their number: the address. '
                   + OF_DYNAMIC,
    'OPEN_STRING': 'Of strings that are read at once, the table has no zero byte that closes one: its offset in the table',
}
# What an error is about, for the names of goblin.h and two of this crate's own.
ITEMS = {'INVALID_UTF8': 'A name that is not UTF-8.', 'SECTION_HEADERS': 'The section headers.', 'PROGRAM_HEADERS': 'The program headers.',
         'NOTE_HEADER': 'The header of a note, for notes that are read as bytes.',
         'NOTE_NAME': 'The name of a note, for notes that are read as bytes.',
         'NOTE_DESC': 'The descriptor of a note, for notes that are read as bytes.',
         'ADDEND': 'The addend of a relocation that is to be written, where its section has none, or that it lacks.',
         'SYMBOLS': 'Symbols, which a section was read as.', 'RELOCATIONS': 'Relocations, which a section was read as.'}
# What Rust calls what comments of goblin.h name.
WORDS = [(r'\bgoblin_segment_count\b', '[`Elf::program_headers`](crate::Elf::program_headers)'),
         (r'\bgoblin_names_section\b', '[`Elf::shdr_strtab`](crate::Elf::shdr_strtab)'), (r'\(uint64_t\)r_addend', '`r_addend as u64`'),
         (r'\bGOBLIN_ST_\w+', lambda match: f'`{match[0][7:].lower()}`'), (r'^1 if (.*), else 0\b', r'whether \1'),
         (r'`item` is', '[`Error::item`](crate::Error::item) is'), (r'the calls whose names end with _utf8', 'calls that return a `str`'),
         (r'\b(GOBLIN_ITEM_\w+)', lambda match: f'`{camel(match[1][12:])}`'), (r'\ba (?=GOBLIN_[ES]\w*_ )', 'an '),
         (r'\bGOBLIN_(?:REFUSED_)?(\w+)', r'`\1`'), (r'(?<![`\w])((?:e|ei|sh|p|st|r|d)_\w+)', r'`\1`')]


def camel(name):
    return ''.join(word.capitalize() for word in name.split('_'))


def words_of(comment):
    """A comment of goblin.h as a sentence, in the names of Rust."""
    text = ' '.join(comment.split())
    for pattern, instead in WORDS:
        text = re.sub(pattern, instead, text)
    return text[:1].upper() + text[1:] + ('' if text.endswith('.') or not text else '.')


def doc(text):
    lines = textwrap.wrap(text, constants.WIDTH - 8, initial_indent='/// ', subsequent_indent='/// ', break_on_hyphens=False)
    return ''.join(f'{line}\n' for line in lines)


def indented(text):
    return textwrap.indent(text, '    ')


# ---- constants ----

def constant_of(constant):
    kind, value = constant.kind, constant.value
    if constant.has_wide_field():
        kind = kind.replace('u32', 'u64' if constant.prefix() == 'SHF' else 'usize')
    if constant.is_list():
        value = '[\n' + ''.join(f'    {name},\n' for name in constant.items()) + ']'
    return ''.join(f'/// {line}\n' for line in constant.comment) + f'pub const {constant.name}: {kind} = {value};\n'


def modules():
    text, paths = '', []
    for record, crate, _, content in constants.RECORDS:
        listed = constants.constants_of(record, crate)
        paths += [(record, record, constant.name) for constant in listed]
        body = constants.listed(listed, constant_of, '// {}')
        for bits in constants.CLASSES:
            more = constants.constants_of_class(record, crate, bits)
            paths += [(f'{record}{bits}', f'{record}::{record}{bits}', constant.name) for constant in more]
            used = set(re.findall(r'\b[A-Z]\w+', ' '.join(constant.value for constant in more))) - {constant.name for constant in more}
            use = ''.join(f'use super::{name};\n' for name in sorted(used))
            own = (use + constants.listed(more, constant_of, '// {}')).lstrip('\n')
            body += f'\n/// What the {bits}-bit class has of its own.\npub mod {record}{bits} {{\n{indented(own)}}}\n' if more else ''
        text += f'\n/// {content}.\npub mod {record} {{\n' + indented(body.lstrip('\n')) + '}\n'
    rows = ''.join(f'    ("{module}::{name}", &{path}::{name}),\n' for module, path, name in paths)
    return f'{text}\n#[cfg(test)]\npub static ALL: &[(&str, &(dyn core::fmt::Debug + Sync))] = &[\n{rows}];\n'


def names():
    """The names of numbers, as crates/goblin_names prints them: each from a number on, up to that of the next line."""
    text = ''
    lines = re.findall(r'^(\w+_to_str|note of "(?:GNU|CORE)") (\d+) (\w+)$', constants.read('crates/goblin_names/stdout'), re.M)
    for table in dict.fromkeys(table for table, _, _ in lines):
        # (notes of any other name have those of GNU)
        name = re.sub(r'note of "(\w+)"', r'note_type_\1', table).replace('_to_str', '').upper()
        # (no name has a space)
        pairs = textwrap.fill(' '.join(f'({number},_"{text}"),' for of, number, text in lines if of == table), constants.WIDTH - 8)
        text += f'pub static {name}: &[(u32, &str)] = &[\n{indented(pairs.replace(",_", ", "))}\n];\n'
    return f'\n/// The names of numbers: each is that of its number and of those up to the next one.\npub mod names {{\n{indented(text)}}}\n'


# ---- what goblin.h declares ----

def record(name, title, fields):
    body = ''.join(doc(comment) + f'{field}: {kind},\n' for field, kind, comment in fields)
    return doc(title) + f'{name} {{\n{indented(body)}}}\n'


def records():
    text, conversions = '', ''
    for name, _, fields in constants.structs(words=words_of):
        typed = [(field, TYPES[code], comment or SIZES.get(field, '')) for field, code, comment in fields]
        text += record(STRUCTS[name], f'`goblin_{name}_t` of `goblin.h`.', typed)
        if name not in PUBLIC:
            continue
        public, wide = PUBLIC[name]
        ordered = [(typed[index][0], wide.get(*typed[index][:2]), typed[index][2]) for index in constants.ordered(name, fields)]
        text += record(public, f'The fields of `goblin_{name}_t` of `goblin.h`, with the types and the order of goblin.', ordered)
        both = ', '.join(field for field, _, _ in fields)
        widened = ', '.join(f'{field}: {field} as {wide[field]}' if field in wide else field for field, _, _ in fields)
        cut = ', '.join(f'{field}: {field} as {kind}' if field in wide else field for field, kind, _ in typed)
        conversions += f"""
impl From<{STRUCTS[name]}> for {public} {{
    #[inline]
    fn from({STRUCTS[name]} {{ {both} }}: {STRUCTS[name]}) -> Self {{
        {public} {{ {widened} }}
    }}
}}

impl {public} {{
    /// Returns it as C has it, whose {' and '.join(wide)} may be cut.
    pub(crate) fn cut(&self) -> {STRUCTS[name]} {{
        let {public} {{ {both} }} = *self;
        {STRUCTS[name]} {{ {cut} }}
    }}
}}
"""
    return f'\ncrate::raw::records! {{\n{indented(text)}}}\n{conversions}'


def kind_of(name, comment, number):
    """A kind's variant, and the line that makes it of a refusal."""
    what, _, numbers = comment.partition(': ')
    numbers, _, more = numbers.partition('. ')
    numbers, named = numbers.split('; ') if numbers else [], NUMBERS.get(name, '').split()
    values = ['why.first', 'why.second', 'why.third', 'why.fourth'][:len(numbers)]
    if named:
        pairs = [(field + ':u64').split(':')[:2] for field in named]
        values = [value + ' != 0' if kind == 'bool' else value for value, (_, kind) in zip(values, pairs)]
        fields = ''.join(doc(words_of(text)) + f'{field}: {kind},\n' for text, (field, kind) in zip(numbers, pairs))
        made = ', '.join(f'{field}: {value}' for (field, _), value in zip(pairs, values))
        variant, made = f' {{\n{indented(fields)}}}', f' {{ {made} }}'
        comment = f'{what}. {more}'.strip()
    elif numbers:
        kind = 'u8' if numbers[0] in ('the byte', 'the byte.') else 'u32' if name == 'SECTION_TYPE' else 'u64'
        variant, made = f'({kind})', f'({values[0]}{"" if kind == "u64" else " as " + kind})'
    else:
        variant = made = ''
    return doc(words_of(comment)) + f'{camel(name)}{variant},\n', f'{number} => Kind::{camel(name)}{made},\n'


def enumeration(name, variants, made, result):
    """An enumeration, and what makes it of a refusal, by lines of a match."""
    return f"""
#[derive(Clone, Copy, Debug, PartialEq, Eq, Hash)]
#[non_exhaustive]
#[allow(missing_docs)]
pub enum {name} {{
{indented(variants)}}}

impl {name} {{
    pub(crate) fn of(why: &Refusal) -> {result} {{
        match why.{name.lower()} {{
{indented(indented(indented(made)))}        }}
    }}
}}
"""


def refusals():
    of_kinds, of_items = re.findall(r'^enum \w+ \{\n(.*?)^\};', constants.read(constants.HEADER), re.M | re.S)[:2]
    of_kinds = re.findall(r'/\* ((?:(?!\*/).)*) \*/\n +GOBLIN_REFUSED_(\w+) = (\d+)', of_kinds, re.S)
    of_items = re.findall(r'GOBLIN_ITEM_(\w+) = (\d+)', of_items)
    kinds = [kind_of(name, ' '.join(comment.split()), number) for comment, name, number in of_kinds]
    kinds += [kind_of(name, comment, name) for name, comment in OWN.items()]
    kinds.append(('/// The number of an error of a later version of the library.\nOther(u32),\n', 'other => Kind::Other(other),\n'))
    items = of_items + [(name, f'ITEM_{name}') for name in ITEMS if name not in dict(of_items)]
    # (this crate refuses addends, too)
    numbers = [('INTEGER_FIT', {name: number for _, name, number in of_kinds}['INTEGER_FIT']), ('ITEM_ADDEND', dict(of_items)['ADDEND'])]
    numbers += [(name, f'u32::MAX - {index}') for index, name in enumerate([*OWN, 'ITEM_SYMBOLS', 'ITEM_RELOCATIONS'], 1)]
    return ('\n// The numbers of kinds and items that this crate refuses itself.\n'
            + ''.join(f'pub const {name}: u32 = {number};\n' for name, number in numbers)
            + enumeration('Kind', ''.join(variant for variant, _ in kinds), ''.join(made for _, made in kinds), 'Kind')
            + enumeration('Item', ''.join(doc(ITEMS[name]) + f'{camel(name)},\n' for name, _ in items),
                          ''.join(f'{number} => Some(Item::{camel(name)}),\n' for name, number in items) + '_ => None,\n', 'Option<Item>'))


def calls():
    """The calls that goblin.h declares."""
    types = {'uint64_t': 'u64', 'uint32_t': 'u32', 'uint16_t': 'u16', 'uint8_t': 'u8', 'size_t': 'usize', 'void': 'core::ffi::c_void',
             'goblin_layout_t': 'core::ffi::c_void', 'goblin_file_t': 'raw::File'}
    types.update((f'goblin_{name}_t', f'raw::{of_rust}') for name, of_rust in STRUCTS.items())

    def argument(declared):
        constant, kind, pointer, name = re.fullmatch(r'(const )?(\w+) (\*?)(\w+)', ' '.join(declared.split())).groups()
        return f'{name}{"_" * (name == "type")}: {("*const " if constant else "*mut ") if pointer else ""}{types.get(kind, kind)}'

    text = ''
    for result, name, arguments in re.findall(r'^(\w+) (goblin_\w+)\(([^)]*)\)[^;)]*(?:\(\(.*\)\))?;', constants.read(constants.HEADER), re.M):
        taken = '' if arguments == 'void' else ', '.join(map(argument, arguments.split(',')))
        text += f'pub fn {name}({taken}){"" if result == "void" else f" -> {types.get(result, result)}"};\n'
    return ('\n/// The calls that `goblin.h` declares.\n#[allow(dead_code)]\npub mod calls {\n    use crate::raw;\n    extern "C" {\n'
            f'{indented(indented(text))}    }}\n}}\n')


def rust_file():
    return f"""//! What this crate has of the library's constants and names, and of goblin.h.
// Made by faces/rust/generated.py: do not edit.

/// The interface that the calls are of: `GOBLIN_VERSION` of `goblin.h`.
pub const VERSION: u32 = {constants.interface()};
{modules()}{names()}{records()}{refusals()}{calls()}"""


def main(arguments):
    if arguments not in ([], ['--check']):
        sys.exit('usage: python3 faces/rust/generated.py [--check]')
    if not arguments:
        constants.write(NAME, rust_file())
    elif not os.path.exists(constants.path_of(NAME)) or constants.read(NAME) != rust_file():
        sys.exit(f'{NAME} is not what faces/rust/generated.py makes of the library and goblin.h')


if __name__ == '__main__':
    main(sys.argv[1:])
