// The file that the worker reads, and what modules share of it: sizes, names of sections, and texts of refusals.
import * as goblin from '../web/goblin.js';
import { count, hex, name_of, NAME, once, two_digits } from './text.js';

export const file = { elf: undefined, bytes: new Uint8Array(0), has_segments: true,
    get content() { return this.elf?.bytes ?? this.bytes; } };
export const is_wide = () => file.elf.is_64();

// The fields of records in files of each class, with sizes of other than 4 bytes. A `w` is 4 or 8, by the class.
const RECORDS = {
    header: ['magic ei_class:1 ei_data:1 ei_version:1 ei_osabi:1 ei_abiversion:1 padding:7 e_type:2 e_machine:2'
        + ' e_version e_entry:w e_phoff:w e_shoff:w e_flags e_ehsize:2 e_phentsize:2 e_phnum:2 e_shentsize:2'
        + ' e_shnum:2 e_shstrndx:2'],
    section: ['sh_name sh_type sh_flags:w sh_addr:w sh_offset:w sh_size:w sh_link sh_info sh_addralign:w sh_entsize:w'],
    segment: ['p_type p_offset p_vaddr p_paddr p_filesz p_memsz p_flags p_align',
        'p_type p_flags p_offset:w p_vaddr:w p_paddr:w p_filesz:w p_memsz:w p_align:w'],
    symbol: ['st_name st_value st_size st_info:1 st_other:1 st_shndx:2',
        'st_name st_info:1 st_other:1 st_shndx:2 st_value:w st_size:w'],
    rel: ['r_offset r_type:1 r_sym:3', 'r_offset:w r_type r_sym'],
    rela: ['r_offset r_type:1 r_sym:3 r_addend', 'r_offset:w r_type r_sym r_addend:w'],
    note: ['n_namesz n_descsz n_type'],
};

export function fields_at(kind, start) {
    const is_symbol_first = !file.elf.little_endian() || (file.elf.header.e_machine === goblin.EM_MIPS && is_wide());
    const form = RECORDS[kind][Number(is_wide())] ?? RECORDS[kind][0], width = is_wide() ? 8 : 4;
    let at = start;
    return (is_symbol_first ? form.replace(/(r_type\S*) (r_sym\S*)/, '$2 $1') : form).split(' ').map((text) => {
        const [name, own = 4] = text.split(':'), size = own === 'w' ? width : Number(own);
        return { name, at: (at += size) - size, size };
    });
}

export const size_of = (kind) => fields_at(kind, 0).reduce((sum, { size }) => sum + size, 0);
export const header_at = (kind, index) =>
    Number(file.elf.header[kind === 'section' ? 'e_shoff' : 'e_phoff']) + index * size_of(kind);
export const RELR = 19;
export const ALPHA = 0x9026;
export const SYMBOL_TYPES = [goblin.SHT_SYMTAB, goblin.SHT_DYNSYM];
export const RELOCATION_TYPES = [goblin.SHT_REL, goblin.SHT_RELA, RELR];

// Returns the result of reading a part, or that of a function for its refusal.
function read_part(read, refused) {
    try {
        return read();
    } catch (error) {
        if (!(error instanceof goblin.GoblinError)) throw error;
        return refused(error);
    }
}

export const part = (read, refused) => read_part(read, (error) => ({ refused: refused(error) }));
/** Returns the result of reading a part, or a default if it is refused. */
export const read_or = (other, read) => read_part(read, () => other);

/** Returns a refusal: the library's text, what was read, the bytes that hold its offset, and perhaps what it means. */
export const refusal = ({ message: text, kind }, what, marks, words) => ({ text, kind, what, marks, words });

// Returns in words that something ends past the end of the file, or nothing if it doesn't.
function words_of_cut(what, start, size) {
    const end = BigInt(file.content.length), [verb, at] = start >= end ? ['begin', start] : ['end', start + size];
    if (start + size <= end) return undefined;
    return `${what} ${verb} at ${hex(at)}, the file ends at ${hex(end)}: it is cut, or the numbers are wrong.`;
}

export function header_refusal(error) {
    const { BAD_MAGIC, ELF_CLASS, DATA_TYPE } = goblin.Kind, whole = [0, Math.min(64, file.content.length)];
    const [at, size] = { [BAD_MAGIC]: [0, 8], [ELF_CLASS]: [4, 1], [DATA_TYPE]: [5, 1] }[error.kind] ?? whole;
    return refusal(error, 'the file header, at 0x0', [{ at, size }]);
}

const marks_of = (kind, at, ...names) => fields_at(kind, at).filter(({ name }) => names.includes(name));

export function list_refusal(error, what, offset, number) {
    const { header } = file.elf;
    const values = `${number} ${count(header[number])}, ${offset} ${hex(header[offset])}, `
        + `file size ${count(file.content.length)} bytes`;
    const size = BigInt(header[number] * size_of(number === 'e_shnum' ? 'section' : 'segment'));
    return refusal(error, `${what}: ${values}`, marks_of('header', 0, offset, number),
        words_of_cut(what.replace('t', 'T'), header[offset], size));
}

// Returns the refusal of a range, with the bytes of its header that say where it is.
function range_refusal(error, what, title, offset, size, marks) {
    const values =
        `${what}: offset ${hex(offset)}, size ${hex(size)}, in a file of ${count(file.content.length)} bytes`;
    return refusal(error, values, marks, words_of_cut(`The bytes of ${title}`, offset, size));
}

export function section_refusal(error, what, index) {
    const { sh_offset, sh_size } = section_at(index), is_own = typeof index === 'string';
    const marks = is_own ? [] : marks_of('section', header_at('section', index), 'sh_offset', 'sh_size');
    const words = `${what} of ${is_own ? '' : 'section '}${index}`;
    return range_refusal(error, words, called(index), sh_offset, sh_size, marks);
}

export function segment_refusal(error, index) {
    const { p_offset, p_filesz } = file.elf.program_header(index);
    const marks = fields_at('segment', header_at('segment', index));
    return range_refusal(error, `the bytes of segment ${index}`, `segment ${index}`, p_offset, p_filesz, marks);
}

/** Returns the bytes of a range as hexadecimal digits, those past a number of bytes as an ellipsis. */
export function digits_of({ offset, size }, most = Infinity) {
    const bytes = file.content.subarray(Number(offset), Number(offset + size)).subarray(0, most);
    return Array.from(bytes, two_digits).join('') + (size > most ? '…' : '');
}

/** Tables that the dynamic section leads to, and no section header, as sections, by the names of their tags. */
export const own_sections = new Map();
/** Returns a section, by its index, or one of the page's own, by its name, or nothing without either. */
export const section_at = (index) => (typeof index === 'number' ? sections()[index] : own_sections.get(index));
// Returns the items of a list, each with its index, or none if the list is refused.
const indexed = (list) => read_or([], list).map((item, index) => Object.assign(item, { index }));
export const sections = once(() => indexed(() => file.elf.section_headers()));
export const segments = once(() => indexed(() => file.elf.program_headers()));
/** Returns the segments whose bytes are in the file: none of a debug file, as those are in another one. */
export const own_segments = () => (file.has_segments ? segments() : []);
export const segment_of = (type) => segments().find(({ p_type }) => p_type === type);
export const all_sections = () => [...sections(), ...own_sections.values()];
/** Reports whether a section has debug information, which its name says. */
export const is_debug = (section) => !(section.sh_flags & 2n)
    && /^\.(z?debug_|gdb_index|stab|line$)/.test(name_of_section(section));
/** How many tables of a kind are listed and searched at most. */
export const MOST_TABLES = 200;
/** Returns the indices of the first symbol tables, of which one of the page's own has a name instead. */
export const symbol_tables = () => all_sections().filter(({ sh_type }) => SYMBOL_TYPES.includes(sh_type))
    .slice(0, MOST_TABLES).map(({ index }) => index);

/** Returns the name at an offset of a table, cut if it is long, or an empty text without a name or a table. */
export function name_at(strtab, offset) {
    const bytes = read_or(undefined, () => strtab.get_start(offset, NAME + 1));
    return bytes ? name_of(bytes) : '';
}

const section_names = once(() => file.elf.shdr_strtab());
export const name_of_section = ({ sh_name }) => name_at(section_names(), sh_name);
/** Returns the title of a section: its name, or its index if it has none. */
export const called = (index, section = section_at(index)) =>
    (typeof index === 'string' ? index : name_of_section(section) || `section ${index}`);
