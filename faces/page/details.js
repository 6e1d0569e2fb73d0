// What the side of the page shows of an item or a location: a title, fields with links, and blocks of the file's bytes.
import * as goblin from '../web/goblin.js';
import { registers_of } from './core.js';
import { demangled } from './demangle.js';
import { called, fields_at, file, header_at, name_of_section, part, RELOCATION_TYPES, RELR, section_at, section_refusal,
    sections, segment_refusal, size_of, SYMBOL_TYPES, read_or } from './file.js';
import * as labels from './labels.js';
import { addend, section_word, symbol_of_relocation } from './lists.js';
import { title_of } from './notes.js';
import { kind_of, kind_of_segment, part_at, parts, pieces_at, title_of_segment } from './pieces.js';
import { address_of_offset, address_of_symbol, with_offset, bytes_of_symbol, has_addresses, is_descriptor,
    name_of_symbol, offset_of_address, place_of_relocation, section_called, section_of_address, section_of_symbol,
    segments_of_address, symbol_called, symbol_of_address, symtab_at, title_of_symbol, to_address, to_offset,
    to_section, to_symbol } from './resolve.js';
import { count, hex, in_bytes } from './text.js';

const { named, prefixed } = labels;
// Returns a field: its name, its value, its meaning, and its links, as `{ text, to }`.
const field = (name, value, meaning = '', ...links) =>
    ({ name, value: `${value}`, meaning, links: links.filter((link) => link) });
// Returns the fields of an item with their values, of which some are decimal, and their meanings or links.
const DECIMAL = /^(sh_link|sh_info|sh_addralign|sh_entsize|st_size)$/;
const fields_of = (item, given) => Object.entries(given).map(([name, words]) =>
    field(name, DECIMAL.test(name) ? item[name] : hex(item[name]), ...[words].flat()));
// Returns a field's link to an address, if the file has addresses and something is loaded there.
const at_address = (address) =>
    (has_addresses() && address > 0n && is_address(address) ? { ...to_address(address), text: 'address' } : undefined);
const at_offset = (offset) =>
    (Number(offset) < file.content.length ? { ...to_offset(offset), text: 'offset' } : undefined);
// Returns a location by a name, if the name is whole and UTF-8, and leads to what has it.
const link_by_name = (kind, name, is_there) => (name && name.isWellFormed() && !name.endsWith('…') && is_there(name)
    ? `${kind}=${encodeURIComponent(name)}` : undefined);

const record = (word, kind, at, size = size_of(kind)) => ({ word, at, size, fields: fields_at(kind, at) });
const entry = (of, index, kind) =>
    record(`entry in ${called(of)}`, kind, Number(section_at(of).sh_offset) + index * size_of(kind));

// Returns the bytes of a range, or their refusal.
function block(word, range, refused) {
    const found = part(() => range() ?? {}, refused);
    return found.offset === undefined ? { word, ...found }
        : { word, at: Number(found.offset), size: Number(found.size) };
}

const from_place = (section) =>
    (section === undefined ? 'from its place on' : `from its place in ${called(section)} on`);
const to_section_number = (index) => (index > 0 && section_at(index) ? to_section(index) : undefined);

// Returns the link of a section's sh_info, if it has one: to a section, or to the symbol that identifies a group.
function info_link({ sh_type, sh_flags, sh_info, sh_link }) {
    if (RELOCATION_TYPES.includes(sh_type) || sh_flags & goblin.SHF_INFO_LINK) return to_section_number(sh_info);
    return sh_type === goblin.SHT_GROUP ? symbol_link(sh_link, sh_info) : undefined;
}

function symbol_link(table, index) {
    const symbol = index ? read_or(undefined, () => symtab_at(table)?.get(index)) : undefined;
    return symbol && to_symbol({ table, index, name: title_of_symbol(table, index, symbol) });
}

const INFO_WORDS = { [goblin.SHT_SYMTAB]: 'symbols that are local', [goblin.SHT_DYNSYM]: 'symbols that are local' };

function list_of({ sh_type }, index) {
    if (SYMBOL_TYPES.includes(sh_type)) return { text: 'its symbols', to: `symbols/${index}` };
    if (RELOCATION_TYPES.includes(sh_type)) return { text: 'its relocations', to: `relocations/${index}` };
    return undefined;
}

function section_details(item, index) {
    const { sh_type, sh_flags, sh_addr, sh_offset, sh_size, sh_link } = item;
    return {
        title: called(index, item), what: `section ${count(index)}`, kind: kind_of(item),
        link: link_by_name('section', name_of_section(item), (own) => section_called(own)?.index === index),
        fields: fields_of(item, {
            sh_name: '', sh_type: [prefixed('SHT_', labels.section_type(sh_type)), list_of(item, index)],
            sh_flags: labels.section_flags(sh_flags), sh_addr: ['', sh_flags & 2n ? at_address(sh_addr) : undefined],
            sh_offset: ['', at_offset(sh_offset)], sh_size: in_bytes(sh_size),
            sh_link: ['', to_section_number(sh_link)], sh_info: [INFO_WORDS[sh_type] ?? '', info_link(item)],
            sh_addralign: '', sh_entsize: '',
        }),
        blocks: [block('bytes', () => file.elf.range(item), (error) => section_refusal(error, 'the bytes', index)),
            record('section header', 'section', header_at('section', index))],
    };
}

// How many sections of a segment, and segments of an address, are named at most.
const MOST_NAMED = 24;

function segment_details(item, index) {
    const { p_type, p_flags, p_offset, p_vaddr, p_filesz, p_memsz } = item;
    const inside = sections().filter((section) => section.index && goblin.segment_holds(item, section));
    const first = inside.slice(0, MOST_NAMED).map(({ index: of }) => to_section(of)),
        is_cut = inside.length > MOST_NAMED;
    return {
        title: title_of_segment(index, item),
        what: `segment ${count(index)} of ${count(file.elf.program_headers().length)}`,
        kind: kind_of_segment(item),
        fields: [
            ...fields_of(item, {
                p_type: prefixed('PT_', labels.segment_type(p_type)), p_flags: labels.segment_flags(p_flags),
                p_offset: ['', at_offset(p_offset)], p_vaddr: ['', at_address(p_vaddr)], p_paddr: '',
                p_filesz: in_bytes(p_filesz), p_memsz: in_bytes(p_memsz), p_align: '',
            }),
            first.length > 0 && field('sections', '', is_cut ? `the first ${MOST_NAMED}` : '', ...first),
        ],
        blocks: [block('bytes', () => file.elf.range(item), (error) => segment_refusal(error, index)),
            record('program header', 'segment', header_at('segment', index))],
    };
}

// Returns the field of a name of C++ as it is written there, if it is one that is read.
const in_source = (name) => demangled(name) && field('demangled', demangled(name), 'not proved');

// Reports whether a symbol is another one or that one in another table.
const is_same = (symbol, { st_value, st_shndx }) => symbol?.st_value === st_value && symbol.st_shndx === st_shndx;

function symbol_details(item, index, table) {
    const { st_size, st_info, st_other } = item, name = name_of_symbol(table, index, item);
    const of = section_of_symbol(table, index, item), place = bytes_of_symbol(table, index, item);
    const bind = goblin.st_bind(st_info), type = goblin.st_type(st_info), visibility = goblin.st_visibility(st_other);
    const section = section_at(of), address = of === undefined ? undefined : at_address(address_of_symbol(item));
    const info = `${prefixed('STB_', labels.symbol_binding(bind))} (${bind}), `
        + `${prefixed('STT_', labels.symbol_type(type))} (${type})`;
    return {
        title: title_of_symbol(table, index, item),
        what: `symbol ${count(index)} of ${called(table)}`,
        kind: section && kind_of(section),
        // (without a name of its own it has that of its section)
        link: link_by_name('symbol', item.st_name ? name : '', (own) => is_same(symbol_called(own)?.symbol, item)),
        fields: [
            in_source(name),
            ...fields_of(item, {
                st_name: '', st_value: [place?.section ? with_offset(called(of), place.from) : '', address],
                st_size: in_bytes(st_size), st_info: info,
                st_other: `${prefixed('STV_', labels.symbol_visibility(visibility))} (${visibility})`,
                st_shndx: of === undefined ? section_word(table, index, item)
                    : [`section ${of}`, to_section_number(of)],
            }),
        ],
        blocks: [...(place ? [{ ...place,
                word: !place.section ? 'bytes' : is_descriptor(of, item) ? `descriptor in ${called(of)}`
                    : st_size ? `bytes in ${called(of)}` : from_place(of) }] : []),
            entry(table, index, 'symbol')],
    };
}

function relocation_details(item, index, of) {
    const section = section_at(of), { r_offset, r_type, r_sym } = item;
    const place = place_of_relocation(section, item), name = symbol_of_relocation(section.sh_link, item);
    const target = !has_addresses() && place
        ? { ...to_offset(place.at), text: with_offset(called(place.section), place.from) } : undefined;
    const changed = has_addresses() ? symbol_of_address(r_offset) : undefined, is_packed = section.sh_type === RELR;
    return {
        title: is_packed ? `packed relocation ${count(index)}` : name || labels.relocation_type(r_type),
        what: `relocation ${count(index)} of ${called(of)}`, kind: 'relocations',
        fields: [
            in_source(name),
            field('r_offset', hex(r_offset), '', target ?? at_address(r_offset), changed && to_symbol(changed)),
            ...(is_packed ? [field('type', 'relative, packed')] : [
                field('r_type', r_type, named('', labels.relocation_type(r_type))),
                field('r_sym', r_sym, '', symbol_link(section.sh_link, r_sym)), field('r_addend', addend(item))]),
        ],
        blocks: [...(place ? [{ ...place, word: from_place(place.section) }] : []),
            is_packed ? block('all of them', () => ({ offset: section.sh_offset, size: section.sh_size }))
                : entry(of, index, item.r_addend === undefined ? 'rel' : 'rela')],
    };
}

function note_details(item, index, by) {
    const { note, holder, start, end, thread } = item, type = labels.note_type(note);
    const of = { text: holder.title, to: `${by}/${holder.index}` },
        is_status = note.name === 'CORE' && type === 'PRSTATUS';
    const registers = is_status && file.elf.header.e_type === goblin.ET_CORE ? registers_of(item) : [];
    return {
        title: title_of(item), what: `note ${count(index)} of ${by}`, kind: 'notes',
        fields: [field('name', note.name),
            field('n_type', hex(note.n_type), named('NT_', type)),
            field('n_descsz', note.desc_range.size, in_bytes(note.desc_range.size)), field('from', '', '', of),
            thread !== undefined && field('thread', thread),
            registers.length > 0 && field('registers', '', 'not proved: read by this page, by numbers'),
            ...registers.map(([register, value]) => field(register, hex(value), '', at_address(value)))],
        blocks: [block('descriptor', () => note.desc_range),
            record('whole note', 'note', start, Math.min(end, file.content.length) - start)],
    };
}

function part_details(index) {
    const { starts, ends, depths } = parts(), [start, end, depth] = [starts[index], ends[index], depths[index]];
    const [top, ...others] = pieces_at(index), bytes = top ?? { start, end };
    const link = ({ title, to }) => ({ text: title, to });
    return {
        title: top?.title ?? 'gap', kind: top?.kind,
        what: depth > 1 ? `part ${count(index)}, ${depth} pieces overlap` : `part ${count(index)}`,
        fields: [field('from', hex(start), '', at_address(address_of_offset(start) ?? 0n)), field('to', hex(end)),
            top && field('piece', '', '', link(top)), others.length > 0 && field('also', '', '', ...others.map(link))],
        blocks: [{ word: 'bytes', at: bytes.start, size: bytes.end - bytes.start }],
    };
}

const LISTS = { sections: section_details, segments: segment_details, symbols: symbol_details,
    relocations: relocation_details, notes: note_details, layout: part_details };
export const item_details = (source, { list, index, of }) => LISTS[list](source.list.get(index), index, of);

export function offset_details(offset) {
    const index = part_at(offset), pieces = pieces_at(index);
    const end = pieces[0]?.end ?? parts().ends[index], address = address_of_offset(offset);
    const inside = pieces.map(({ title, to, start }) => ({ text: with_offset(title, BigInt(offset - start)), to }));
    const symbol = address === undefined ? undefined : symbol_of_address(address);
    return {
        title: `offset ${hex(offset)}`, what: pieces[0] ? `in ${pieces[0].title}` : 'in a gap', kind: pieces[0]?.kind,
        fields: [inside.length > 0 && field('in', '', '', ...inside),
            address !== undefined && field('address', hex(address), '', at_address(address)),
            symbol && field('symbol', '', '', to_symbol(symbol))],
        blocks: [{ word: 'bytes from there on', at: offset, size: end - offset }],
    };
}

export const is_address = (address) => segments_of_address(address).length > 0
    || section_of_address(address) !== undefined || symbol_of_address(address) !== undefined;

export function address_details(address) {
    const inside = segments_of_address(address), symbol = symbol_of_address(address), at = offset_of_address(address);
    const index = section_of_address(address), section = section_at(index);
    const to_segment = (segment) => ({ text: with_offset(title_of_segment(segment.index, segment),
        address - segment.p_vaddr), to: `segments/${segment.index}` });
    const of = section && { ...to_section(index), text: with_offset(called(index), address - section.sh_addr) };
    const pieces = at === undefined ? [] : pieces_at(part_at(at));
    return {
        title: `address ${hex(address)}`,
        what: symbol ? `in ${symbol.name}` : section ? `in ${called(index)}` : 'in memory',
        kind: section ? kind_of(section) : pieces[0]?.kind,
        fields: [symbol && field('symbol', '', '', to_symbol(symbol)), of && field('section', '', '', of),
            inside.length > 0 && field('segment', '', inside.length > MOST_NAMED ? `the first ${MOST_NAMED}` : '',
                ...inside.slice(0, MOST_NAMED).map(to_segment)),
            at === undefined ? field('offset', 'none', 'no bytes in the file')
                : field('offset', hex(at), '', at_offset(at))],
        blocks: at === undefined ? []
            : [{ word: 'bytes from there on', at, size: (pieces[0]?.end ?? file.content.length) - at }],
    };
}

const to_headers = (offset) => (offset ? at_offset(offset) : undefined);

// Returns a function that says of a number that is none itself which field of section 0 has it.
const in_first = (none, field_of_it) => (number) =>
    (number === none && sections().length > 0 ? `${field_of_it} of section 0 has it` : '');

// What each field means, in a few words, and functions of its number that return its name and its link, if it has them.
const FIELDS = {
    ei_class: ['class', (number) => named('', labels.file_class(number))],
    ei_data: ['byte order', (number) => (number === 2 ? 'big endian' : 'little endian')],
    ei_version: ['version of the format'],
    ei_osabi: ['operating system and ABI', (number) => named('ELFOSABI_', labels.osabi(number))],
    ei_abiversion: ['version of the ABI'],
    e_type: ['what the file is', (number) => named('ET_', labels.file_type(number))],
    e_machine: ['machine', (number) => named('EM_', labels.machine(number))],
    e_version: ['version of the format, once more'],
    e_entry: ['address at which the program starts', undefined, at_address],
    e_phoff: ['offset of the program headers', undefined, to_headers],
    e_shoff: ['offset of the section headers', undefined, to_headers],
    e_flags: ['flags of the machine'], e_ehsize: ['size of this header'], e_phentsize: ['size of a program header'],
    e_phnum: ['number of program headers', in_first(0xffff, 'sh_info')],
    e_shentsize: ['size of a section header'], e_shnum: ['number of section headers', in_first(0, 'sh_size')],
    e_shstrndx: ['index of the section with the names of sections', in_first(0xffff, 'sh_link'),
        (number) => to_section_number(number === 0xffff ? sections()[0]?.sh_link : number)],
};

export function header_fields() {
    const { header } = file.elf;
    return record('ELF header', 'header', 0).fields.filter(({ name }) => FIELDS[name]).map(({ name, at, size }) => {
        const [words, meaning, link] = FIELDS[name], number = header[name];
        const value = /^e_(entry|phoff|shoff|flags)$/.test(name) ? hex(number) : number;
        return { at, size, words, ...field(name, value, meaning?.(number), link?.(number)) };
    });
}
