// Resolves symbols, relocations and addresses: to sections, segments, symbols and bytes of the file.
import * as goblin from '../web/goblin.js';
import { demangled } from './demangle.js';
import { number_at } from './dynamic.js';
import { called, file, is_wide, name_at, own_segments, read_or, section_at, sections, segment_of, segments,
    SYMBOL_TYPES, symbol_tables } from './file.js';
import { first_after } from './spans.js';
import { hex, name_of, once } from './text.js';

/** Reports whether the file has addresses. In an object file they are offsets in sections. */
export const has_addresses = () => file.elf.header.e_type !== goblin.ET_REL;
/** Returns the symbol table of a section, or nothing if it has another type. Throws if the table is refused. */
export const symtab_at = once((index) => {
    const section = section_at(index);
    const symtab = SYMBOL_TYPES.includes(section?.sh_type) ? file.elf.symtab(section) : undefined;
    return section?.strtab ? Object.assign(symtab, { strtab: section.strtab }) : symtab;
});
// Returns the section with the indices of sections from 65,280 on, for the symbols of a table.
const extended_of = once((table) => sections()
    .find(({ sh_type, sh_link }) => sh_type === goblin.SHT_SYMTAB_SHNDX && sh_link === table));

export function section_of_symbol(table, index, { st_shndx }) {
    if (st_shndx === goblin.SHN_XINDEX) {
        const indices = extended_of(table);
        if (!indices || BigInt(index) * 4n + 4n > indices.sh_size) return undefined;
        return Number(number_at(indices.sh_offset + BigInt(index) * 4n, 4)) || undefined;
    }
    return st_shndx === 0n || st_shndx >= goblin.SHN_LORESERVE ? undefined : Number(st_shndx);
}

// The names of each table's symbols that are read, up to a number of signs. (Searches and sorts need them again and
// again. In a damaged file each may stand for very many.)
const names = once((table) => ({ known: new Array(symtab_at(table).length), left: most_signs() }));
function noted(table, index, name) {
    const own = names(table);
    if ((own.left -= name.length) > 0) own.known[index] = name;
    return name;
}

/** Returns how many signs all names of a table have at most in a file that is not damaged. */
export const most_signs = () => 2 * file.content.length + (1 << 26);
/** Returns a symbol's name. The symbol of a section has the section's name. */
export const name_of_symbol = (table, index, symbol) =>
    names(table).known[index] ?? noted(table, index, read_name(table, index, symbol));
export const title_of_symbol = (table, index, symbol) => name_of_symbol(table, index, symbol) || `symbol ${index}`;

// How many names are read at once, and the longest string of their table then. (In a damaged one each may be all.)
const AT_ONCE = 1024, LONGEST = 1 << 14;
const has_short_strings = once((table) => {
    const { offset, size } = symtab_at(table).strtab.range,
        bytes = file.content.subarray(Number(offset), Number(offset + size));
    for (let at = 0, end; at + LONGEST < bytes.length; at += end + 1) {
        end = bytes.subarray(at, at + LONGEST + 1).lastIndexOf(0);
        if (end < 0) return false;
    }
    return true;
});

/** Iterates over the symbols of a table, at most a number, and reads their names, many at once. */
export function* named_symbols(table, most = Infinity) {
    const symtab = symtab_at(table), { known } = names(table), end = Math.min(symtab.length, most);
    for (let first = 0; first < end; first += AT_ONCE) {
        const symbols = [...symtab.from(first, Math.min(AT_ONCE, end - first))];
        const unread = [...symbols.keys()].filter((i) => known[first + i] === undefined && symbols[i].st_name);
        const is_many = has_short_strings(table) && names(table).left > 0,
            all = is_many ? unread.map((i) => symbols[i].st_name) : [];
        // (of a symbol without a name more is read, if its name is wanted)
        read_or([], () => symtab.strtab.get_all_bytes(all))
            .forEach((bytes, i) => { if (bytes?.length) noted(table, first + unread[i], name_of(bytes)); });
        yield* symbols;
    }
}

function read_name(table, index, symbol) {
    const name = symbol.st_name ? name_at(symtab_at(table).strtab, symbol.st_name) : '';
    if (name || goblin.st_type(symbol.st_info) !== goblin.STT_SECTION) return name;
    const of = section_of_symbol(table, index, symbol);
    return section_at(of) ? called(of) : '';
}

/** Returns the first symbol with each of some names in each table that has one. */
export const symbols_called = (...names) => symbol_tables().flatMap((table) => names
    .map((name) => ({ table, name, ...read_or(undefined, () => symtab_at(table).symbol_by_name(name)) })))
    .filter(({ symbol }) => symbol);

/** Returns the symbol that a link by a name leads to: the first one that is defined, or else the first one. */
export function symbol_called(name) {
    const all = symbols_called(name);
    return all.find(({ symbol }) => symbol.st_shndx) ?? all[0];
}
export const section_called = (name) => read_or(undefined, () => file.elf.section_by_name(name));

const MOST_TRIED = 10000;
/** Reports whether a table has a name of C++ that is read, among its first ones. */
export const has_mangled = once((table) => {
    let index = 0;
    for (const symbol of named_symbols(table, MOST_TRIED))
        if (demangled(name_of_symbol(table, index++, symbol))) return true;
    return false;
});

/** Returns the address of a symbol. (For ARM its lowest bit marks Thumb code. Thread-local symbols have offsets.) */
export function address_of_symbol({ st_value, st_info }) {
    const type = goblin.st_type(st_info);
    if (file.elf.header.e_machine === goblin.EM_ARM && type === goblin.STT_FUNC) return st_value & ~1n;
    return type === goblin.STT_TLS && has_addresses()
        ? (segment_of(goblin.PT_TLS)?.p_vaddr ?? 0n) + st_value : st_value;
}

// How many bytes are shown of a symbol of unknown size, and of a relocation, whose number of bytes depends on its type.
const UNSIZED = 16n, PLACE = 8n;

// Returns bytes at an address, or at an offset of an object file's section, cut at its end, or nothing.
function bytes_at(of, address, size) {
    const section = section_at(of), from = address - (has_addresses() ? section?.sh_addr ?? 0n : 0n);
    if (!section) {
        const at = has_addresses() ? offset_of_address(address) : undefined;
        return at === undefined ? undefined : { at, size: Math.min(Number(size), file.content.length - at) };
    }
    const left = section.sh_size - from;
    if (section.sh_type === goblin.SHT_NOBITS || from < 0n || left <= 0n) return undefined;
    const at = Number(section.sh_offset + from), here = file.content.length - at;
    return here > 0 ? { section: of, from, at, size: Math.min(Number(size < left ? size : left), here) } : undefined;
}

const descriptors = once(() =>
    (file.elf.header.e_machine === goblin.EM_PPC64 ? section_called('.opd')?.index : undefined));
/** Reports whether a symbol of a section is a function's descriptor, as in the first ABI of 64-bit PowerPC. Its size is
 * that of the code, which is elsewhere. */
export const is_descriptor = (of, { st_info }) =>
    of !== undefined && of === descriptors() && goblin.st_type(st_info) === goblin.STT_FUNC;

/** Returns the bytes of a symbol in the file, or some if their number is unknown, or nothing if it has none there. */
export function bytes_of_symbol(table, index, symbol) {
    const of = section_of_symbol(table, index, symbol),
        size = is_descriptor(of, symbol) ? UNSIZED : symbol.st_size || UNSIZED;
    return of === undefined ? undefined : bytes_at(of, address_of_symbol(symbol), size);
}

/** Returns the bytes that a relocation changes, or nothing if they are not in the file. */
export function place_of_relocation({ sh_info }, { r_offset }) {
    if (has_addresses()) return bytes_at(section_of_address(r_offset), r_offset, PLACE);
    return sh_info ? bytes_at(sh_info, r_offset, PLACE) : undefined;
}

const holds = (start, size, address) => start <= address && address < start + size;
export const segments_of_address = (address) => (has_addresses() ? segments().filter(({ p_type, p_vaddr, p_memsz }) =>
    p_type === goblin.PT_LOAD && holds(p_vaddr, p_memsz, address)) : []);

// Returns a function of an address: the first of some items, each with a start and a size, that holds it. (Each of many
// symbols may be in none of many sections and segments.)
function finder_of(items) {
    const ranges = items.map(([item, start, size]) => ({ item, start, end: start + size }));
    const starts = [...new Set(ranges.flatMap(({ start, end }) => [start, end]))].sort((a, b) => (a < b ? -1 : 1));
    const places = new Map(starts.map((start, i) => [start, i])), next = [...starts.keys()], holders = [];
    const free = (i) => { while (next[i] !== i) i = next[i] = next[next[i]]; return i; };
    for (const { item, start, end } of ranges)
        for (let i = places.get(start); (i = free(i)) < places.get(end); next[i] = i + 1) holders[i] = item;
    return (address) => holders[first_after(starts, address) - 1];
}
const sections_in_memory = once(() => finder_of(sections().filter(({ sh_flags, sh_type }) => sh_flags & goblin.SHF_ALLOC
    && !(sh_type === goblin.SHT_NOBITS && sh_flags & goblin.SHF_TLS))
    .map(({ index, sh_addr, sh_size }) => [index, sh_addr, sh_size])));
const loaded_segments = once(() => finder_of(own_segments().filter(({ p_type }) => p_type === goblin.PT_LOAD)
    .map((item) => [item, item.p_vaddr, item.p_filesz < item.p_memsz ? item.p_filesz : item.p_memsz])));

export const section_of_address = (address) => (has_addresses() ? sections_in_memory()(address) : undefined);

export function offset_of_address(address) {
    const segment = has_addresses() ? loaded_segments()(address) : undefined;
    const section = section_at(section_of_address(address));
    const at = segment ? segment.p_offset + address - segment.p_vaddr
        : section && section.sh_type !== goblin.SHT_NOBITS ? section.sh_offset + address - section.sh_addr : undefined;
    return at < BigInt(file.content.length) ? Number(at) : undefined;
}

export function address_of_offset(offset) {
    const at = BigInt(offset),
        is_there = ({ p_type, p_offset, p_filesz }) => p_type === goblin.PT_LOAD && holds(p_offset, p_filesz, at);
    const segment = has_addresses() ? own_segments().find(is_there) : undefined;
    return segment && BigInt.asUintN(is_wide() ? 64 : 32, segment.p_vaddr + at - segment.p_offset);
}

/** Returns the symbol for an address: its table, index and name, and the distance from its start; or nothing. */
export function symbol_of_address(address) {
    const thumb = file.elf.header.e_machine === goblin.EM_ARM ? 1n : 0n;
    const places = [...new Set([address | thumb, address])], tables = has_addresses() ? symbol_tables() : [];
    for (const [table, at] of tables.flatMap((table) => places.map((place) => [table, place]))) {
        const { index, symbol } = read_or(undefined, () => symtab_at(table).symbol_by_address(at)) ?? {};
        if (!symbol) continue;
        const start = address_of_symbol(symbol);
        if (address !== start && !holds(start, symbol.st_size, address)) continue;
        return { table, index, name: title_of_symbol(table, index, symbol), from: address - start };
    }
    return undefined;
}

export const with_offset = (name, from) => (from > 0n ? `${name} + ${hex(from)}` : name);
export const to_section = (index) => ({ text: called(index), to: `sections/${index}` });
export const to_symbol = ({ table, index, name, from = 0n }) =>
    ({ text: with_offset(name, from), to: `symbols/${table}/${index}` });
export const to_address = (address) => ({ text: hex(address), to: `address/${hex(address)}` });
export const to_offset = (offset) => ({ text: hex(offset), to: `offset/${hex(offset)}` });
