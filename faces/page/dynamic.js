// What the entries of the dynamic section lead to: versions, tables of symbols and relocations, and packed relocations.
// The library reads the entries and their strings. The rest is read here by numbers, and what it means is not proved.
import * as goblin from '../web/goblin.js';
import { ALPHA, file, is_wide, name_at, own_sections, read_or, RELR, sections, size_of,
    SYMBOL_TYPES } from './file.js';
import { once } from './text.js';

// How many versions, and how many symbols of a hash table, packed relocations or words of these are read at most.
const MOST_VERSIONS = 4096, MOST_ITEMS = 1n << 20n, END = (1n << 64n) - 1n;

const word = () => (is_wide() ? 8n : 4n);
/** Returns a number at an offset of the file, or 0 if it is not inside. */
export const number_at = (at, width) =>
    (at + BigInt(width) > BigInt(file.content.length) ? 0n : file.elf.number(at, Number(width)));
export const value_of = once((tag) => read_or(undefined, () => file.elf.dynamic_value(tag)));
// Returns the offset in the file of what is loaded at the address that is the value of a tag.
const offset_of = (tag) => (value_of(tag) === undefined ? undefined
    : read_or(undefined, () => file.elf.address_to_offset(value_of(tag))));
const strtab = once(() => read_or(file.elf.strtab(), () => file.elf.dynamic_strings()));

/** Returns the versions that are needed of each library, by its name. */
export function versions() {
    const all = new Map(), name_in = (at) => name_at(strtab(), number_at(at, 4));
    let left = MOST_VERSIONS;
    // Yields the offset of each of some records. At 12 each has the distance to the next one.
    function* chain(at, count) {
        for (let next = at; next && count > 0n && left > 0; next = number_at(at + 12n, 4), at += next, count--, left--)
            yield at;
    }
    for (const at of chain(offset_of(goblin.DT_VERNEED), value_of(goblin.DT_VERNEEDNUM))) {
        const name = name_in(at + 4n), names = chain(at + number_at(at + 8n, 4), number_at(at + 2n, 2));
        all.set(name, [...(all.get(name) ?? []), ...Array.from(names, (aux) => name_in(aux + 8n))]);
    }
    return all;
}

// Returns the number of dynamic symbols: that of the hash table, or of the last chain of GNU's, which an odd one ends.
function symbol_count() {
    const hash = offset_of(goblin.DT_HASH), gnu = offset_of(goblin.DT_GNU_HASH);
    const wide = [goblin.EM_S390, ALPHA].includes(file.elf.header.e_machine) ? word() : 4n;
    if (hash !== undefined || !gnu) return hash === undefined ? 0n : number_at(hash + wide, wide);
    const [buckets, first, blooms] = [0n, 4n, 8n].map((at) => number_at(gnu + at, 4));
    const item = (index) => number_at(gnu + 16n + blooms * word() + 4n * index, 4);
    let last = first - 1n;
    for (let at = 0n; at < buckets && at < MOST_ITEMS; at++) if (item(at) > last) last = item(at);
    for (const most = last + MOST_ITEMS; last >= first && last < most && !(item(buckets + last - first) & 1n);) last++;
    return last + 1n;
}

/** Adds the tables of symbols and relocations that the dynamic section leads to, if no section header does. */
export function find_own_sections() {
    const lacks = (...types) => !sections().some(({ sh_type }) => types.includes(sh_type));
    const add = (tag, sh_type, sh_size, links = { sh_link: 'DT_SYMTAB' }) => {
        const sh_offset = offset_of(goblin[tag]);
        if (sh_offset !== undefined && sh_size)
            own_sections.set(tag, { index: tag, sh_type, sh_offset, sh_size: sh_size < END ? sh_size : END, ...links });
    };
    const { SHT_REL, SHT_RELA, SHT_DYNSYM } = goblin, has_addends = value_of(goblin.DT_PLTREL) === goblin.DT_RELA;
    if (lacks(...SYMBOL_TYPES))
        add('DT_SYMTAB', SHT_DYNSYM, symbol_count() * BigInt(size_of('symbol')), { sh_link: 0, strtab: strtab() });
    if (lacks(RELR)) add('DT_RELR', RELR, value_of(goblin.DT_RELRSZ));
    if (!lacks(SHT_REL, SHT_RELA)) return;
    add('DT_RELA', SHT_RELA, value_of(goblin.DT_RELASZ));
    add('DT_REL', SHT_REL, value_of(goblin.DT_RELSZ));
    add('DT_JMPREL', has_addends ? SHT_RELA : SHT_REL, value_of(goblin.DT_PLTRELSZ));
}

// Returns up to where packed relocations are read. Throws if they are not inside the file.
function packed_end({ sh_offset, sh_size }) {
    const width = word(), most = MOST_ITEMS * width, end = sh_size < most ? sh_size : most;
    if (end >= width) file.elf.number_in({ sh_type: RELR, sh_offset, sh_size }, sh_size - width, Number(width));
    return end;
}

// How many bits of a byte are set.
const BITS = Uint8Array.from({ length: 256 }, (_, byte) => byte.toString(2).replaceAll('0', '').length);

/** Returns the number of packed relocations, without their offsets. (A file may have many sections of the same.) */
export function packed_length(section) {
    const width = Number(word()), end = Number(packed_end(section)), lowest = file.elf.little_endian() ? 0 : width - 1;
    const start = Number(section.sh_offset), bytes = file.content.subarray(start, start + end);
    let length = 0;
    for (let at = 0; at + width <= end && length < MOST_ITEMS; at += width) {
        let bits = 0;
        for (let i = at; i < at + width; i++) bits += BITS[bytes[i]];
        length += bytes[at + lowest] & 1 ? bits - 1 : 1;
    }
    return length;
}

/** Returns the offsets of packed relocations: an even word is one, and a bit of an odd word stands for one of the words
 * that follow. Throws if they are not inside the file. */
export function packed_offsets(section) {
    const width = word(), end = packed_end(section), found = [];
    for (let at = 0n, next = 0n; at + width <= end && found.length < MOST_ITEMS; at += width) {
        const entry = number_at(section.sh_offset + at, width), is_place = !(entry & 1n),
            bits = is_place ? 1n : entry >> 1n;
        if (is_place) next = entry;
        for (let bit = 0n; bits >> bit; bit++)
            if (bits >> bit & 1n) found.push(BigInt.asUintN(Number(8n * width), next + bit * width));
        next += is_place ? width : (8n * width - 1n) * width;
    }
    return found;
}
