// Finds what a text means: an offset, an address or names, as { title, detail, to }, and of bare digits also { read }.
import { called, file, name_of_section, sections, symbol_tables, read_or } from './file.js';
import { address_details, header_fields, is_address, offset_details } from './details.js';
import { go_over, open_source } from './lists.js';
import { notes_of, title_of } from './notes.js';
import { symtab_at } from './resolve.js';
import { hex } from './text.js';

const MOST = 40;

// Returns the numbers that a text may mean, and how it is read: first as decimal, unless it starts with 0x or a zero.
function numbers_in(text) {
    if (/^(0x[0-9a-f]{1,16}|0*\d)$/i.test(text)) return [{ value: BigInt(text) }];
    const is_decimal = /^\d{1,20}$/.test(text) && BigInt(text) < 1n << 64n,
        decimal = is_decimal ? [{ value: BigInt(text), read: 'read as decimal' }] : [];
    const is_hex = /^(?=.*\d)[0-9a-f]{1,16}$/i.test(text),
        hexadecimal = is_hex ? [{ value: BigInt(`0x${text}`), read: 'read as hexadecimal' }] : [];
    return text.startsWith('0') ? [...hexadecimal, ...decimal] : [...decimal, ...hexadecimal];
}

function places_of_number({ value, read }) {
    const place = (kind, { what }) =>
        ({ title: `${kind} ${hex(value)}`, detail: what, to: `${kind}/${hex(value)}`, read });
    const offset = value < BigInt(file.content.length) ? [place('offset', offset_details(Number(value)))] : [];
    const address = is_address(value) ? [place('address', address_details(value))] : [];
    // (an offset in a gap or in padding is hardly ever meant)
    return /^in (a gap|padding)$/.test(offset[0]?.detail) ? [...address, ...offset] : [...offset, ...address];
}

// Collects results by how the text matches their name: the whole name, its start, or a part.
function collector(text) {
    const ranks = [[], [], []], wanted = text.toLowerCase();
    const add = (name, place) => {
        const at = name.toLowerCase().indexOf(wanted), rank = at > 0 ? 2 : name.length === wanted.length ? 0 : 1;
        if (at >= 0 && ranks[rank].length < MOST) ranks[rank].push({ title: name, ...place() });
    };
    return { ranks, add };
}

function add_small(found) {
    for (const { name, words } of header_fields()) found.add(name, () => ({ detail: words, to: `header/${name}` }));
    for (const section of sections()) found.add(name_of_section(section),
        () => ({ detail: `section ${section.index}`, to: `sections/${section.index}` }));
    for (const by of ['sections', 'segments']) {
        notes_of(by).items.forEach((item, index) =>
            found.add(title_of(item), () => ({ detail: `note ${index} of ${by}`, to: `notes/${by}/${index}` })));
    }
}

/** Returns the results for a text, the best first, or nothing if it is no longer wanted. */
export async function find(text, is_wanted) {
    const numbers = numbers_in(text).flatMap(places_of_number), found = collector(text);
    add_small(found);
    for (const table of symbol_tables()) {
        const source = read_or(undefined, () => symtab_at(table)) && open_source('symbols', table);
        if (!source || source.refused) continue;
        const name = source.columns[0].text, of = called(table);
        const is_done = await go_over(source, 'find', is_wanted, (item, index) => found.add(name(item, index),
            () => ({ detail: `symbol ${index} of ${of}`, to: `symbols/${table}/${index}` })));
        if (!is_done) return undefined;
    }
    // (a whole name is meant before a number with letters)
    const [whole, ...others] = found.ranks, first = /^[^x]*[a-f]/i.test(text) ? [whole, numbers] : [numbers, whole];
    return [...first, ...others].flat().slice(0, MOST);
}
