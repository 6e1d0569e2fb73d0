// The lists of the page. Each is a source: its items, its columns, and whether an item holds an offset or address.
import * as goblin from '../web/goblin.js';
import { called, digits_of, file, name_of_section, part, read_or, refusal, RELOCATION_TYPES, RELR, section_at,
    section_refusal, sections, segments, SYMBOL_TYPES } from './file.js';
import { demangled, may_hold } from './demangle.js';
import { packed_offsets } from './dynamic.js';
import * as labels from './labels.js';
import { notes_of } from './notes.js';
import { parts, titled } from './pieces.js';
import { has_mangled, most_signs, name_of_symbol, named_symbols, section_of_symbol, symtab_at } from './resolve.js';
import { count, hex, once } from './text.js';

const { st_bind, st_type, st_visibility } = goblin;
// How many signs the names of a list have at most that are demangled. (In a damaged file each may stand for very many.)
const MOST_DEMANGLED = 1 << 28;
// How many signs of a text are compared if the texts have very many. (Engines copy so many, and keep no longer text.)
const FIRST = 12;
const SPECIAL = new Map([[0n, 'undefined'], [0xfff1n, 'absolute'], [0xfff2n, 'common'], [0xffffn, 'extended index']]);
// A column has a title, a hint, such as the field's name, the least width, which of the columns gets more of it first,
// a function that returns an item's text, and perhaps one for a saved list, a number to sort by, and a finder of texts.
const column = (title, hint, least, share, text, given) => ({ title, hint, least, share, text, ...given });
// A column of the numbers that a function returns, and one of a field's numbers.
const number = (title, hint, least, share, of, say = hex, given = { is_number: true }) =>
    column(title, hint, least, share, (item) => say(of(item)), { is_right: true, number: of, ...given });
const field = (title, key, least, share, say) => number(title, key, least, share, (item) => item[key], say);

// Returns the widths in which the file's numbers of some kinds fit, but for some of damaged files.
const rooms = once(() => {
    let address = 0n, align = 0n, index = 0;
    const raise = (end) => { if (end > address && end < 1n << 64n) address = end; };
    for (const { sh_addr, sh_size, sh_addralign, sh_link, sh_info } of sections()) {
        raise(sh_addr + sh_size);
        if (sh_addralign > align) align = sh_addralign;
        index = Math.max(index, sh_link, sh_info);
    }
    for (const { p_vaddr, p_memsz } of segments()) raise(p_vaddr + p_memsz);
    const room = (shown, least, most = 20) => Math.max(Math.ceil(7.6 * Math.min(shown.length, most)) + 1, least);
    const offset = room(hex(file.content.length), 60);
    return { address: room(hex(address), 60), offset, align: room(`${align}`, 36, 10), index: room(`${index}`, 32) };
});

const within = (start, size, value) => start <= value && value < start + size;
const is_refused = (item) => read_or(true, () => { file.elf.range(item); return false; });

const title_of_section = once((of) => (section_at(of) ? called(of) : `${of}`));
export function section_word(table, index, symbol) {
    const of = section_of_symbol(table, index, symbol);
    return of === undefined ? SPECIAL.get(symbol.st_shndx) ?? hex(symbol.st_shndx) : title_of_section(of);
}

export const addend = ({ r_addend }) =>
    (r_addend === undefined ? 'in place' : r_addend < 0n ? `−${hex(-r_addend)}` : hex(r_addend));

export function symbol_of_relocation(table, { r_sym }) {
    const symbol = r_sym ? read_or(undefined, () => symtab_at(table)?.get(r_sym)) : undefined;
    return symbol ? name_of_symbol(table, r_sym, symbol) : r_sym ? `symbol ${r_sym}` : '';
}

// Returns a list of a number of items, which a function returns by their indices.
const list_of = (length, get) => ({ length, get, *from(at = 0) { for (; at < length; at++) yield get(at); } });

const sources = {
    sections: ({ address, offset, align, index }) => ({
        list: file.elf.section_headers(), place: 30,
        columns: [column('Name', 'sh_name', 126, 4, name_of_section),
            column('Type', 'sh_type', 92, 0.6, ({ sh_type }) => labels.section_type(sh_type)),
            field('Address', 'sh_addr', address, 0.4), field('Offset', 'sh_offset', offset, 0.3),
            field('Size', 'sh_size', offset, 0.3),
            column('Flags', 'sh_flags', 118, 0.3, ({ sh_flags }) => labels.section_flags(sh_flags)),
            field('Link', 'sh_link', index, 0, String), field('Info', 'sh_info', index, 0, String),
            field('Align', 'sh_addralign', align, 0, String), field('Entry', 'sh_entsize', 36, 0, String)],
        mark: is_refused,
        holds: ({ sh_addr, sh_offset, sh_size, sh_type, sh_flags }, value) =>
            (sh_flags & 2n && within(sh_addr, sh_size, value))
            || (sh_type !== goblin.SHT_NOBITS && within(sh_offset, sh_size, value)),
    }),

    segments: ({ address, offset }) => ({
        list: file.elf.program_headers(), place: 40,
        columns: [column('Type', 'p_type', 104, 1, ({ p_type }) => labels.segment_type(p_type)),
            column('Flags', 'p_flags', 46, 0, ({ p_flags }) => labels.segment_flags(p_flags),
                { plain: ({ p_flags }) => hex(p_flags) }),
            field('Offset', 'p_offset', offset, 0.5), field('File size', 'p_filesz', offset, 0.5),
            field('Address', 'p_vaddr', address, 1), field('Memory size', 'p_memsz', Math.max(offset, 80), 0.5),
            field('Physical', 'p_paddr', address, 1), field('Align', 'p_align', 66)],
        mark: is_refused,
        holds: ({ p_offset, p_filesz, p_vaddr, p_memsz }, value) => within(p_offset, p_filesz, value)
            || within(p_vaddr, p_memsz, value),
    }),

    symbols({ address }, table) {
        const name = (item, index) => name_of_symbol(table, index, item), symtab = symtab_at(table),
            list = { length: symtab.length, get: (index) => symtab.get(index), from: () => named_symbols(table) },
            known = new Array(list.length), has_demangled = has_mangled(table);
        let left = MOST_DEMANGLED;
        const counted = (text) => { left -= text.length; return text; };
        const in_source = (item, index) =>
            (known[index] ??= counted((left > 0 && demangled(name(item, index))) || ''));
        const finder = (wanted) => {
            const may = may_hold(wanted), has = (found) => found.toLowerCase().includes(wanted);
            return (item, index) => has(name(item, index))
                || (may(name(item, index).toLowerCase()) && has(in_source(item, index)));
        };
        const in_cpp = column('Demangled (not proved)', 'the name in C++, if read', 180, 5,
            (item, index) => in_source(item, index) || name(item, index), { plain: in_source, finder });
        return {
            list, place: 48, has_demangled,
            columns: [column('Name', 'st_name', 180, 5, name), ...(has_demangled ? [in_cpp] : []),
                field('Value', 'st_value', address, 0.3), field('Size', 'st_size', 62, 0, String),
                column('Type', 'st_info, its low four bits', 74, 0,
                    ({ st_info }) => labels.symbol_type(st_type(st_info))),
                column('Binding', 'st_info, its high four bits', 64, 0,
                    ({ st_info }) => labels.symbol_binding(st_bind(st_info))),
                column('Visibility', 'st_other', 78, 0,
                    ({ st_other }) => labels.symbol_visibility(st_visibility(st_other))),
                column('Section', 'st_shndx', 90, 0.5, (item, index) => section_word(table, index, item))],
            holds: ({ st_value, st_size }, value) => st_value === value || within(st_value, st_size, value),
        };
    },

    relocations({ address }, of) {
        const section = section_at(of), half = 1n << 63n, is_packed = section.sh_type === RELR;
        const type = ({ r_type }) => (is_packed ? 'packed, relative' : labels.relocation_type(r_type));
        const with_hyphen = (text) => text.replace('−', '-'), plain = (item) => with_hyphen(addend(item));
        const finder = (wanted) => (item) => plain(item).includes(with_hyphen(wanted));
        const added = { is_right: true, plain, finder, number: ({ r_addend = 0n }) => r_addend + half };
        // (packed relocations have nothing but their offsets)
        const offsets = is_packed ? packed_offsets(section) : [];
        const packed = list_of(offsets.length, (at) => ({ r_offset: offsets[at], r_type: 0, r_sym: 0 }));
        return {
            list: is_packed ? packed : file.elf.relocs(section), place: 48,
            columns: [field('Offset', 'r_offset', address, 0.6),
                column('Type', 'r_type', 165, 0.5, type, { number: ({ r_type }) => r_type }),
                column('Symbol', 'the name of r_sym', 190, 4, (item) => symbol_of_relocation(section.sh_link, item)),
                column('Addend', 'r_addend', address, 0.6, addend, added),
                field('Index', 'r_sym', 56, 0, (index) => (is_packed ? '' : `${index}`))],
            holds: ({ r_offset }, value) => r_offset === value,
        };
    },

    notes(_, by) {
        const { items } = notes_of(by), of_thread = { is_right: true, number: ({ thread = 0n }) => thread };
        return {
            list: list_of(items.length, (at) => items[at]), place: 40,
            columns: [column('From', 'the section or segment', 120, 1, ({ holder }) => holder.title),
                column('Owner', 'the name', 72, 0.6, ({ note }) => note.name),
                column('Type', 'n_type', 130, 0.8, ({ note }) => labels.note_type(note),
                    { number: ({ note }) => note.n_type }),
                column('Thread', 'of a core', 60, 0, ({ thread = '' }) => `${thread}`, of_thread),
                number('Size', 'n_descsz', 56, 0, ({ note }) => note.desc_range.size, String),
                column('Descriptor', 'its first bytes', 160, 2, ({ note }) => digits_of(note.desc_range, 64))],
            holds: ({ start, end }, value) => within(BigInt(start), BigInt(end - start), value),
        };
    },

    layout({ offset }) {
        const { starts, ends, tops, depths } = parts(), size = (at) => ends[at] - starts[at];
        const share = (bytes) => (100 * bytes / file.content.length).toFixed(2);
        return {
            list: list_of(tops.length, (at) => at), place: 56,
            columns: [number('From', 'offset', offset, 0, (at) => starts[at]),
                number('To', 'offset', offset, 0, (at) => ends[at]),
                number('Bytes', 'size', 96, 0, size, count, { plain: (at) => `${size(at)}` }),
                number('Share', 'of the file', 72, 0, size, (bytes) => `${share(bytes)} %`,
                    { plain: (at) => share(size(at)) }),
                column('What', 'the piece that is drawn', 160, 2, (at) => (tops[at] ? titled(tops[at]).title : 'gap')),
                column('Overlap', 'how many pieces lie there', 120, 1,
                    (at) => (depths[at] > 1 ? `${depths[at]} pieces overlap` : ''), { number: (at) => depths[at] })],
            holds: (at, value) => within(BigInt(starts[at]), BigInt(size(at)), value),
        };
    },
};

// Reports whether there is such a list. A list of symbols or relocations is a section of that type.
function is_there(list, of) {
    const types = { symbols: SYMBOL_TYPES, relocations: RELOCATION_TYPES }[list];
    return types ? types.includes(section_at(of)?.sh_type)
        : list === 'notes' ? ['sections', 'segments'].includes(of) : Object.hasOwn(sources, list);
}

/** Returns the source of a list, or its refusal, or nothing if there is no such list. */
export const open_source = (list, of) => part(() => (is_there(list, of) ? sources[list](rooms(), of) : undefined),
    (error) => (['symbols', 'relocations'].includes(list) ? section_refusal(error, `the ${list}`, of)
        : refusal(error, `the ${list}`, [])));

/** Returns a source as it is shown: with the names, or with the demangled ones in their place. */
export const as_shown = (source, is_demangled) => (source?.has_demangled
    ? { ...source, columns: source.columns.toSpliced(is_demangled ? 0 : 1, 1) } : source);
/** Returns the columns of a list, after that of the index, which is alone if there is no such list or it is refused. */
export const columns_of = ({ place = 0, columns = [] } = {}) =>
    [{ title: '#', hint: 'index', least: place, share: 0, is_right: true, is_dim: true }, ...columns]
        .map(({ title, hint, least, share, is_right, is_dim }) => ({ title, hint, least, share, is_right, is_dim }));
/** Returns the cells of an item, or in the form `plain` those of a saved list, where numbers are plain. */
export const cells_of = ({ columns }, item, index, form = 'text') =>
    [`${index}`, ...columns.map((column) => (column[form] ?? column.text)(item, index))];
// How long the worker works before it reads messages, and what waits while it does anything else.
const SLICE = 25, PATIENT = ['text', 'symbols inside'];
let awaited = 0;

// Lets the worker read messages. (A timer would wait for some milliseconds.)
const { port1, port2 } = new MessageChannel(), resumed = [];
port1.onmessage = () => resumed.shift()();
const pause = () => new Promise((resume) => { resumed.push(resume); port2.postMessage(0); });

/** Iterates over a source in steps, while `is_wanted` returns true. Returns whether it reached the end. */
export async function go_over(source, list, is_wanted, each) {
    const { length } = source.list, is_patient = PATIENT.includes(list);
    let index = 0, last = performance.now();
    awaited += Number(!is_patient);
    try {
        for (const item of source.list.from()) {
            each(item, index++);
            if (index % 256 || performance.now() - last < SLICE) continue;
            postMessage({ progress: list, done: index / length });
            do await pause(); while (is_patient && awaited > 0 && is_wanted());
            if (!is_wanted()) return false;
            last = performance.now();
        }
        return true;
    } finally {
        awaited -= Number(!is_patient);
    }
}

/** Returns the indices of the items that a search finds, in order, or nothing for all in the list's own order. */
export async function arranged(source, { query, column, is_descending, list }, is_wanted) {
    const { length } = source.list;
    let order;
    if (query) {
        const found = [], is_found = finder(source, query.toLowerCase());
        await go_over(source, list, is_wanted, (item, index) => { if (is_found(item, index)) found.push(index); });
        order = Uint32Array.from(found);
    }
    if (column === 0 && !is_descending) return order;
    order ??= Uint32Array.from({ length }, (_, index) => index);
    const compare = column === 0 ? (a, b) => a - b
        : await comparison(source, source.columns[column - 1], list, is_wanted);
    if (!is_wanted()) return undefined;
    const sign = is_descending ? -1 : 1;
    return order.sort((a, b) => sign * compare(a, b) || a - b);
}

// Returns a function that reports whether a text is in a cell of an item, or an offset or address that it holds.
function finder({ columns, holds }, wanted) {
    const is_number = /^[\da-fx]+$/.test(wanted), value = /^0x[\da-f]{1,16}$/.test(wanted) ? BigInt(wanted) : undefined;
    const finders = columns.filter((item) => is_number || !item.is_number).map(({ text: text_of, finder: own }) =>
        own?.(wanted) ?? ((item, index) => text_of(item, index).toLowerCase().includes(wanted)));
    return (item, index) => (value !== undefined && holds(item, value)) || (is_number && `${index}`.includes(wanted))
        || finders.some((is_found) => is_found(item, index));
}

async function comparison(source, column, list, is_wanted) {
    const { length } = source.list;
    if (!column.number) {
        // (past a number of signs only the first ones of each text, which is damaged, are compared)
        const texts = new Array(length);
        let left = most_signs();
        await go_over(source, list, is_wanted, (item, index) => {
            const text = column.text(item, index);
            texts[index] = (left -= text.length) > 0 ? text : text.slice(0, FIRST);
        });
        return (a, b) => (texts[a] < texts[b] ? -1 : texts[a] > texts[b] ? 1 : 0);
    }
    // (as two halves, which are compared without making BigInts)
    const values = new BigUint64Array(length), halves = new Uint32Array(values.buffer);
    await go_over(source, list, is_wanted, (item, index) => { values[index] = BigInt(column.number(item)); });
    return (a, b) => halves[2 * a + 1] - halves[2 * b + 1] || halves[2 * a] - halves[2 * b];
}
