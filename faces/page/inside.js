// What lies inside the file's pieces: functions and variables, by symbols with a size, and classes of bytes, by values.
import * as goblin from '../web/goblin.js';
import { demangled } from './demangle.js';
import { file, read_or, section_at, symbol_tables } from './file.js';
import { go_over } from './lists.js';
import { part_at, parts, titled } from './pieces.js';
import { bytes_of_symbol, is_descriptor, symtab_at, title_of_symbol } from './resolve.js';
import { first_after, visible_ranges } from './spans.js';
import { count, once } from './text.js';

const TYPES = new Set([goblin.STT_OBJECT, goblin.STT_FUNC, goblin.STT_GNU_IFUNC]);
const found = { table: undefined, symbols: [], starts: [], ends: [], functions: [], covered: 0 };
// Returns how many bytes of code are drawn in a range.
function code_in(from, to) {
    const { starts, ends, tops } = parts();
    let sum = 0;
    for (let i = part_at(from); starts[i] < to; i++)
        if (tops[i]?.kind === 'code') sum += Math.max(Math.min(to, ends[i]) - Math.max(from, starts[i]), 0);
    return sum;
}

// Finds the bytes of functions and variables. Of those that overlap the first one counts, and the longest of these.
const find_symbols = once(async () => {
    const tables = symbol_tables(),
        table = tables.find((index) => section_at(index).sh_type === goblin.SHT_SYMTAB) ?? tables[0], all = [];
    const list = read_or(undefined, () => symtab_at(table)) ?? { length: 0, from: () => [] };
    await go_over({ list }, 'symbols inside', () => true, (symbol, index) => {
        const type = goblin.st_type(symbol.st_info),
            place = symbol.st_size && TYPES.has(type) && bytes_of_symbol(table, index, symbol);
        const { at: start, size: whole } = place || {}, size = Math.min(whole, file.content.length - start);
        const is_function = type === goblin.STT_FUNC && !is_descriptor(place?.section, symbol);
        if (size > 0) all.push({ start, end: start + size, size, index, is_function });
    });
    all.sort((a, b) => a.start - b.start || b.end - a.end);
    let last = 0, covered = 0;
    for (const { start, end } of all) {
        covered += code_in(Math.max(start, last), end);
        last = Math.max(last, end);
    }
    const apart = (items) => { last = 0; return items.filter(({ start, end }) => start >= last && (last = end)); };
    const symbols = apart(all), functions = apart(all.filter((item) => item.is_function));
    const starts = symbols.map(({ start }) => start), ends = symbols.map(({ end }) => end);
    Object.assign(found, { table, functions, symbols, covered, starts, ends });
});

const name_of = ({ index }) => title_of_symbol(found.table, index, symtab_at(found.table).get(index));

// Returns a function or variable with its location, and perhaps its name.
function shown(symbol, has_name = true) {
    const { start, end, size, index } = symbol, name = has_name ? name_of(symbol) : '';
    return { start, end, size, name, title: demangled(name) ?? name, to: `symbols/${found.table}/${index}` };
}

export async function largest(most) {
    await find_symbols();
    return found.functions.sort((a, b) => b.size - a.size).slice(0, most).map((item) => shown(item));
}

/** Returns the number of bytes of code in the file, and of those that are in no symbol. */
export async function code_without_symbol() {
    await find_symbols();
    const code = code_in(0, file.content.length);
    return { code, rest: code - found.covered };
}

export const CLASSES = ['zeros', 'text', 'numbers', 'code-like', 'high entropy'];
const [ZEROS, TEXT, NUMBERS, CODE, RANDOM] = CLASSES.keys();
// A class is that of blocks of bytes, of which at most a number is read.
const BLOCK = 64, SAMPLES = 128,
    is_text = (byte) => (byte > 0x1f && byte < 0x7f) || byte === 9 || byte === 10 || byte === 13;

// Returns the class of a range's blocks. Random bytes have most of the values that so many are expected to have.
function class_of(from, to) {
    const { content } = file, start = Math.floor(from / BLOCK) * BLOCK,
        end = Math.min(Math.ceil(to / BLOCK) * BLOCK, content.length);
    const step = Math.max((end - start) / SAMPLES, 1), counts = new Uint8Array(256);
    let all = 0, texts = 0, values = 0;
    for (let at = start; at < end; at += step, all++) {
        const byte = content[Math.floor(at)];
        if (is_text(byte)) texts++;
        if (counts[byte]++ === 0) values++;
    }
    const [zeros] = counts, is_random = all >= BLOCK / 2 && values > 0.85 * 256 * (1 - (255 / 256) ** all);
    if (zeros === all) return ZEROS;
    return texts > zeros && texts + zeros >= 0.9 * all ? TEXT : is_random ? RANDOM
        : zeros >= 0.3 * all ? NUMBERS : CODE;
}

// Returns the class of a byte: a zero byte is one of zeros, wherever it is.
const class_at = (byte) => (file.content[byte] === 0 ? ZEROS : class_of(byte, byte + 1));

/** Returns what a view of the map shows: classes of bytes, bytes that have a column, symbols, and titles with room. */
export async function inside({ start, end, step, columns, least, least_named }) {
    await find_symbols();
    const { tops, ...all } = parts(), { symbols } = found, last = Math.min(end, file.content.length),
        of = step === 1 ? class_at : class_of;
    const wide_ones = ({ starts, ends }, size) => [...visible_ranges(starts, ends, start, last, size)]
        .filter((i) => ends[i] - starts[i] >= size);
    const symbol = (i) => ({ ...shown(symbols[i], symbols[i].size >= least_named), is_odd: i % 2 > 0 });
    const part = (i) => ({ ...(tops[i] ? titled(tops[i]) : { title: '' }), start: all.starts[i], end: all.ends[i] });
    const cells = { length: Math.ceil((last - start) / step) },
        class_of_cell = (from) => of(from, Math.min(from + step, last));
    return {
        start, step, columns, classes: Uint8Array.from(cells, (_, i) => class_of_cell(start + i * step)),
        bytes: step === 1 ? file.content.slice(start, last) : [], symbols: wide_ones(found, least).map(symbol),
        parts: wide_ones(all, least_named).map(part),
    };
}

export function under(byte) {
    const { starts, ends, tops, depths } = parts(), part = part_at(byte),
        symbol = found.symbols[first_after(found.ends, byte)];
    const { title, kind } = tops[part] ? titled(tops[part]) : { title: 'gap' };
    const own = symbol?.start <= byte && shown(symbol), content = CLASSES[class_at(byte)];
    return { title, kind, start: starts[part], end: ends[part], depth: depths[part], symbol: own, content };
}

const sum_of = (items) => items.reduce((sum, { size }) => sum + size, 0);

// Returns the class, namespace or first word of a symbol's name. (In a mangled name its length is before a word.)
function family_of(name) {
    const [start, size] = /^_ZT?[VTISN]?N?[rVKRO]*(?:St)?(\d+)/.exec(name) ?? [];
    return start ? name.substr(start.length, size) : /^[^\p{L}]*[\p{L}\d]*/u.exec(name)[0];
}

// Returns the results of a function for items, and groups of those below a least size, from the largest on.
function from_largest(items, least, of, group_of, ...rest) {
    const small = Map.groupBy(items.filter(({ size }) => size < least), group_of), group = (name, all) =>
        ({ title: `${name} (${count(all.length)})`, size: sum_of(all), kind: all[0]?.top?.kind, all });
    const groups = Array.from(small, ([name, all]) => group(name, all)),
        few = groups.filter(({ size }) => size < least).flatMap(({ all }) => all);
    const others = [...groups.filter(({ size }) => size >= least), group('others', few)]
        .map(({ all, ...given }) => given);
    return [...items.filter(({ size }) => size >= least).map(of), ...others, ...rest].filter(({ size }) => size > 0)
        .sort((a, b) => b.size - a.size);
}

/** Returns the pieces by the bytes where they are drawn, from the largest on, with functions and variables inside. */
export async function sizes(least) {
    await find_symbols();
    const { starts, ends, tops } = parts(), pieces = new Map(tops.map((top) => [top, { top, size: 0, inside: [] }]));
    tops.forEach((top, i) => { pieces.get(top).size += ends[i] - starts[i]; });
    for (const symbol of found.symbols) pieces.get(tops[part_at(symbol.start)]).inside.push(symbol);
    const within = (inside, size) => (inside.length === 0 ? [] : from_largest(inside, least, (symbol) => shown(symbol),
        (symbol) => family_of(name_of(symbol)), { title: 'in no symbol', size: size - sum_of(inside) }));
    return from_largest([...pieces.values()], least, ({ top, size, inside }) =>
        ({ ...(top ? titled(top) : { title: 'gaps' }), size, inside: within(inside, size) }), ({ top }) => top?.kind);
}
