// Reads one file for the page. { id, call, given } is answered with { id, result } or { id, error }, and a refusal of
// the library is { refused } in `result`. What takes long is done in steps, and ends if the same is requested again.
import init, * as goblin from '../web/goblin.js';
import { csv_line } from './csv.js';
import { address_details, header_fields, is_address, item_details, offset_details } from './details.js';
import { all_sections, called, file, header_refusal, list_refusal, MOST_TABLES, own_segments, part, read_or,
    RELOCATION_TYPES, RELR, size_of, SYMBOL_TYPES } from './file.js';
import { find_own_sections, packed_length } from './dynamic.js';
import { find } from './find.js';
import * as labels from './labels.js';
import { arranged, as_shown, cells_of, columns_of, go_over, open_source } from './lists.js';
import { notes_of } from './notes.js';
import { CLASSES, inside, sizes, under } from './inside.js';
import { KINDS, parts, titled } from './pieces.js';
import { section_called, symbol_called, symtab_at, to_section, to_symbol } from './resolve.js';
import { all_facts, kind_in_words, summary } from './summary.js';
import { hex, visible } from './text.js';

// How many bytes are read before the progress is sent.
const CHUNK = 1 << 24;
// How many signs of a saved list are kept until they leave the worker's memory.
const PIECE = 1 << 20;

// Returns the bytes of a file, which are read in steps, into the library's memory.
async function bytes_of(given) {
    const bytes = goblin.array_for(given.size);
    for (let at = 0; at < given.size; at += CHUNK) {
        const chunk = new Uint8Array(await given.slice(at, at + CHUNK).arrayBuffer());
        // (Firefox reads less of a file that has been cut since it was chosen)
        if (chunk.length < Math.min(CHUNK, given.size - at)) throw new DOMException('cut', 'NotReadableError');
        bytes.set(chunk, at);
        postMessage({ progress: 'open', done: (at + chunk.length) / given.size });
    }
    return bytes;
}

// Returns the first sections that hold a list, each with its name and number of items, and the number of all.
function tables(types, list_of) {
    const all = all_sections().filter(({ sh_type }) => types.includes(sh_type));
    const found = all.slice(0, MOST_TABLES).map((section) => {
        // (a refusal is shown once the section is chosen)
        const { index, sh_type } = section, length = read_or(undefined, () => list_of(section).length);
        return { index, name: called(index, section), length, is_packed: sh_type === RELR,
            is_own: typeof index === 'string' };
    });
    return { found, all: all.length };
}

const relocations_of = (section) =>
    (section.sh_type === RELR ? { length: packed_length(section) } : file.elf.relocs(section));

function notes_summary(by, headers) {
    if (headers.refused) return { length: undefined, refusals: [headers.refused] };
    const { items, refusals, is_cut } = notes_of(by);
    return { length: items.length, refusals, is_cut };
}

// Returns in words what lies past the end of the file, if something does, and the list of the first piece.
function past_end() {
    const { past } = parts(), words = past.slice(0, 2).map((piece) => titled(piece).title).join(', ');
    return words ? { words: `past the end: ${words}${past.length > 2 ? ` and ${past.length - 2} more` : ''}`,
        to: past[0].to } : {};
}

const MOST_LOADED = 1000;
function map() {
    const { starts, tops, depths } = parts(),
        loaded = own_segments().filter(({ p_type }) => p_type === 1).slice(0, MOST_LOADED)
            .map(({ p_offset, p_filesz, p_flags }) =>
                [Number(p_offset), Math.min(Number(p_offset + p_filesz), file.content.length), p_flags & 7]);
    const kinds = Int8Array.from(tops, (top) => (top ? KINDS.indexOf(top.kind) : -1));
    const cuts = Uint8Array.from(tops, (top) => Number(top?.is_cut ?? false));
    return { starts: Float64Array.from(starts), kinds, depths: Uint32Array.from(depths), cuts, segments: loaded,
        past: past_end(), KINDS, CLASSES };
}

function overview() {
    const { elf } = file, { header } = elf;
    const counted = (name, list, offset, number) =>
        part(() => ({ length: list().length }), (error) => list_refusal(error, `the ${name} headers`, offset, number));
    file.has_segments = all_facts().kind !== 'debug file';
    if (file.has_segments) find_own_sections();
    const headers = {
        sections: counted('section', () => elf.section_headers(), 'e_shoff', 'e_shnum'),
        segments: counted('program', () => elf.program_headers(), 'e_phoff', 'e_phnum'),
    };
    const { refused } = headers.sections;
    return {
        ...headers, header: header_fields(), header_size: size_of('header'),
        words: [kind_in_words(), labels.file_class(header.ei_class),
            elf.little_endian() ? 'little endian' : 'big endian', labels.file_type(header.e_type),
            labels.machine(header.e_machine), `entry ${hex(header.e_entry)}`],
        symbols: refused ? { refused } : tables(SYMBOL_TYPES, ({ index }) => symtab_at(index)),
        relocations: refused ? { refused } : tables(RELOCATION_TYPES, relocations_of),
        notes: { sections: notes_summary('sections', headers.sections),
            segments: notes_summary('segments', headers.segments) },
        map: map(),
    };
}

// What each list shows: the source, and the indices in their order if it isn't the list's own. And the last requests.
const views = {}, runs = {};
const source_of = (list, of) => (views[list]?.of === of && views[list]?.source) || open_source(list, of);

function begin(name) {
    const run = runs[name] = {};
    return () => runs[name] === run;
}

// Iterates over the list that is shown, as `go_over` does over a source.
function over_view(list, progress, is_wanted, each) {
    const view = views[list], { source, order } = view, add = (item, index) => each(view, item, index);
    if (!order) return go_over(source, progress, is_wanted, add);
    const items = { length: order.length, *from() { for (const index of order) yield source.list.get(index); } };
    return go_over({ list: items }, progress, is_wanted, (item, at) => add(item, order[at]));
}

const calls = {
    async open({ module, given }) {
        await init(module);
        file.bytes = await bytes_of(given);
        const { elf, refused } = part(() => ({ elf: goblin.Elf.parse(file.bytes) }), header_refusal);
        file.elf = elf;
        return refused ? { refused, start: file.content.slice(0, 16) } : overview();
    },

    bytes([at, size]) { return file.content.slice(at, at + size); },

    // Prepares a list: the items of a source that have a text, sorted by a column.
    async view({ list, of, is_demangled, query = '', column = 0, is_descending = false }) {
        const is_wanted = begin(list), source = source_of(list, of), shown = as_shown(source, is_demangled);
        begin('text');
        if (!source || source.refused) {
            views[list] = { source, of, order: [], length: 0 }; // (so nothing of the list before is saved)
            return source ?? { is_none: true };
        }
        const { length: all } = source.list,
            order = await arranged(shown, { query, column, is_descending, list }, is_wanted);
        if (!is_wanted()) return { is_over: true };
        const { length } = order ?? source.list;
        views[list] = { source, of, shown, order, length };
        return { length, all };
    },

    // Returns the columns of a list, with names and with demangled ones, if it has such. The source is kept.
    columns({ list, of }) {
        const source = open_source(list, of);
        views[list] = { source, of };
        return [false, true].map((is_demangled) => columns_of(as_shown(source, is_demangled)))
            .slice(0, source?.has_demangled ? 2 : 1);
    },

    rows({ list, from, size }) {
        const { source, shown, length } = views[list];
        return Array.from({ length: Math.min(size, length - from) }, (_, i) => {
            const index = calls.index({ list, at: from + i }), item = source.list.get(index);
            return [...cells_of(shown, item, index), source.mark?.(item) && 'refused'];
        });
    },

    // Returns the lines of the list that is shown, at most so many with so many characters. Tabs are between cells.
    async text({ list, most, characters }) {
        if (!views[list]?.shown) return undefined; // (another table is chosen meanwhile)
        const is_wanted = begin('text'), lines = [];
        const is_room = () => is_wanted() && lines.length < most && characters > 0;
        await over_view(list, 'text', is_room, ({ shown }, item, index) => {
            const line = cells_of(shown, item, index).map(visible).join('\t');
            characters -= line.length;
            lines.push(line);
        });
        return is_wanted() ? lines.slice(0, most).join('\n') : undefined;
    },

    // Returns the position of an item in the list that is shown, or -1.
    position({ list, index }) {
        const { order, length } = views[list];
        return order ? order.indexOf(index) : index < length ? index : -1;
    },

    index: ({ list, at }) => (views[list].order ? views[list].order[at] : at),

    async csv({ list }) {
        const pieces = [];
        let piece = csv_line(columns_of(views[list].source).map(({ title }) => title));
        const put = () => { pieces.push(new Blob([piece])); piece = ''; };
        await over_view(list, 'csv', () => true, ({ source }, item, index) => {
            piece += csv_line(cells_of(source, item, index, 'plain'));
            if (piece.length > PIECE) put();
        });
        put();
        return new Blob(pieces, { type: 'text/csv' });
    },

    item({ list, index, of }) {
        const source = source_of(list, of);
        return source && !source.refused && index < source.list.length
            ? item_details(source, { list, index, of }) : undefined;
    },
    // (a location may have neither)
    offset: (offset) => (offset < file.content.length ? offset_details(Number(offset)) : undefined),
    address: (address) => (address !== undefined && is_address(address) ? address_details(address) : undefined),
    find: (text) => find(text, begin('find')),
    // Returns the location of the section or symbol with a name.
    named([kind, name]) {
        const found = kind === 'section' ? section_called(name) : symbol_called(name);
        return found && (kind === 'section' ? to_section(found.index) : to_symbol(found)).to;
    },
    summary, inside, under, sizes,
};

onmessage = async ({ data: { id, call, given } }) => {
    try {
        postMessage({ id, result: await calls[call](given) });
    } catch (error) {
        postMessage({ id, error });
    }
};
