// The pieces of the file, and the parts that the ends of pieces divide it into.
import * as goblin from '../web/goblin.js';
import { called, file, is_debug, name_of_section, own_segments, RELOCATION_TYPES, section_at, sections, size_of,
    SYMBOL_TYPES, read_or } from './file.js';
import { segment_type } from './labels.js';
import { notes_of, title_of } from './notes.js';
import { first_after } from './spans.js';
import { count, hex, once } from './text.js';

export const KINDS = ['header', 'tables', 'code', 'data', 'constants', 'names', 'relocations', 'notes', 'debug',
    'other', 'padding', 'appended'];

export function kind_of(section) {
    const { sh_type, sh_flags } = section;
    if (SYMBOL_TYPES.includes(sh_type) || sh_type === goblin.SHT_STRTAB) return 'names';
    if (RELOCATION_TYPES.includes(sh_type)) return 'relocations';
    if (sh_type === goblin.SHT_NOTE) return 'notes';
    if (sh_flags & 4n) return 'code';
    if (sh_flags & 2n) return sh_flags & 1n ? 'data' : 'constants';
    return is_debug(section) ? 'debug' : 'other';
}

export function kind_of_segment({ p_type, p_flags }) {
    if (p_type === goblin.PT_NOTE) return 'notes';
    if (p_type !== 1) return 'other';
    return p_flags & 1 ? 'code' : p_flags & 2 ? 'data' : 'constants';
}

export const title_of_segment = (index, { p_type }) => `segment ${index}, ${segment_type(p_type)}`;

const has_sections = once(() => sections().some(({ sh_type }) => sh_type !== goblin.SHT_NULL));

// Collects pieces, which are cut at the file's end: apart those that are, and those that begin past it.
function collector() {
    const found = [], cut = [], past = [];
    // (there may be millions: of objects that are spread each access takes ten times as long)
    const add = (offset, size, { section, title, kind, is_rest, to }) => {
        const start = Number(offset), whole_end = start + Number(size), end = Math.min(whole_end, file.content.length),
            is_cut = end < whole_end;
        // (a small size does not change a large number)
        const list = start >= end ? past : is_cut ? cut : found;
        if (size > 0)
            list.push({ section, title, kind, is_rest, to, offset, start, end, whole_end, size, is_cut });
    };
    return { found, cut, past, add };
}

// Collects the pieces that are drawn first: the headers, and the bytes of sections, also if these are refused.
function pieces_of_sections() {
    const { add, ...collected } = collector();
    const { e_phoff, e_phnum, e_shoff, e_shnum } = file.elf.header;
    add(0, size_of('header'), { title: 'ELF header', kind: 'header', to: 'header' });
    const segments = read_or(e_phnum, () => file.elf.program_headers().length);
    if (segments)
        add(e_phoff, segments * size_of('segment'), { title: 'Program headers', kind: 'tables', to: 'segments' });
    const length = read_or(e_shnum, () => file.elf.section_headers().length);
    if (length) add(e_shoff, length * size_of('section'), { title: 'Section headers', kind: 'tables', to: 'sections' });
    for (const section of sections()) {
        const { index, sh_offset: offset, sh_size: size } = section;
        const range = read_or({ offset, size }, () => file.elf.range(section));
        if (range) add(range.offset, range.size, { section: index, kind: kind_of(section), to: `sections/${index}` });
    }
    return collected;
}

// Collects the pieces that are drawn elsewhere: segments, and their notes above them. In a file with sections, what a
// loaded segment has outside of them is mostly padding, and neither code nor data.
function pieces_of_segments() {
    const { add, ...collected } = collector();
    for (const segment of own_segments()) {
        const { index, p_type, p_offset, p_filesz } = segment, is_rest = has_sections();
        const kind = is_rest && p_type === goblin.PT_LOAD ? 'other' : kind_of_segment(segment);
        add(p_offset, p_filesz, { title: title_of_segment(index, segment), kind, is_rest, to: `segments/${index}` });
    }
    const notes = file.has_segments ? notes_of('segments').items : [];
    notes.forEach((item, index) => add(item.start, Math.min(item.end, file.content.length)
        - item.start, { title: title_of(item), kind: 'notes', to: `notes/segments/${index}` }));
    return collected;
}

// The pieces at ascending bytes. The one that starts last is on top, and of those with the same start the shortest.
class Cover {
    #in_order; #ends; #stack = []; #opened = 0; #closed = 0;

    constructor(pieces) {
        this.#in_order = [...pieces].reverse().sort((a, b) => a.start - b.start || b.whole_end - a.whole_end);
        this.#ends = Float64Array.from(pieces, ({ end }) => end).sort();
    }

    // Moves to a byte, and returns the piece there that starts last, if any, and the number of pieces there.
    go_to(byte) {
        while (this.#in_order[this.#opened]?.start <= byte) this.#stack.push(this.#in_order[this.#opened++]);
        while (this.#ends[this.#closed] <= byte) this.#closed++;
        while (this.#stack.at(-1)?.end <= byte) this.#stack.pop();
        return { top: this.#stack.at(-1), depth: this.#opened - this.#closed };
    }
}

const ends_of = (pieces) => pieces.flatMap(({ start, end }) => [start, end]);

// Returns the pieces that overlap another one: if any does, the one so far that ends last does, too.
function overlapping(pieces) {
    const found = new Set();
    pieces.toSorted((a, b) => a.start - b.start).reduce((last, piece) => {
        if (piece.start < last.end) found.add(last).add(piece);
        return piece.end > last.end ? piece : last;
    }, { end: 0 });
    return [...found];
}

const unnamed = (title, kind, start, end) => ({ title, kind, start, end, to: `offset/${hex(start)}` });

// Returns the padding that is a whole range, whose bytes are the same and not too many, or nothing.
const MOST_PADDING = 1 << 24;
function padding(start, end) {
    const { content } = file, byte = content[start], last = Math.min(end, start + MOST_PADDING);
    let at = start;
    while (at < last && content[at] === byte) at++;
    return at === end ? unnamed('padding', 'padding', start, end) : undefined;
}

// Returns the pieces after all others. A kernel module's signature ends with the sizes of its parts and a text.
const SIGNED = '~Module signature appended~\n', SIGNED_SIZES = 12;
function appended(from) {
    const { content } = file, end = content.length, sizes = end - SIGNED.length - SIGNED_SIZES;
    const is_signed = sizes >= from && String.fromCharCode(...content.subarray(-SIGNED.length)) === SIGNED;
    const [name, key] = content.subarray(sizes + 3), of_signature = new DataView(content.buffer);
    const start = is_signed ? sizes - name - key - of_signature.getUint32(content.byteOffset + sizes + 8) : end;
    const split = start >= from ? start : end, rest = content[from] === 0 && padding(from, split);
    return [split > from && (rest || unnamed('appended bytes', 'appended', from, split)),
        split < end && unnamed('module signature', 'appended', split, end)].filter(Boolean);
}

// A part ends where a piece of sections ends, and where another piece of segments is drawn. Of a file with sections,
// what is in none of them is padding if its bytes are the same.
/** Returns the parts: their starts and ends, the pieces that are drawn, and how many of sections lie there; the pieces
 * past the end, cut there, and over others; and those that are appended. */
export const parts = once(() => {
    const of_sections = pieces_of_sections(), of_segments = pieces_of_segments(), size = file.content.length;
    const past = [...of_sections.past, ...of_segments.past], of_cut = [...of_sections.cut, ...of_segments.cut];
    const last = [...of_sections.found, ...of_segments.found].reduce((most, { end }) => Math.max(most, end), 0);
    const added = past.length + of_cut.length > 0 ? [] : appended(last), first = [...of_sections.found, ...added];
    const second = [...of_sections.cut, ...of_segments.found, ...of_segments.cut];
    const ends = new Set([0, size, ...ends_of(first)]);
    const cuts = Float64Array.from(new Set([...ends, ...ends_of(second)])).sort();
    const over = new Cover(first), under = new Cover(second), starts = [], tops = [], depths = [];
    for (const cut of cuts.slice(0, -1)) {
        const { top, depth } = over.go_to(cut), below = under.go_to(cut).top, drawn = top ?? below;
        if (!ends.has(cut) && drawn === tops.at(-1)) continue;
        starts.push(cut);
        tops.push(drawn);
        depths.push(depth);
    }
    starts.push(size);
    tops.forEach((top, i) => {
        if (!top || (top.is_rest && !top.is_cut)) tops[i] = padding(starts[i], starts[i + 1]) ?? top;
    });
    return { starts, ends: starts.slice(1), tops, depths, first, second, past, cut: of_cut, added,
        over: overlapping(of_sections.found) };
});

export const is_compressed = (section) => (section.sh_flags & goblin.SHF_COMPRESSED) !== 0n
    || (is_debug(section) && name_of_section(section).startsWith('.z'));
const of_section = (index, section) => `${called(index, section)}${is_compressed(section) ? ' (compressed)' : ''}`;

/** Returns a piece with its title. That of a piece that is cut says how much of it is in the file. */
export function titled({ section, title = of_section(section, section_at(section)), ...piece }) {
    const { start, end, size, is_cut, offset } = piece;
    if (is_cut && start >= end) return { ...piece, title: `${title} at ${hex(offset)}` };
    return { ...piece,
        title: is_cut ? `${title} (cut: ${count(end - start)} of ${count(size)} bytes are here)` : title };
}

// How many pieces of a part are named at most.
const MOST_NAMED = 8;

/** Returns the pieces of a part, at most a number: the one that is drawn, then others of its kind. */
export function pieces_at(index) {
    const { starts, ends, tops, first, second, depths } = parts(), top = tops[index];
    const is_other = (piece) => piece !== top && piece.start <= starts[index] && ends[index] <= piece.end;
    return [...(top ? [top] : []), ...(depths[index] > 0 ? first : second).filter(is_other).slice(0, MOST_NAMED)]
        .map((piece) => titled(piece));
}

export const part_at = (byte) => Math.min(first_after(parts().ends, byte), parts().tops.length - 1);
