// Bytes of the file: a view of any number of them, and the bytes of a refusal.
import { copy, fill, get, in_bytes, make, put_text, two_digits } from './dom.js';
import { Grid } from './grid.js';
import { ask } from './reader.js';

const MOST_COPIED = 1 << 20, MOST_MARKED = 256;
const place = (at) => at.toString(16).padStart(8, '0');
const printed = (byte) => (byte > 0x1f && byte < 0x7f ? String.fromCharCode(byte) : '·');
const holds = ({ at, size }, byte) => byte >= at && byte < at + size;

let lit;
/** Marks a field of a record in its row and in its bytes, or none. */
export function light(name) {
    lit = name;
    for (const item of get('chosen').querySelectorAll('[data-field]'))
        item.classList.toggle('lit', item.dataset.field === name);
}

export const bytes_in = (width) => (width >= 1060 ? 32 : width >= 590 ? 16 : 8);

/** Returns a view of bytes of the file. Those of a record's fields have the fields' colours and names. */
export function hex_view(at, size, each, fields = []) {
    const first = Math.floor(at / each) * each;
    const node_of = (text, byte) => {
        const tint = fields.findIndex((field) => holds(field, byte)), title = fields[tint]?.name;
        const given = { 'data-field': title, 'data-tint': tint % 4, title, class: title === lit && 'lit' };
        return title ? make('i', given, text) : holds({ at, size }, byte) ? text : make('span', { class: 'dim' }, text);
    };
    const put = (of, between) => (cell, row = []) => fill(cell, ...row.flatMap((byte, i) =>
        [node_of(of(byte), row.at + i), i < each - 1 && between]));
    const wide = Math.ceil((3 * each - 1) * 7.3) + 10;
    const columns = [{ least: 74, is_dim: true }, { least: wide, put: put(two_digits, ' ') },
        { least: 60, share: 1, put: put(printed) }];
    const rows = async (from, count) => {
        const bytes = await ask('bytes', [first + from * each, count * each]);
        return Array.from({ length: Math.ceil(bytes.length / each) }, (_, i) => {
            const row = Object.assign([...bytes.subarray(i * each, (i + 1) * each)], { at: first + (from + i) * each });
            return [place(row.at), row, row];
        });
    };
    const grid = new Grid('Bytes of the file', columns, { rows, high: 20, kind: 'hex' });
    queueMicrotask(() => grid.show(Math.ceil((at + size - first) / each)));
    return grid.box;
}

export async function copy_hex(at, size) {
    const bytes = await ask('bytes', [at, Math.min(size, MOST_COPIED)]), what = in_bytes(bytes.length);
    await copy(Array.from(bytes, two_digits).join(' '), size > MOST_COPIED ? `the first ${what}` : what);
}

const bytes_of_line = () => (innerWidth < 600 ? 8 : 16);

/** Returns bytes in lines. Those for which `is_marked` returns true are marked. */
export function lines_of(bytes, first, is_marked, each = bytes_of_line()) {
    const lines = make('pre', { 'aria-label': 'The bytes that say so', tabindex: '0' });
    for (let line = 0; line < bytes.length; line += each) {
        const row = [...bytes.subarray(line, line + each)];
        const put = (text, i) => (is_marked(first + line + i) ? make('b', {}, text) : text);
        lines.append(make('span', {}, place(first + line)), '  ');
        row.forEach((byte, i) => lines.append(put(two_digits(byte), i), ' '));
        lines.append('   '.repeat(each - row.length), ' ', ...row.map((byte, i) => put(printed(byte), i)), '\n');
    }
    return lines;
}

/** Returns a refusal: the library's text, what was being read, and the bytes that hold its offset. */
export async function refusal_of({ text, kind, what, marks, words }, each = bytes_of_line()) {
    const box = make('div', { class: 'refused', role: 'group', 'aria-label': 'Refusal' },
        words && put_text(make('p', { class: 'plainly' }), words),
        make('h3', {}, 'Refused: ', put_text(make('span'), text)),
        put_text(make('p', { class: 'what' }), `Refusal ${kind}, while reading ${what}.`));
    if (marks.length === 0) return box;
    const first = Math.floor(Math.min(...marks.map(({ at }) => at)) / each) * each;
    const most = Math.max(...marks.map(({ at, size }) => at + size));
    const bytes = await ask('bytes', [first, Math.min(Math.ceil((most - first) / each) * each, MOST_MARKED)]);
    box.append(lines_of(bytes, first, (byte) => marks.some((mark) => holds(mark, byte)), each));
    return box;
}
