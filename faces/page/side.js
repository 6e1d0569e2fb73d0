// The side: what is chosen, with its fields, links and bytes.
import { apart, button, copy, fill, focus_chosen, get, hex, in_bytes, joined, make, put_text } from './dom.js';
import { bytes_in, copy_hex, hex_view, light, refusal_of } from './hex.js';
import { dot } from './map.js';

const SIDE_BYTES = 8, SIDE_WIDTH = 372;
export const link_to = ({ text, to }) => put_text(make('a', { href: `#${to}` }), text);

function value_of({ value, meaning, links }) {
    const said = meaning && put_text(make('span', { class: 'meaning' }), meaning);
    return make('td', {}, ...joined(value && put_text(make('span'), value), said, ...links.map(link_to)));
}

/** Returns the row of a field, with a name or an element at its head, and perhaps other cells. */
export const row_of = (field, given = {}, head = field.name, ...cells) =>
    make('tr', given, make('th', { scope: 'row' }, head), value_of(field), ...cells);

export const table_of = (rows, given) => make('table', { class: 'fields', ...given }, make('tbody', {}, ...rows));

// Returns the width that bytes have. In a low window they are beside the fields.
const room = () => (getComputedStyle(get('chosen')).display === 'grid' ? SIDE_WIDTH : get('chosen').clientWidth);

async function content_of({ at, size, refused, fields }) {
    if (refused) return [await refusal_of(refused, SIDE_BYTES)];
    const lies = at === undefined ? 'no bytes in the file' : `${hex(at)} to ${hex(at + size)}, ${in_bytes(size)}`;
    return [make('p', { class: 'lies' }, lies), size > 0 && hex_view(at, size, shown_each = bytes_in(room()), fields)];
}

// Returns the view of the chosen block of bytes, at first the first one.
async function bytes_box(blocks) {
    let current;
    const content = make('div', { class: 'content' });
    const copying = button('Copy hex', () => copy_hex(current.at, current.size), { class: 'copy' });
    const choices =
        blocks.map((block) => button(apart(block.word), () => show(block), { title: apart(block.word) }));
    const show = async (block) => {
        current = block;
        choices.forEach((choice, i) => choice.setAttribute('aria-pressed', blocks[i] === block));
        copying.hidden = !(block.size > 0);
        const shown = await content_of(block);
        if (current === block) fill(content, ...shown);
    };
    shown_again = () => show(current);
    await show(blocks[0]);
    return { box: make('div', { class: 'bytes' }, make('div', { class: 'blocks' }, ...choices, copying), content),
        show };
}

// How many bytes a row has, and what shows the bytes again once the width has changed.
let shown_each, shown_again;
export function set_up_side() {
    for (const event of ['pointerover', 'focusin'])
        get('chosen').addEventListener(event, ({ target }) => light(target.closest('[data-field]')?.dataset.field));
    addEventListener('resize', () => { if (shown_again && bytes_in(room()) !== shown_each) shown_again(); });
}

// Returns a button that lets what is chosen take the place of the list, with more bytes in a row.
function widening() {
    const { classList } = document.body;
    const widen = ({ target }) => { target.setAttribute('aria-pressed', classList.toggle('wide')); shown_again?.(); };
    return button('Wide', widen,
        { class: 'copy widen', 'aria-pressed': `${classList.contains('wide')}`, title: 'in place of the list' });
}

const copying_link = (link) =>
    button('Copy link', () => copy(`${location.href.split('#')[0]}#${link}`, 'a link by the name'), { class: 'copy' });

let asked = 0;
/** Shows the worker's description of what is chosen. */
export async function show_side({ title, what, kind, link, fields = [], blocks = [] }) {
    const mine = ++asked, bytes = blocks.length > 0 && await bytes_box(blocks),
        record = blocks.find((block) => block.fields);
    if (mine !== asked) return;
    const sub = put_text(make('p', { class: 'sub' }), what);
    sub.prepend(kind ? dot(kind) : '');
    sub.append(widening(), link ? copying_link(link) : '');
    // (the name of a field of a record shows its bytes)
    const rows = fields.filter(Boolean).map((field) => {
        const tint = record?.fields.findIndex(({ name }) => name === field.name) ?? -1;
        if (tint < 0) return row_of(field);
        const head = button(field.name, () => bytes.show(record).then(() => light(field.name)),
            { title: 'show its bytes' });
        return row_of(field, { 'data-field': field.name, 'data-tint': tint % 4 }, head);
    });
    const has_focus = get('chosen').contains(document.activeElement);
    fill(get('chosen'), put_text(make('h2', { tabindex: '-1' }), title), sub,
        rows.length > 0 && make('div', { class: 'list' }, table_of(rows)), bytes.box);
    if (has_focus) focus_chosen();
}
