// What is printed: the summary, and all of the open tab, over as many sheets as it takes. A page can't wait for its
// worker once it is printed, so what is printed of a list is requested as soon as the list is shown.
import { count, get, make, put_text, visible } from './dom.js';
import { ask, shown_file } from './reader.js';

// How many rows of a list and about how many characters are printed at most, and the length of a text that may take
// several lines.
const MOST = 300000, CHARACTERS = 1 << 26, LONG = 24;
// A function that returns the panel of the summary.
let summary_panel;

/** Requests what is printed of a tab: the panel of the summary, and the texts of a list's rows. */
export async function prepare_paper(mine) {
    const { summary } = shown_file;
    mine.text = undefined;
    summary.panel ??= await summary_panel();
    if (mine.grid) mine.text = await ask('text', { list: mine.name, most: MOST, characters: CHARACTERS });
}

function table_of({ head, columns }, lines) {
    const body = make('tbody'), titles = Array.from(head.children, ({ textContent }, i) =>
        make('th', { class: columns[i].is_right && 'right' }, textContent));
    for (const line of lines) {
        const row = body.insertRow();
        line.split('\t').forEach((cell, i) => Object.assign(row.insertCell(), { textContent: cell,
            className: `${columns[i].is_right ? 'right' : ''} ${cell.length > LONG ? 'long' : ''}` }));
    }
    return make('table', { class: 'rows' }, make('thead', {}, make('tr', {}, ...titles)), body);
}

// Returns the title of a list, with the table that is chosen and the text that is searched.
function title_of({ name, list, of, query, output }) {
    const words = [list?.find((item) => item.of === of)?.text, query && `${output.textContent}, with “${query}”`];
    return visible([get(`tab-${name}`).textContent, ...words.filter(Boolean)].join(', '));
}

function content_of({ grid, text, below }) {
    if (!grid || grid.box.hidden) return [...get('panel').cloneNode(true).children];
    if (text === undefined)
        return [make('p', {}, 'The list was still being read when this was printed. Print it again in a moment.')];
    const lines = text ? text.split('\n') : [], first = `These are the first ${count(lines.length)} rows.`;
    return [below.cloneNode(true), grid.length > lines.length && make('p', {}, first), table_of(grid, lines)];
}

/** Sets functions that return the open tab, and the panel of the summary. */
export function set_up_paper(opened, panel) {
    summary_panel = panel;
    addEventListener('beforeprint', () => {
        const mine = opened(), { summary } = shown_file;
        get('paper')?.remove(); // (a browser may print again before it says that it has printed)
        if (!summary || !mine.name) return;
        const before = mine.name === 'summary' ? [] : [...summary.panel ?? [], put_text(make('h2'), title_of(mine))];
        document.body.append(make('div', { id: 'paper', class: 'paper' }, ...get('file').cloneNode(true).children,
            ...before, ...content_of(mine)));
    });
    addEventListener('afterprint', () => get('paper')?.remove());
}
