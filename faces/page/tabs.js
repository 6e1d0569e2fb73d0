// The tabs: the header's fields, and the lists with their searches.
import { area_panel } from './area.js';
import { after_typing, apart, button, copy, count, fill, focus_chosen, get, hex, in_bytes, is_of_browser, make, say,
    visible } from './dom.js';
import { Grid } from './grid.js';
import { refusal_of } from './hex.js';
import { prepare_paper, set_up_paper } from './paper.js';
import { ask, shown_file } from './reader.js';
import { go } from './route.js';
import { row_of, table_of } from './side.js';

const LISTS = ['sections', 'segments', 'symbols', 'relocations', 'notes', 'layout'];
export const is_list = (name) => LISTS.includes(name);
// The open list: its tab, its section or kind, and its grid.
let open = { name: undefined };

// Returns the number of items in the tables as text, with `+` if there are more, or `refused`.
function sum_of({ refused, found, all }) {
    if (refused || (found.length > 0 && found.every(({ length }) => length === undefined))) return 'refused';
    const known = found.reduce((total, { length = 0 }) => total + length, 0);
    return all > found.length ? `${count(known)}+` : count(known);
}

// Returns that of the notes of sections, or of segments if these have more.
function notes_sum({ sections, segments }) {
    if (sections.length === undefined && !segments.length) return 'refused';
    const { length, refusals, is_cut } = (segments.length ?? 0) > (sections.length ?? 0) ? segments : sections;
    return refusals.length || is_cut ? `${count(length)}+` : count(length);
}

export function show_tabs() {
    const { sections, segments, symbols, relocations, notes, map } = shown_file.summary;
    const length_of = ({ refused, length }) => (refused ? 'refused' : count(length));
    const numbers = {
        Summary: '', Header: '', Sections: length_of(sections), Segments: length_of(segments), Symbols: sum_of(symbols),
        Relocations: sum_of(relocations), Notes: notes_sum(notes), Layout: count(map.kinds.length), Sizes: '',
    };
    open = { name: undefined };
    fill(get('tabs'), ...Object.entries(numbers).map(([title, number]) => {
        const name = title.toLowerCase(), given = { role: 'tab', id: `tab-${name}`, 'aria-controls': 'panel' };
        return button(`${title} `, () => go(name), { ...given, 'aria-selected': 'false', tabindex: '-1' },
            make('span', { class: number === 'refused' && 'bad' }, number));
    }));
}

export function set_up_tabs() {
    set_up_paper(() => open, summary_panel);
    get('tabs').addEventListener('keydown', (event) => {
        const all = [...get('tabs').children], at = all.findIndex((tab) => tab.ariaSelected === 'true');
        const next = { ArrowRight: at + 1, ArrowLeft: at - 1 + all.length, Home: 0, End: all.length - 1 }[event.key];
        if (next === undefined || is_of_browser(event)) return;
        event.preventDefault();
        all[next % all.length].click();
        all[next % all.length].focus();
    });
    addEventListener('copy', (event) => {
        const { grid } = open, cells = grid?.active_cells;
        if (document.activeElement !== grid?.scroller || grid.active < 0 || !getSelection().isCollapsed) return;
        event.preventDefault();
        if (!cells) { copy_cell(grid); return; } // (it is out of view, and read first)
        event.clipboardData.setData('text/plain', visible(cells[grid.column]));
        say('Copied: the cell');
    });
}

function select_tab(name) {
    for (const tab of get('tabs').children) {
        const is_chosen = tab.id === `tab-${name}`;
        tab.setAttribute('aria-selected', is_chosen);
        tab.tabIndex = is_chosen ? 0 : -1;
    }
    document.body.dataset.tab = name;
    get('panel').setAttribute('aria-labelledby', `tab-${name}`);
}

/** Opens a tab with a section or kind. Returns, once it is shown, whether it still is. */
export async function open_tab(name, of) {
    if (open.name === name && (of === undefined || open.of === of)) {
        await open.ready;
        return open.name === name;
    }
    const mine = open = { name, of }, panels = { summary: summary_panel, header: header_panel, sizes: area_panel };
    select_tab(name);
    mine.ready = (panels[name] ?? list_panel)(mine, of).then((content) => {
        if (open !== mine) return;
        const has_focus = get('panel').contains(document.activeElement);
        fill(get('panel'), ...content);
        if (has_focus) get('panel').querySelector('select')?.focus();
        if (mine.grid) mine.grid.scroller.scrollTop = 0; // (in Firefox it begins where the list before it was)
        mine.grid?.draw();
        if (!mine.grid && name !== 'summary') prepare_paper(mine);
    });
    await mine.ready;
    return open === mine;
}

// What the page doesn't name or prove.
const CLOSING = 'Facts rest on fields that proved calls return. What is below “not proved” rests on symbol versions,'
    + ' types of relocations, notes or texts, which this page reads itself, by numbers, or is a name of C++. Numbers'
    + ' without a name are the relocations of Alpha and of all machines but x86, ARM, AArch64, MIPS, 64-bit PowerPC,'
    + ' RISC-V and s390, and SPARC’s symbol type STT_REGISTER.';
// Returns the facts in words. Those that the page reads itself are below a mark.
async function summary_panel() {
    const line = (fact) => {
        const row = row_of(fact);
        for (const more of fact.also ?? []) row.lastChild.append(' ', make('br'), ...row_of(more).lastChild.childNodes);
        return row;
    };
    const group = ({ title, tables }) => make('section', {}, make('h3', {}, title),
        ...tables.flatMap(({ mark, rows }) => [mark && make('span', { class: 'own' }, mark),
            table_of(rows.map(line), { 'aria-label': mark ? `${title}, ${mark}` : title })]));
    const groups = make('div', { class: 'summary' }, ...(await ask('summary')).map(group));
    return [make('div', { class: 'scroll', tabindex: '0' }, groups, make('p', { class: 'others' }, CLOSING))];
}

async function header_panel() {
    const rows = shown_file.summary.header.map((field) => row_of(field, { tabindex: '0', 'data-field': field.name },
        field.name, make('td', { class: 'words' }, field.words),
        make('td', { class: 'dim' }, `${hex(field.at)}, ${in_bytes(field.size)}`)));
    const onclick = ({ target }) => { if (!target.closest('a')) go(`header/${target.closest('tr').dataset.field}`); };
    const onkeydown = (event) => {
        if (!event.target.matches('tr') || !['Enter', ' '].includes(event.key)) return;
        event.preventDefault();
        event.target.click();
    };
    const given = { class: 'fields header', role: 'grid', 'aria-label': 'Fields of the header', onclick, onkeydown };
    return [make('div', { class: 'scroll' }, table_of(rows, given))];
}

/** Marks a field of the header as chosen, and returns what is shown of it, or nothing if there is no such field. */
export function choose_field(wanted) {
    for (const row of get('panel').querySelectorAll('[data-field]'))
        row.setAttribute('aria-selected', row.dataset.field === wanted);
    const field = shown_file.summary.header.find(({ name }) => name === wanted);
    if (!field) return undefined;
    const { at, size, words } = field;
    return { title: wanted, kind: 'header', what: words, fields: [{ ...field, name: 'value' }],
        blocks: [{ word: 'bytes', at, size }, header_block('header')] };
}

export const header_block = (word) =>
    ({ word, at: 0, size: shown_file.summary.header_size, fields: shown_file.summary.header });

// Returns the tables of symbols, relocations or notes to choose from. Other lists have one.
function choices(name) {
    const { notes, [name]: tables } = shown_file.summary;
    const choice = (of, title, length) =>
        ({ of, length, text: `${title} (${length === undefined ? 'refused' : count(length)})` });
    if (name === 'notes') return ['sections', 'segments'].map((of) => choice(of, `of ${of}`, notes[of].length));
    return tables?.found?.map(({ index, name: title, length }) => choice(index, title, length)) ?? [{ of: undefined }];
}

const NONE = {
    symbols: 'The file has no symbols: no section of them (SHT_SYMTAB, SHT_DYNSYM), and no DT_SYMTAB.',
    relocations: 'The file has no relocations: no section of them (SHT_RELA, SHT_REL, SHT_RELR), and no DT_RELA,'
        + ' DT_REL, DT_JMPREL or DT_RELR.',
};
// What is said of tables that are not wholly read by proved calls.
const OWN = {
    packed: 'Packed relocations are read by this page itself, by numbers. They are outside of what is proved.',
    own: 'This page found this table by the entries of the dynamic section, whose meaning is outside of what is proved.'
        + ' Proved calls read the table.',
};

const UNSORTED = { query: '', column: 0, is_descending: false };
async function list_panel(mine, wanted) {
    const { name } = mine, { summary } = shown_file;
    if (summary[name]?.refused) return [await refusal_of(summary[name].refused)];
    let list = choices(name);
    if (wanted !== undefined && !list.some(({ of }) => of === wanted))
        list = [{ of: wanted, text: `section ${wanted}` }, ...list];
    if (list.length === 0) return [make('p', { class: 'empty' }, NONE[name])];
    // (a refusal is shown before an empty list)
    const [longest] = list.toSorted((a, b) => (b.length ?? 0.5) - (a.length ?? 0.5)), of = wanted ?? longest.of;
    Object.assign(mine, { list, of, ...UNSORTED, output: make('output'), below: make('div', { class: 'notice' }) });
    const [columns, others] = await ask('columns', { list: name, of: mine.of });
    mine.grid = new Grid(name, others && is_demangled ? others : columns, {
        rows: (from, size) => ask('rows', { list: name, from, size }),
        chosen: (at, is_step) => go_to_row(mine, at, is_step), opened: (at) => open_row(mine, at),
        sorted: (column, is_descending) => { Object.assign(mine, { column, is_descending }); refresh(mine); },
    });
    const bar = tools(mine, others && [columns, others]);
    await refresh(mine);
    return [bar, mine.below, mine.grid.box];
}

// Shows the list again, for its search and order, and promises whether it is shown: if it is still the open one.
const refresh = (mine) => (mine.shown = show_list(mine));
async function show_list(mine) {
    if (open !== mine || !shown_file.reader) return false; // (or the file is replaced by one that is not shown)
    const { name, of, query, column, is_descending, output, below, grid } = mine;
    const word = query ? 'searching' : column || is_descending ? 'sorting' : 'reading';
    output.textContent = `${word} …`;
    shown_file.reader.on_progress = ({ progress, done }) => {
        if (progress === name) output.textContent = `${word} … ${Math.floor(100 * done)} %`;
    };
    const { is_over, refused, is_none, length, all } =
        await ask('view', { list: name, of, is_demangled, query, column, is_descending });
    const is_shown = !is_over && !refused && !is_none,
        at = is_shown && mine.chosen !== undefined ? await ask('position', { list: name, index: mine.chosen }) : -1;
    if (is_over || open !== mine) return false;
    fill(below, ...await notices_of(mine, { refused, is_none }));
    grid.box.hidden = !is_shown;
    const number = is_shown && (query ? `${count(length)} of ${count(all)}` : count(all));
    output.textContent = refused ? 'refused' : is_none ? 'none' : number;
    mine.saving.hidden = !is_shown || length === 0;
    grid.show(is_shown ? length : 0, at);
    if (is_shown) prepare_paper(mine);
    return true;
}

// Returns the message for a list that is refused, missing or incomplete.
async function notices_of({ name, of }, { refused, is_none }) {
    if (name === 'notes') return note_refusals(of);
    if (is_none) return [make('p', { class: 'empty' }, `Section ${of} holds no ${name}.`)];
    if (refused) return [await refusal_of(refused)];
    const table = shown_file.summary[name]?.found?.find(({ index }) => index === of),
        said = table?.is_packed ? OWN.packed : table?.is_own && OWN.own;
    return [said && make('p', { class: 'others' }, said)];
}

const MOST_REFUSALS = 3;
async function note_refusals(by) {
    const { refusals, is_cut } = shown_file.summary.notes[by];
    const boxes = await Promise.all(refusals.slice(0, MOST_REFUSALS).map((refusal) => refusal_of(refusal)));
    return [...boxes, is_cut && make('p', { class: 'empty' }, 'There are more notes, which are not read.')];
}

async function go_to_row(mine, at, is_step) {
    // (once the worker reads a message, the list may be sorted anew)
    const index = Number(mine.grid.active_cells?.[0] ?? await ask('index', { list: mine.name, at }));
    if (open !== mine) return;
    mine.own = mine.chosen = index; // (the list has already moved to that row, and perhaps on since)
    await go([mine.name, mine.of, index].filter((part) => part !== undefined).join('/'), is_step);
}

// Goes to a row, and to what is shown of it.
async function open_row(mine, at) {
    mine.grid.activate(at);
    await go_to_row(mine, at);
    if (open === mine) focus_chosen();
}

/** Makes the item with an index the active row of the open list, or none. If the search hides it, the search ends. */
export async function activate(index) {
    const mine = open, { name, grid } = mine;
    if (!grid || grid.box.hidden) return;
    const is_own = mine.own === index;
    mine.own = undefined;
    mine.chosen = index;
    if (index === undefined) grid.leave();
    if (index === undefined || is_own) return;
    // (meanwhile another row may be chosen)
    let at = await ask('position', { list: name, index });
    if (at < 0 && mine.chosen === index) {
        Object.assign(mine, UNSORTED);
        mine.search.value = '';
        grid.show_order(0, 'none');
        await refresh(mine);
        at = await ask('position', { list: name, index });
    }
    if (open !== mine || mine.chosen !== index || at < 0) return;
    if (at !== grid.active || !grid.active_line) grid.activate(at);
}

function tools(mine, switched) {
    const { name, list, of, output, grid } = mine, { all = 0, found = [] } = shown_file.summary[name] ?? {};
    const onchange = ({ target }) => go(`${name}/${list[target.selectedIndex].of}`), hidden = all - found.length;
    mine.saving = make('span', { class: 'saving' },
        button('Copy cell', () => copy_cell(grid)),
        button('Copy row', () => copy_active(grid, (cells) => cells.join('\t'), 'the row')),
        button('Save CSV', () => save(mine)));
    mine.search = search_field(mine);
    return make('div', { class: 'tools' },
        list.length > 1 && make('select', { 'aria-label': `Which ${name}`, onchange },
            ...list.map((item) => make('option', { selected: item.of === of }, apart(item.text)))),
        hidden > 0 && make('span', {}, `and ${count(hidden)} more: choose them among the sections`),
        mine.search, switched && demangling(mine, switched), output, mine.saving);
}

// Returns a button that shows names as they are written in C++, in place of the names, for all lists from then on.
let is_demangled = false;
function demangling(mine, switched) {
    return button('Demangle', ({ target }) => {
        is_demangled = !is_demangled;
        target.setAttribute('aria-pressed', is_demangled);
        mine.grid.rename(1, switched[Number(is_demangled)][1]);
        refresh(mine);
    }, { 'aria-pressed': `${is_demangled}`, title: 'names of C++, read by this page and not proved' });
}

function search_field(mine) {
    // Searches for the text in the field, unless that has begun, and promises whether the list is shown for it.
    const look = () => {
        const query = mine.search.value.trim();
        return query === mine.query ? mine.shown : refresh(Object.assign(mine, { query }));
    };
    return make('input', {
        type: 'search', placeholder: 'Search: text or 0x…',
        'aria-label': `Search ${mine.name} by text, offset or address`, spellcheck: 'false', autocomplete: 'off',
        oninput: after_typing(look),
        onkeydown: async ({ key }) => {
            if (key === 'Enter' && await look() && mine.grid.length > 0) open_row(mine, 0);
        },
    });
}

// Copies the result of a function for the active row's cells, whose invisible characters are made visible.
async function copy_active(grid, of, what) {
    const [row] = grid.active < 0 ? [] : await grid.rows(grid.active, 1);
    if (row) copy(of(row.slice(0, grid.columns.length).map(visible)), what); else say('Choose a row first');
}
const copy_cell = (grid) => copy_active(grid, ({ [grid.column]: cell }) => cell, 'the cell');

async function save({ name, output }) {
    const { reader, title } = shown_file, before = output.textContent;
    let said = before;
    reader.on_progress = ({ progress, done }) => {
        if (progress === 'csv') output.textContent = said = `saving … ${Math.floor(100 * done)} %`;
    };
    const content = await ask('csv', { list: name });
    if (output.textContent === said) output.textContent = before; // (else the list was searched meanwhile)
    const link = make('a', { href: URL.createObjectURL(content), download: `${visible(title)}.${name}.csv` });
    link.click();
    setTimeout(() => URL.revokeObjectURL(link.href), 60000);
}
