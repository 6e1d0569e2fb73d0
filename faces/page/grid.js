// Lists of any length, of which only the visible rows are drawn.
import { apart, button, clamp, is_of_browser, make, put_text } from './dom.js';

// The greatest height of an element in all engines (a longer list is scrolled in proportion), how many rows are
// requested at once, how many such blocks are kept, and the space between columns, in pixels.
const HIGHEST = 6e6, BLOCK = 128, KEPT = 64, GAP = 12;
const NEXT_ORDER = { none: 'ascending', ascending: 'descending', descending: 'none' };
let ids = 0;

// A list: columns { title, least, share, is_right, is_dim, hint }, and rows(from, size), which promises the cells of
// some rows. `chosen` and `opened` are called with the position of a row, and `sorted` with a column and an order.
export class Grid {
    length = 0; active = -1; column = 0; version = 0; lines = []; blocks = new Map(); unmeasured = new Set();

    constructor(label, columns, { rows, chosen = () => {}, opened = () => {}, sorted, high = 24, kind = '' }) {
        Object.assign(this, { columns, rows, chosen, opened, sorted, high, needs: columns.map(() => 0) });
        this.body = make('div', {
            class: 'body', role: 'rowgroup', onclick: (event) => this.click(event),
            ondblclick: () => { if (this.active >= 0) this.opened(this.active); },
        });
        const heads = columns.map(({ title, is_right, hint }, column) => make('div',
            { class: `cell ${is_right ? 'right' : ''}`, role: 'columnheader', 'aria-sort': 'none', title: hint },
            sorted ? button(title, () => this.sort(column)) : title));
        const given = { class: 'row', role: 'row', id: `list-${++ids}-head`, 'aria-rowindex': '1' };
        this.head = make('div', given, ...heads);
        this.unmeasured.add(this.head);
        this.heads = make('div', { class: 'heads' }, this.head);
        const has_heads = columns.some(({ title }) => title);
        this.scroller = make('div', {
            class: 'grid', role: 'grid', tabindex: '0', 'aria-label': label, 'aria-colcount': columns.length,
            'aria-owns': has_heads && this.head.id, onkeydown: (event) => this.key(event), onscroll: () => {
                this.heads.scrollLeft = this.scroller.scrollLeft;
                this.draw_soon();
            },
        }, this.body);
        new ResizeObserver(() => this.draw_soon()).observe(this.scroller);
        // (the column heads are before the list, for the keyboard, too)
        this.box = make('div', { class: `list-box ${kind}` }, has_heads && this.heads, this.scroller);
        this.box.style.setProperty('--high', `${high}px`);
    }

    sort(column) {
        const now = NEXT_ORDER[this.head.children[column].ariaSort];
        this.show_order(column, now);
        this.sorted(now === 'none' ? 0 : column, now === 'descending');
    }

    /** Marks the column that the rows are sorted by, and the order: `ascending`, `descending` or `none`. */
    show_order(column, order) {
        [...this.head.children].forEach((cell, i) => cell.setAttribute('aria-sort', i === column ? order : 'none'));
    }

    rename(column, { title, hint }) {
        const cell = this.head.children[column];
        cell.title = hint;
        cell.firstChild.textContent = title;
        this.needs[column] = 0;
        this.unmeasured.add(this.head);
    }

    /** Shows a number of rows from the first one on, and marks one as the active row, unless it is -1. */
    show(length, active = -1) {
        this.length = length;
        this.active = active;
        this.version++;
        this.blocks.clear();
        this.scroller.setAttribute('aria-rowcount', length + 1);
        this.body.style.height = `${Math.min(length * this.high, HIGHEST)}px`;
        this.scroller.scrollTop = 0;
        this.draw();
    }

    get room() { return this.scroller.clientHeight; }
    get seen() { return Math.floor(this.room / this.high); }
    get is_long() { return this.length * this.high > HIGHEST; }
    // The texts of the active row's cells, if they are there, and its line, if it is drawn.
    get active_cells() {
        const { rows } = this.blocks.get(Math.floor(this.active / BLOCK)) ?? {};
        return rows?.[this.active % BLOCK].slice(0, this.columns.length);
    }
    get active_line() { return this.lines.find((line) => line.at === this.active && line.isConnected); }

    first() {
        const { scrollTop } = this.scroller;
        if (!this.is_long)
            return { index: Math.floor(scrollTop / this.high), top: Math.floor(scrollTop / this.high) * this.high };
        const part = scrollTop / Math.max(HIGHEST - this.room, 1);
        return { index: Math.round(Math.min(part, 1) * Math.max(this.length - this.seen, 0)), top: scrollTop };
    }

    draw_soon() {
        if (this.frame) return;
        // (one that another list has replaced asks for no rows)
        this.frame = requestAnimationFrame(() => { this.frame = 0; if (this.scroller.isConnected) this.draw(); });
    }

    // Gives the column with the greatest share its least width, and each other one that, or what its texts seen so far
    // need if that is less. Then each in turn gets what it needs while there is room, and the first one the rest. If
    // they do not fit into the window, the first one may take more than half of that.
    fit() {
        const { columns, needs, scroller: { clientWidth: room } } = this,
            in_turn = [...columns.keys()].sort((a, b) => (columns[b].share ?? 0) - (columns[a].share ?? 0)),
            [first] = in_turn;
        const widths = columns.map(({ least }, i) => (i === first ? least : Math.min(least, needs[i] || least))),
            sum = () => widths.reduce((all, wide) => all + wide + GAP, GAP);
        if (sum() > room) widths[first] = Math.max(widths[first], Math.min(needs[first], 0.6 * room));
        this.box.style.setProperty('--least', `${sum()}px`);
        for (const [i, need] of [...in_turn.map((i) => [i, needs[i]]), [first, Infinity]])
            widths[i] += Math.max(Math.min(need - widths[i], room - sum()), 0);
        this.box.style.setProperty('--columns', widths.map((wide) => `${wide}px`).join(' '));
        this.fitted = `${needs} ${room}`;
    }

    // Measures the texts of rows that are new. (A head has an arrow, too, if the rows are sorted by it.)
    measure() {
        const range = new Range();
        for (const { children } of this.unmeasured) this.columns.forEach(({ put }, i) => {
            const head = children[i].querySelector('button'), { scrollWidth, clientWidth } = children[i];
            range.selectNodeContents(head ?? children[i]);
            const { width } = range.getBoundingClientRect(),
                need = Math.ceil(scrollWidth > clientWidth ? scrollWidth : width) + (head ? 14 : 1);
            if (!put && need > this.needs[i]) this.needs[i] = need;
        });
        this.unmeasured.clear();
    }

    draw() {
        const { index, top } = this.first();
        const size = clamp(this.length - index, 0, Math.ceil(this.room / this.high) + 1);
        while (this.lines.length < size) this.lines.push(this.make_line());
        this.lines.forEach((line, i) => {
            if (i >= size) { line.remove(); return; }
            if (!line.isConnected) this.body.append(line);
            line.style.transform = `translateY(${top + i * this.high}px)`;
            this.fill(line, index + i);
        });
        if (this.scroller.clientWidth > 0) this.measure();
        if (this.fitted !== `${this.needs} ${this.scroller.clientWidth}`) this.fit();
        // (the whole row, unless another cell than its first one is active)
        const line = this.active_line, active = this.column ? line?.children[this.column] : line;
        this.scroller.setAttribute('aria-activedescendant', active?.id ?? '');
    }

    make_line() {
        const cells = this.columns.map(({ is_right, is_dim }) =>
            make('div', { class: `cell ${is_right ? 'right' : ''} ${is_dim ? 'dim' : ''}`, role: 'gridcell',
                id: `cell-${++ids}` }));
        return make('div', { class: 'row', role: 'row', id: `row-${++ids}` }, ...cells);
    }

    fill(line, at) {
        line.at = at;
        line.setAttribute('aria-rowindex', at + 2);
        line.setAttribute('aria-selected', at === this.active);
        [...line.children].forEach((cell, i) => cell.classList.toggle('on', at === this.active && i === this.column));
        const row = this.block(Math.floor(at / BLOCK))?.[at % BLOCK];
        if (line.row === row && row) return;
        line.row = row;
        this.unmeasured.add(line);
        // (an item whose bytes are refused has a word after its cells)
        const mark = row?.[this.columns.length];
        line.classList.toggle('bad', Boolean(mark));
        this.columns.forEach((column, i) => {
            const cell = line.children[i];
            if (column.put) { column.put(cell, row?.[i]); return; }
            const text = row ? row[i] ?? '' : i === 0 ? '…' : '';
            put_text(cell, text);
            // (the whole text of a cell is its tooltip)
            cell.title = mark ? `${apart(text)} (its bytes are ${mark})` : apart(text);
        });
    }

    // Draws the rows of a block, once the worker has sent them.
    block(place) {
        const found = this.blocks.get(place);
        if (found) return found.rows;
        const block = {}, { version } = this;
        this.blocks.set(place, block);
        if (this.blocks.size > KEPT) this.blocks.delete(this.blocks.keys().next().value);
        this.rows(place * BLOCK, BLOCK).then((rows) => {
            if (version !== this.version) return;
            block.rows = rows;
            this.draw_soon();
        });
        return undefined;
    }

    click(event) {
        const line = event.target.closest('.row');
        if (!line) return;
        this.column = Math.max([...line.children].indexOf(event.target.closest('.cell')), 0);
        this.choose(line.at);
    }

    /** Makes a row the active one, and scrolls to it. */
    activate(at) {
        if (this.length === 0) return;
        this.active = clamp(at, 0, this.length - 1);
        const { seen, is_long, active } = this, { index } = this.first();
        const first = Math.max(Math.min(index, active), active - seen + 1);
        if (first !== index || (active === index && !is_long))
            this.scroller.scrollTop = is_long ? first / Math.max(this.length - seen, 1) * (HIGHEST - this.room)
                : first * this.high;
        this.draw();
    }

    leave() {
        this.active = -1;
        this.draw();
    }

    choose(at, is_step = false) {
        this.activate(at);
        if (this.length > 0) this.chosen(this.active, is_step);
    }

    key(event) {
        const { length } = this, page = Math.max(this.seen - 1, 1), sides = { ArrowLeft: -1, ArrowRight: 1 };
        const steps = { ArrowDown: 1, ArrowUp: -1, PageDown: page, PageUp: -page, Home: -length, End: length };
        if (is_of_browser(event)) return;
        if (event.key in steps) {
            this.choose(this.active < 0 ? (event.key === 'End' ? this.length : 0)
                : this.active + steps[event.key], true);
        } else if (event.key in sides && this.active >= 0) {
            this.column = clamp(this.column + sides[event.key], 0, this.columns.length - 1);
            this.draw();
            this.active_line?.children[this.column].scrollIntoView({ block: 'nearest', inline: 'nearest' });
        } else if (event.key === 'Enter' && this.length > 0) {
            this.opened(Math.max(this.active, 0));
        } else {
            return;
        }
        event.preventDefault();
    }
}
