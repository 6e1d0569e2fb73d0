// The map: the file's parts, to scale, with functions, what their bytes are like, what is loaded, and what is chosen.
import { apart, clamp, fill, get, hex, in_bytes, is_of_browser, make, plural, put_text, two_digits,
    visible } from './dom.js';
import { ask, shown_file } from './reader.js';
import { go } from './route.js';
import { first_after, visible_ranges } from './spans.js';

// In pixels: the heights of a row's bar and of the strip below it, the distance to the next row, the space above, and
// the space on the right; the least widths of a function, of a piece with a name, and of a byte with its digits; and
// how far a click moves, and the wheel for a step.
const BAND = 14, STRIP = 4, STEP = 24, TOP = 8, RIGHT = 10, LEAST = 2, LEAST_NAMED = 34, DIGITS = 15,
    CLICK = 4, TURN = 60;
// Of rows the greatest number, the share of the window, and the fewest bytes of one.
const MOST_ROWS = 16, SHARE = 1 / 3, LOW = 600, FEWEST = 16;
const KIND_WORDS = { header: 'ELF header', tables: 'header tables', names: 'symbols and names',
    debug: 'debug information', appended: 'appended bytes' };
const words_of = (kind) => KIND_WORDS[kind] ?? kind;
const colour = (kind) => getComputedStyle(document.documentElement).getPropertyValue(`--${kind}`);
/** Returns black or white: the one that is readable on a colour. */
export const readable_on = (shade) => `oklch(from ${shade} clamp(0, (0.564 - l) * 1000, 1) 0 0)`;

export function dot(kind) {
    const item = make('i');
    item.style.background = `var(--${kind})`;
    return item;
}

const canvas = get('canvas'), pen = canvas.getContext('2d');
// The map's parts, the view, and what the worker has sent of a view.
const map = { rows: MOST_ROWS, view: { start: 0, each: 1 } };

export function show_map(parts, size) {
    const nothing = { inside: { classes: [], bytes: [], symbols: [], parts: [] }, asked: {}, over: undefined,
        chosen: undefined, whole: undefined };
    Object.assign(map, parts, nothing, { ends: parts.starts.subarray(1), size, at: -1 });
    canvas.ariaValueMax = Math.max(map.kinds.length - 1, 0);
    show_legend();
    fit();
    describe(undefined);
}

const CUT = 'hatched: cut at the file’s end', OVERLAPPING = 'hatched: overlapping';
function show_legend() {
    const sums = new Map(), add = (name, i) => sums.set(name, (sums.get(name) ?? 0) + map.ends[i] - map.starts[i]);
    map.kinds.forEach((kind, i) => {
        add(map.KINDS[kind] ?? 'gap', i);
        if (map.depths[i] > 1) add(OVERLAPPING, i);
        if (map.cuts[i]) add(CUT, i);
    });
    const line = (content, kind) => make('li', {}, kind && dot(kind), content);
    const share = (name) => `${words_of(name)} ${(100 * sums.get(name) / map.size).toFixed(1)} %`;
    const is_small = (name) => sums.get(name) / map.size < 0.0005, { words, to } = map.past;
    const kinds = [...map.KINDS, 'gap'].filter((name) => sums.has(name)), small = kinds.filter(is_small);
    fill(get('legend'), ...kinds.filter((name) => !is_small(name)).map((name) => line(share(name), name)),
        small.length > 0 && line(`each below 0.05 %: ${small.map(words_of).join(', ')}`),
        ...[OVERLAPPING, CUT].filter((name) => sums.has(name)).map((name) => line(share(name))),
        words && line(put_text(make('a', { class: 'past', href: `#${to}` }), words)), line('strip below:'),
        ...map.CLASSES.map((name, i) => line(name, `in-${i}`)), map.segments.length > 0 && line('line below: loaded'));
}

// Gives the map its share of the window, in rows, and a row its bytes. The whole file is shown if it was before.
function fit() {
    if (!shown_file.summary) return;
    const others = canvas.parentElement.offsetHeight - canvas.offsetHeight, is_whole = !(map.view.each < map.whole);
    const high = innerHeight * (innerHeight > LOW ? SHARE : SHARE / 3) - others - TOP - 4;
    map.rows = clamp(Math.floor(high / STEP), 1, MOST_ROWS);
    const least = Math.max(map.size / map.rows, FEWEST),
        quarter = 2 ** Math.floor(Math.log2(least)) / 4; // (so offsets are round numbers)
    map.whole = Math.ceil(least / quarter) * quarter;
    if (is_whole || map.view.each >= map.whole) map.view = { start: 0, each: map.whole };
    draw_map();
}

const part_at = (byte) => Math.min(first_after(map.ends, byte), map.kinds.length - 1);
const end_of_view = () => Math.min(map.view.start + map.view.each * map.rows, map.size);
const rows_of_view = () => Math.max(Math.ceil((end_of_view() - map.view.start) / map.view.each), 1);
const is_in_view = (byte) => map.view.start <= byte && byte < end_of_view();

function paint(shade, x, y, width, high) {
    pen.fillStyle = shade;
    pen.fillRect(x, y, width, high);
}

function write(text, shade, x, y) {
    pen.fillStyle = shade;
    pen.fillText(text, x, y + BAND / 2 + 1);
}

// Draws a range, cut at the ends of the rows, by to(x, width, y) for each piece, in units of the canvas.
function over_rows(from, to, draw) {
    const { start, each } = map.view, last = Math.min(Math.ceil((to - start) / each), rows_of_view());
    for (let row = Math.max(Math.floor((from - start) / each), 0); row < last; row++) {
        const base = start + row * each, left = Math.max(from - base, 0) / each * map.bar,
            right = Math.min(to - base, each) / each * map.bar;
        if (right > left) draw(map.left + left, right - left, TOP + row * STEP);
    }
}

// Gives the canvas the size of its rows, which clears it.
function size_canvas() {
    const scale = devicePixelRatio, wide = canvas.clientWidth, high = TOP + rows_of_view() * STEP + 2;
    const left = 30 + 7 * hex(map.size).length;
    Object.assign(map, { wide, left, bar: Math.max(wide - left - RIGHT, 1) });
    canvas.style.height = `${high + 2 * canvas.clientTop}px`;
    Object.assign(canvas, { width: Math.round(wide * scale), height: Math.round(high * scale) });
    pen.scale(scale, scale);
    pen.textBaseline = 'middle';
}

// Draws the map: kinds in the bars, and contents in the strips below, or if digits have room, the other way round.
function draw_map() {
    size_canvas();
    const has_digits = map.inside.bytes.length && map.bar / map.view.each >= DIGITS;
    const bars = { down: 0, high: BAND }, strips = { down: BAND, high: STRIP };
    const [kinds, contents] = has_digits ? [strips, bars] : [bars, strips];
    draw_offsets();
    draw_segments();
    draw_parts(kinds);
    const drawn = draw_symbols(kinds);
    draw_contents(contents, has_digits);
    if (!has_digits) draw_names(drawn);
    if (map.over) outline(map.over, 'dim', 1);
    if (map.chosen) outline(map.chosen, 'ink', 2);
    draw_past();
    ask_inside();
}

// Asks the worker for what is inside the parts of the view, one view at a time, and draws the map again.
async function ask_inside() {
    const { view: { start, each }, bar, rows, asked } = map, columns = Math.min(each, Math.ceil(bar / 2));
    const view = { start, end: start + each * rows, step: each / columns, columns, least: LEAST * each / bar,
        least_named: LEAST_NAMED * each / bar }, key = JSON.stringify(view);
    if (asked.is_busy || asked.key === key) return;
    Object.assign(asked, { key, is_busy: true });
    const inside = await ask('inside', view);
    asked.is_busy = false;
    if (asked !== map.asked) return;
    map.inside = inside;
    draw_map();
}

// Draws the parts. Those narrower than a pixel are drawn over the others, as a pixel. (A gap as narrow as that has the
// colour of what follows. Padding is drawn as a gap.)
function draw_parts({ down, high }) {
    const shades = map.KINDS.map((kind) => (kind === 'padding' ? undefined : colour(kind))), gap = colour('gap'),
        line = colour('raised'), hatch = hatching('ink'), narrow = [], { starts, ends, view, bar } = map;
    for (const i of visible_ranges(starts, ends, view.start, end_of_view(), view.each / bar)) {
        const shade = shades[map.kinds[i]], is_hatched = map.depths[i] > 1 || map.cuts[i],
            is_narrow = ends[i] - starts[i] < view.each / bar;
        over_rows(starts[i], ends[i], (x, width, y) => {
            if (is_narrow) {
                narrow.push([shade ?? shades[map.kinds[i + 1]] ?? gap, Math.floor(x), y + down, 1, high]);
            } else if (shade) {
                paint(shade, x, y + down, width, high);
                if (is_hatched) paint(hatch, x, y + down, width, high);
                if (width > 3) paint(line, x + width - 0.75, y + down, 0.75, high);
            } else {
                paint(gap, x, y + down + high / 2 - 1, width, 2);
            }
        });
    }
    narrow.forEach((given) => paint(...given));
}

// Draws functions and variables lighter than their parts, each second one more so, and returns their pieces.
function draw_symbols({ down, high }) {
    const line = colour('raised'), drawn = [];
    map.inside.symbols.forEach((item) => over_rows(item.start, item.end, (x, width, y) => {
        paint(`rgb(255 255 255 / ${item.is_odd ? 0.18 : 0.4})`, x, y + down, width, high);
        if (width > CLICK) paint(line, x, y + down, 0.75, high);
        drawn.push({ item, x, width, y });
    }));
    return drawn;
}

// Draws the classes of bytes, each run of columns with the same class at once, or each byte with its digits.
function draw_contents({ down, high }, has_digits) {
    const { start, step, columns, classes, bytes } = map.inside, shades = map.CLASSES.map((_, i) => colour(`in-${i}`));
    Object.assign(pen, { font: `11px ${colour('mono')}`, textAlign: 'center' });
    for (let from = 0, to; from < classes.length; from = to) {
        for (to = from + 1; !has_digits && to % columns !== 0 && classes[to] === classes[from];) to++;
        over_rows(start + from * step, start + to * step, (x, width, y) => {
            paint(shades[classes[from]], x, y + down, width, high);
            if (has_digits) write(two_digits(bytes[from]), readable_on(shades[classes[from]]), x + width / 2, y);
        });
    }
}

function draw_offsets() {
    Object.assign(pen, { font: `11px ${colour('mono')}`, textAlign: 'right' });
    for (let row = 0; row < rows_of_view(); row++)
        write(hex(map.view.start + row * map.view.each), colour('dim'), map.left - 12, TOP + row * STEP);
}

function hatching(shade) {
    const tile = Object.assign(document.createElement('canvas'), { width: 6, height: 6 }), on = tile.getContext('2d');
    Object.assign(on, { strokeStyle: colour(shade), globalAlpha: 0.55 });
    for (const x of [-6, 0, 6]) { on.moveTo(x, 6); on.lineTo(x + 6, 0); }
    on.stroke();
    return pen.createPattern(tile, 'repeat');
}

// Draws a line below what is loaded, in the colour of code, data or constants.
function draw_segments() {
    for (const [start, end, flags] of map.segments) {
        const shade = colour(flags & 1 ? 'code' : flags & 2 ? 'data' : 'constants');
        over_rows(start, end, (x, width, y) => paint(shade, x, y + BAND + STRIP + 1, Math.max(width, 1), 2));
    }
}

// Writes the names of functions and variables, and of parts where none of these is, once each, if they have room.
function draw_names(symbols) {
    const drawn = new Set(), put = (item, { x, width, y }, shade) => {
        const text = apart(item.title), wide = pen.measureText(text).width;
        if (!text || item.kind === 'padding' || drawn.has(item) || wide > width - 10) return;
        drawn.add(item);
        if (item.is_cut) paint(colour(item.kind), x + 2, y + 1, wide + 6, BAND - 2); // (over the hatching)
        write(text, shade, x + 5, y);
    };
    Object.assign(pen, { font: `11px ${colour('text')}`, textAlign: 'left' });
    symbols.forEach((piece) => put(piece.item, piece, 'black')); // (a symbol is lighter than its part)
    map.inside.parts.forEach((part) => over_rows(part.start, part.end, (x, width, y) => {
        const next = symbols.find((piece) => piece.y === y && piece.x + piece.width > x)?.x
            ?? Infinity; // (a function may begin soon)
        put(part, { x, width: Math.min(width, next - x), y }, readable_on(colour(part.kind)));
    }));
}

// Marks at the file's end that something lies past it.
function draw_past() {
    if (!map.past.words) return;
    over_rows(map.size - 1, map.size, (left, width, y) => {
        const edge = map.left + map.bar + RIGHT, x = Math.round(Math.min(left + width, edge - 8));
        paint(hatching('bad'), x, y, edge - x, BAND + STRIP);
        paint(colour('bad'), x, y - 3, 2, BAND + STRIP + 6);
    });
}

function outline({ start, end }, shade, width) {
    Object.assign(pen, { strokeStyle: colour(shade), lineWidth: width });
    over_rows(start, end, (x, wide, y) => pen.strokeRect(x - 0.5, y - 0.5, Math.max(wide, 2) + 1, BAND + STRIP + 1));
}

// Describes what is at a byte in the line above the map, and outlines it, or describes how the map is drawn.
async function describe(byte) {
    const readout = get('readout'), { reader } = shown_file,
        found = (map.pointed = byte) === undefined ? undefined : await ask('under', byte);
    if (map.pointed !== byte || reader !== shown_file.reader) return;
    const { title, kind, symbol, depth, content } = found ?? {}, { start, end } = symbol || found || {};
    const words = found ? [symbol?.title, title, kind ? words_of(kind) : 'in no section or segment',
        `${hex(start)} to ${hex(end)}`, in_bytes(end - start), depth > 1 && `${depth} pieces overlap`,
        `${content} at ${hex(byte)}`].filter(Boolean).join(' · ')
        : `${plural(map.kinds.length, 'part')}, drawn to scale; each row has ${in_bytes(map.view.each)}; `
            + 'the wheel zooms, dragging moves';
    put_text(readout, words).title = apart(words);
    if (map.over?.start === start && map.over?.end === end) return;
    map.over = found && { start, end };
    draw_map();
}

/** Outlines the chosen range, or nothing, and scrolls to its first byte. */
export function mark_range(range, title = '') {
    map.chosen = range && range.size > 0 && range.at < map.size
        ? { start: range.at, end: range.at + range.size } : undefined;
    Object.assign(canvas, { ariaValueNow: 0, ariaValueText: 'nothing is chosen' });
    if (!map.chosen) { draw_map(); return; }
    const { start, end } = map.chosen;
    if (map.at < start || map.at >= end) map.at = start;
    canvas.ariaValueNow = part_at(map.at);
    canvas.ariaValueText = `${visible(title)}: ${hex(start)} to ${hex(end)}, ${in_bytes(range.size)}`;
    if (is_in_view(map.at)) draw_map(); else move_to(map.at - map.view.each * Math.floor(map.rows / 2));
}

// Chooses the function or variable that holds a byte, or with a step starts there, if it is drawn, else the part.
function choose(byte, is_step = false) {
    map.at = byte;
    const is_there = ({ start, end }) => (is_step ? start === byte : start <= byte && byte < end),
        symbol = map.inside.symbols.find(is_there);
    go(symbol?.to ?? `part/${part_at(byte)}`, is_step);
}

// Chooses the next function, variable or part from a byte on, or the previous one up to it.
function step(by, byte = map.at + by) {
    const starts = [...map.inside.symbols.map(({ start }) => start), ...map.starts.slice(0, -1)]
        .filter((start) => by * (start - byte) >= 0);
    if (starts.length) choose(starts.reduce((best, start) => (by * (start - best) < 0 ? start : best)), true);
}

function move_to(start, each = map.view.each) {
    const last = Math.max(map.size - each * (map.rows - 0.5), 0),
        unit = 2 ** Math.max(Math.floor(Math.log2(each / map.bar)), 0); // (a pixel)
    map.view = { start: each === map.whole ? 0 : Math.round(clamp(start, 0, last) / unit) * unit, each };
    draw_map();
    describe(undefined);
}

const move_by = (rows) => move_to(map.view.start + rows * map.view.each);

// Zooms, so that a byte stays where it is: that below the pointer, the chosen one if it is shown, or the middle.
function zoom(by, byte = is_in_view(map.at) ? map.at : (map.view.start + end_of_view()) / 2) {
    const { start, each } = map.view, next = clamp(each * by, FEWEST, map.whole);
    move_to(byte - (byte - start) * next / each, next);
}

function byte_at({ clientX, clientY }) {
    const { left, top } = canvas.getBoundingClientRect(), border = canvas.clientTop;
    const row = Math.floor((clientY - top - border - TOP + 3) / STEP),
        part = (clientX - left - border - map.left) / map.bar;
    const byte = Math.floor(map.view.start + (row + part) * map.view.each);
    return row >= 0 && row < rows_of_view() && part >= 0 && part < 1 && byte < map.size ? byte : undefined;
}

const KEYS = {
    ArrowRight: () => step(1), ArrowLeft: () => step(-1), ArrowDown: () => step(1, map.at + map.view.each),
    Home: () => step(1, 0), ArrowUp: () => step(-1, map.at - map.view.each), End: () => step(-1, map.size),
    PageDown: () => move_by(map.rows - 1), PageUp: () => move_by(1 - map.rows), 0: () => zoom(Infinity),
    '+': () => zoom(0.5), '-': () => zoom(2),
};

// What keys, the wheel and the pointer do, which moves the map by whole rows and by parts of one, or chooses.
let turned = 0, from;
const ACTS = {
    keydown(event) {
        if (!Object.hasOwn(KEYS, event.key) || is_of_browser(event)) return;
        event.preventDefault();
        KEYS[event.key]();
    },
    wheel(event) {
        const { deltaX, deltaY, deltaMode } = event;
        if (deltaY > 0 && map.view.each === map.whole) return; // (the page may scroll)
        event.preventDefault();
        if (Math.abs(deltaX) > Math.abs(deltaY)) move_by(deltaX / map.bar);
        turned += deltaY * (deltaMode ? TURN : 1);
        if (Math.abs(turned) < TURN) return;
        zoom(turned > 0 ? 2 : 0.5, byte_at(event));
        turned = 0;
    },
    pointerdown({ target, pointerId, clientX, clientY, button }) {
        from = button === 0 ? { x: clientX, y: clientY, start: map.view.start, is_moved: false } : undefined;
        target.setPointerCapture(pointerId);
    },
    pointermove(event) {
        const byte = byte_at(event), [x, y] = from ? [from.x - event.clientX, from.y - event.clientY] : [0, 0];
        if (!from && byte !== map.pointed) describe(byte);
        if (Math.hypot(x, y) > CLICK) from.is_moved = true;
        if (from?.is_moved) move_to(from.start + (x / map.bar + Math.round(y / STEP)) * map.view.each);
    },
    pointerup(event) {
        const byte = from?.is_moved === false ? byte_at(event) : undefined;
        from = undefined;
        if (byte !== undefined) choose(byte);
    },
    pointercancel() { from = undefined; },
    pointerleave() { describe(undefined); },
};

export function set_up_map() {
    for (const [name, act] of Object.entries(ACTS)) canvas.addEventListener(name, act, { passive: false });
    for (const [id, pressed] of [['in', '+'], ['out', '-'], ['whole', '0']])
        get(id).addEventListener('click', KEYS[pressed]);
    new ResizeObserver(() => { if (canvas.clientWidth !== map.wide) fit(); }).observe(canvas.parentElement);
    addEventListener('resize', fit);
    matchMedia('(prefers-color-scheme: dark)')
        .addEventListener('change', () => { if (shown_file.summary) draw_map(); });
}
