// The page: opens files, each in its own worker, and shows the location that the address bar has.
import { button, count, fill, get, in_bytes, inflated, make, put_text, say, visible } from './dom.js';
import { close_found, set_up_goto } from './goto.js';
import { lines_of, refusal_of } from './hex.js';
import { mark_range, set_up_map, show_map } from './map.js';
import { ask, is_supported, Reader, shown_file } from './reader.js';
import { current_place, note_place, on_place } from './route.js';
import { set_up_side, show_side } from './side.js';
import { activate, choose_field, header_block, is_list, open_tab, set_up_tabs, show_tabs } from './tabs.js';

const MAGIC = [0x7f, 0x45, 0x4c, 0x46];
// The largest file that is read. Some browsers have no longer arrays.
const LIMIT = 2 ** 31, LIMIT_WORDS = '2 GiB (2,147,483,648 bytes)';
// After how many milliseconds the page shows that a file is being read.
const SOON = 200;
const whole = (text) => (/^\d{1,10}$/.test(text ?? '') ? Number(text) : undefined);
const from_hex = (text) => (/^0x[0-9a-f]{1,16}$/i.test(text ?? '') ? BigInt(text) : undefined);
// Returns what is shown of a location outside the lists: a part of the map, an offset, an address.
const PLACES = {
    part: (text) => ask('item', { list: 'layout', index: whole(text) }),
    offset: (text) => ask('offset', from_hex(text)),
    address: (text) => ask('address', from_hex(text)),
};

// Returns the tab of a location, its section or kind, and the index of an item, if the location has them.
function tab_of(place) {
    const [name, first, second] = place.split('/');
    if (name === 'header') return { name, field: first };
    if (!is_list(name)) return { name: name === 'sizes' ? name : 'summary' };
    if (name === 'notes')
        return { name, of: ['sections', 'segments'].includes(first) ? first : undefined, index: whole(second) };
    if (name !== 'symbols' && name !== 'relocations') return { name, index: whole(first) };
    return { name, of: /^DT_[A-Z]+$/.test(first) ? first : whole(first), index: whole(second) };
}

async function item_of({ name, of, field, index }) {
    if (name === 'header') return choose_field(field);
    await activate(index);
    return index === undefined ? undefined : ask('item', { list: name, index, of });
}

// Returns the text of an encoded one, or the text itself if it is none.
const decoded = (text) => { try { return decodeURIComponent(text); } catch { return text; } };

// Returns the location that another one names, as `symbol=main`: so a link survives that a file is built anew.
async function found_by_name(place) {
    const [, kind, name] = /^(section|symbol)=(.+)$/.exec(place) ?? [];
    if (!kind) return place;
    const found = await ask('named', [kind, decoded(name)]);
    if (!found) say(`This file has no ${kind} with the name ${visible(decoded(name))}. This is its summary.`);
    return found ?? 'summary';
}

let shown_places = 0;
async function show_place(given, is_step = false) {
    const mine = ++shown_places;
    if (!shown_file.summary) return;
    const place = await found_by_name(given) || 'summary';
    if (mine !== shown_places) return;
    const [name, first] = place.split('/'), tab = tab_of(place), item = tab.field ?? tab.index;
    let details;
    if (Object.hasOwn(PLACES, name)) {
        details = await PLACES[name](first);
        if (!get('panel').firstChild) await open_tab('summary');
    } else {
        if (!await open_tab(tab.name, tab.of)) return;
        details = await item_of(tab);
    }
    if (mine !== shown_places) return;
    const is_all = [tab.name, tab.of, item].filter((part) => part !== undefined).join('/') === place;
    if (!details && (item !== undefined || !is_all)) say(`The page finds nothing at #${visible(place)} in this file.`);
    // (in a narrow window the side is visible while something is chosen, unless by a step in the list, else the list)
    const is_in_list = is_step && get('panel').contains(document.activeElement);
    document.body.classList.toggle('chosen', Boolean(details) && !is_in_list);
    const [block] = details?.blocks ?? [];
    mark_range(block?.at === undefined ? undefined : block, details?.title);
    await show_side(details ?? unchosen());
}

const unchosen = () =>
    ({ title: 'ELF header', kind: 'header', what: 'at the start of the file', blocks: [header_block('bytes')] });

const why_unread = ({ size }) => (size === 0 ? 'The file is empty: it has 0 bytes.'
    : size > LIMIT && `The file has ${in_bytes(size)}. This page reads files of at most ${LIMIT_WORDS}.`);

// Why the browser does not read a file, by the name of its error.
const WHY_NOT = {
    NotFoundError: 'The file is gone: it was moved, renamed or deleted. Or it is a folder. Choose a file.',
    NotReadableError: 'The browser may not read the file, or it was changed after it was chosen. Or it is a folder.',
    RangeError: 'The browser has too little memory for the file.',
};
let loading;
async function open(file) {
    say(); // (what is said is of the previous file)
    if (loading !== shown_file.reader) loading?.end(); // (the file that it has read is shown until another one is)
    const wrong = why_unread(file);
    if (wrong) { trouble(file, wrong); return; }
    const reader = loading = new Reader();
    show_loading(file, reader);
    try {
        const summary = await reader.open(file);
        if (summary.refused) await show_refusal(file, reader, summary); else await show_file(file, reader, summary);
    } catch (error) {
        if (loading === reader) trouble(file, WHY_NOT[error.name] ?? `The file can’t be read: ${error.message}`);
    } finally {
        if (loading === reader) end_loading();
    }
}

// Shows that a file is being read, and how much is left, if that takes long. The previous file stays, dimmed.
function show_loading(file, reader) {
    const megabytes = (size) => `${count(Math.ceil(size / 1e6))} MB`;
    let left = file.size, is_soon = true;
    // (meanwhile another file may be opened, or this one be shown, whose lists report their progress, too)
    const show = () => {
        if (loading !== reader || is_soon) return;
        document.body.classList.add('dimmed');
        put_text(get('loading'), `Reading ${file.name}: ${megabytes(left)} of ${megabytes(file.size)} left`);
    };
    document.body.ariaBusy = 'true';
    setTimeout(() => { is_soon = false; show(); }, SOON);
    reader.on_progress = ({ progress, done }) => { if (progress === 'open') left = file.size * (1 - done); show(); };
}

function end_loading() {
    loading = undefined;
    get('loading').textContent = '';
    document.body.classList.remove('dimmed');
    document.body.ariaBusy = null;
}

// Shows only one of the page's parts, and the name of its file in the bar.
function show_part(part, file, ...words) {
    for (const name of ['start', 'refused', 'shown']) get(name).hidden = name !== part;
    get('search').hidden = part !== 'shown';
    get('trouble').hidden = true;
    close_found();
    document.body.classList.remove('chosen', 'wide');
    document.title = `${visible(file.name)}: goblin`;
    fill(get('file'), put_text(make('b', { title: visible(file.name) }), file.name),
        ...[in_bytes(file.size), ...words].map((word) => make('span', {}, word)));
}

// Replaces the previous file, whose worker ends.
function replace(reader, file, summary) {
    shown_file.reader?.end();
    Object.assign(shown_file, { reader, summary, size: file.size, title: file.name });
}

function trouble(file, text) {
    loading?.end();
    end_loading();
    replace(undefined, file, undefined);
    show_part('start', file);
    put_text(get('trouble'), text);
    get('trouble').hidden = false;
}

// What a file is that starts with some characters, each a byte, and is no ELF file.
const OTHERS = [['MZ', 'a program for Windows or DOS (PE)'], ['\xcf\xfa\xed\xfe', 'a Mach-O file'],
    ['\xce\xfa\xed\xfe', 'a Mach-O file'], ['\xfe\xed\xfa\xce', 'a Mach-O file'], ['\xfe\xed\xfa\xcf', 'a Mach-O file'],
    ['\xca\xfe\xba\xbe', 'a Mach-O file or a Java class'],
    ['!<arch>\n', 'an archive (ar): its members may be ELF files'], ['!<thin>\n', 'a thin archive (ar)'],
    ['\x1f\x8b', 'compressed by gzip'], ['BZh', 'compressed by bzip2'], ['\xfd7zXZ\0', 'compressed by xz'],
    ['\x28\xb5\x2f\xfd', 'compressed by zstd'], ['PK\x03\x04', 'a zip archive'], ['#!', 'a script'],
    ['\0asm', 'a WebAssembly module'], ['BC\xc0\xde', 'LLVM bitcode']];

async function show_refusal(file, reader, { refused, start }) {
    replace(reader, file, undefined);
    const is_elf = MAGIC.slice(0, start.length).every((byte, i) => start[i] === byte);
    const box = await refusal_of(is_elf ? refused : { ...refused, marks: [] });
    if (shown_file.reader !== reader) return;
    replace(undefined, file, undefined); // (its worker, which holds the whole file, is done)
    const other = OTHERS.find(([begin]) => String.fromCharCode(...start).startsWith(begin));
    const words = is_elf ? [] : [make('h2', {}, 'This is not an ELF file'),
        other && make('p', {}, `By its first bytes it is ${other[1]}.`),
        make('p', { class: 'what' }, 'An ELF file starts with 7f 45 4c 46. This one starts with:'),
        lines_of(start, 0, (byte) => byte < MAGIC.length && start[byte] !== MAGIC[byte])];
    show_part('refused', file);
    fill(get('refused'), ...words, ...box.childNodes);
}

let is_first = true;
async function show_file(file, reader, summary) {
    replace(reader, file, summary);
    // (the location that the page is opened with belongs to the first file)
    if (!is_first) note_place('');
    is_first = false;
    show_part('shown', file, ...summary.words);
    show_map(summary.map, file.size);
    show_tabs();
    fill(get('panel'));
    await show_place(current_place());
}

function set_up_files() {
    get('pick').addEventListener('change', ({ target }) => {
        if (target.files[0]) open(target.files[0]);
        target.value = '';
    });
    get('example').addEventListener('click', async () => open(new File([await inflated('example-file')], 'example')));
    let inside = 0;
    const over = (by) => { inside = Math.max(inside + by, 0); document.body.classList.toggle('over', inside > 0); };
    const acts = { dragenter: () => over(1), dragleave: () => over(-1), dragover: () => {},
        drop: ({ dataTransfer }) => { over(-inside); drop(dataTransfer); } };
    for (const [name, act] of Object.entries(acts)) addEventListener(name, (event) => {
        if (!event.dataTransfer.types.includes('Files')) return; // (a text, which a field may take)
        event.preventDefault();
        act(event);
    });
}

// Opens the first of the files that are dropped, and says so of others. A folder is not read.
function drop({ files: [file, ...others], items }) {
    if (!file) say('That is no file. Drop an ELF file.');
    else if (items?.[0]?.webkitGetAsEntry?.()?.isDirectory)
        trouble(file, `${visible(file.name)} is a folder. Drop an ELF file that is in it.`);
    else open(file);
    if (others.length) say(`The page shows one file at a time: ${visible(file.name)}. Of the ${1 + others.length} that `
        + `were dropped, ${others.length > 1 ? 'the others are' : `${visible(others[0].name)} is`} not opened.`);
}

function start() {
    if (!get('worker')) return; // (the page in the repository, which says how it is made)
    get('unmade').hidden = true;
    if (!is_supported()) { get('unsupported').hidden = false; return; }
    get('drop').hidden = false;
    get('limit').textContent = LIMIT_WORDS;
    const back = () => { document.body.classList.remove('chosen'); get('panel').querySelector('.grid')?.focus(); };
    get('chosen').before(button('‹ List', back, { id: 'back' }));
    set_up_map();
    set_up_side();
    set_up_tabs();
    set_up_goto();
    set_up_files();
    on_place(show_place);
    addEventListener('unhandledrejection', ({ reason }) => say(`This failed: ${reason?.message}`));
}

start();
