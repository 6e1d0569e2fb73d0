// A summary in words: what a person asks first of a file, in that order. Each block has a title and tables, each with a
// mark and rows: { name, value, links, also }, where `also` are further lines. Rows without a mark rest on fields,
// entries and strings that proved calls return. Those with a mark rest on what the page reads itself, by numbers, such
// as versions and the contents of notes, and are not proved.
import * as goblin from '../web/goblin.js';
import { mapped_files, process_of, registers_of, signal_of } from './core.js';
import { is_address } from './details.js';
import { value_of, versions } from './dynamic.js';
import { facts } from './facts.js';
import { file, is_debug, name_at, read_or, sections, segment_of, size_of } from './file.js';
import { code_without_symbol, largest } from './inside.js';
import * as labels from './labels.js';
import { notes_of } from './notes.js';
import { is_compressed, parts, titled } from './pieces.js';
import { section_called, symbols_called, to_address, to_section, to_symbol } from './resolve.js';
import { count, hex, in_bytes, once, plural } from './text.js';

const { ET_CORE, ET_REL, SHT_NOBITS, SHT_SYMTAB } = goblin;
// The most that is shown: of what is largest, of places in a row, of rows of one kind, and of names in a row and their
// signs. And how many bytes of a module's texts are read.
const LARGEST = 10, MOST_PLACES = 8, MOST_ROWS = 20, MOST_NAMES = 300, MOST_SIGNS = 1 << 15, MOST_TEXT = 1 << 16;
const MACHINES = { 3: 'x86', 8: 'MIPS', 20: 'PowerPC', 21: '64-bit PowerPC', 22: 's390', 40: 'ARM', 62: 'x86-64',
    183: 'AArch64', 243: 'RISC-V' };

const row = (name, value, ...links) => ({ name, value: `${value}`, links: links.filter((link) => link) });
const own = (...given) => ({ ...row(...given), mark: 'not proved' });
const to_segment = (type) => {
    const found = segment_of(type);
    return found && { text: `segment ${found.index}`, to: `segments/${found.index}` };
};
// Returns the first items of a list, and what a function returns for the number of others, if there are any.
const shortened = (items, most, rest) =>
    (items.length <= most ? items : [...items.slice(0, most), rest(count(items.length - most))]);
// (of a damaged file there may be millions, so links are made only of those that are shown)
const first_of = (items, to, link = (item) => item) => shortened(items.slice(0, MOST_PLACES + 1).map(link), MOST_PLACES,
    () => ({ text: `and ${count(items.length - MOST_PLACES)} more`, to }));
// Returns names as a text, which says how many are left out. (In a damaged file each may be very long.)
function listed(names, between) {
    let left = MOST_SIGNS;
    const long = names.findIndex((name) => (left -= name.length) < 0),
        most = Math.min(MOST_NAMES, long < 0 ? names.length : Math.max(long, 1));
    return names.slice(0, most).join(between) + (names.length > most ? ` and ${count(names.length - most)} more` : '');
}
export const all_facts = once(() => facts(file.elf));

// Returns the row of a fact in words, or that it is unknown, or nothing if there is nothing to say of it.
function said(name, fact, words = String, ...links) {
    const value = all_facts()[fact];
    if (all_facts().unknown.includes(fact)) return row(name, 'unknown: not in the file, or more than is read');
    return value === null ? undefined : row(name, words(value), ...links);
}
// Returns the words for a fact that is so and one that is not.
const either = (yes, no = 'no') => (is_so) => (is_so ? yes : no);

// Returns the texts of a kernel module, such as `depends=crc16`, by what is before the sign; or nothing.
const module_texts = once(() => {
    const info = section_called('.modinfo'), this_module = section_called('.gnu.linkonce.this_module');
    if (file.elf.header.e_type !== ET_REL || !info || !this_module) return undefined;
    const text = new TextDecoder().decode(file.elf.readable_data(info.section)?.subarray(0, MOST_TEXT));
    return new Map(text.split('\0').map((line) => [...line.split(/=(.*)/s), '']));
});

const KINDS = { object: 'object file', core: 'core file', library: 'shared library',
    'debug file': 'separate debug file', 'program or library': 'program or shared library' };
export function kind_in_words() {
    const { e_type, e_machine } = file.elf.header, { kind, pie } = all_facts();
    const words = kind === 'program' ? either('position-independent program', 'program at fixed addresses')(pie)
        : module_texts() ? 'kernel module' : KINDS[kind] ?? `file of type ${labels.file_type(e_type)}`;
    return `${words} for ${MACHINES[e_machine] ?? labels.machine(e_machine)}`;
}

const debug_sections = once(() => sections().filter((section) => is_debug(section) && section.sh_type !== SHT_NOBITS));

// Returns lines that say what is wrong with the file, each with links to the places.
function damage() {
    const { elf, content } = file, { header } = elf, { past, cut, over } = parts(), end = hex(content.length);
    const { length, 0: first } = sections(), is_far = header.e_shstrndx === 0xffff,
        names = is_far ? first?.sh_link : header.e_shstrndx;
    const line = (words, links, to, link) => links.length > 0 && row('', words, ...first_of(links, to, link));
    const link_to = (piece) => ({ text: titled({ ...piece, is_cut: false }).title, to: piece.to });
    const wrong = (name, right, words) => (right ? undefined
        : { text: `${name} is ${header[name]}${words}`, to: `header/${name}` });
    const odd = (name, kind) => wrong(name, header[name] === size_of(kind), `, not ${size_of(kind)}`);
    const fields = [odd('e_ehsize', 'header'), header.e_phoff && odd('e_phentsize', 'segment'),
        header.e_shoff && odd('e_shentsize', 'section'), length && wrong('e_shstrndx', names < length,
            `${is_far ? `, sh_link of section 0 is ${names}` : ''} of ${count(length)} sections`)];
    const lines = [line(`past the file’s end at ${end}:`, past, 'sections', link_to),
        line(`cut at the file’s end at ${end}:`, cut, 'sections', link_to),
        line('overlapping:', over, 'layout', link_to),
        line('wrong in the header:', fields.filter(Boolean), 'header')].filter(Boolean);
    // (their number may be refused, which no field of the header has)
    const refused = [['sections', 'section_headers'], ['segments', 'program_headers']]
        .filter(([, name]) => !read_or(undefined, () => elf[name]()))
        .map(([to, name]) => ({ text: name.replace('_', ' '), to }));
    return lines.length > 0 || refused.length === 0 ? lines : [line('refused:', refused)];
}

function what_it_is() {
    const { e_entry } = file.elf.header, { kind, stripped } = all_facts(), words = kind_in_words(), also = damage();
    const debug = debug_sections().length > 0 ? 'with debug information' : 'without debug information';
    const sentence = [`${/^[aeo]/.test(words) ? 'An' : 'A'} ${words} of ${in_bytes(file.content.length)}`,
        stripped && kind !== 'object' && 'stripped', kind !== 'core' && sections().length > 0 && debug];
    return [row('kind', sentence.filter(Boolean).join(', ')),
        { ...row('broken', also.length > 0 ? 'yes:'
            : `no: tables${file.has_segments ? ', sections and segments' : ' and sections'} lie in the file, and no`
                + ' sections overlap'), also },
        e_entry && row('starts at', ...(is_address(e_entry) ? ['', to_address(e_entry)] : [hex(e_entry)])),
        said('own name', 'soname')];
}

function what_it_needs() {
    const { needed, kind } = all_facts(), texts = module_texts(),
        by_library = Array.from(versions(), ([name, all]) => `${name}: ${all.join(', ')}`);
    return [said('interpreter', 'interpreter', String, to_segment(goblin.PT_INTERP)),
        (needed?.length !== 0 || ['program', 'library'].includes(kind))
            && said('libraries', 'needed', (names) =>
                (names.length > MOST_PLACES ? `${count(names.length)}: ` : '') + (listed(names, ', ') || 'none')),
        said('search path (RPATH)', 'rpath'), said('search path (RUNPATH)', 'runpath'),
        by_library.length > 0 && own('symbol versions', listed(by_library, '; ')),
        texts?.has('vermagic') && own('kernel', texts.get('vermagic')),
        texts?.has('depends') && own('modules', texts.get('depends') || 'none')];
}

function to_build_id() {
    const found = ['sections', 'segments']
        .flatMap((by) => notes_of(by).items.map(({ note }, index) => ({ by, note, index })))
        .find(({ note }) => note.name === 'GNU' && note.n_type === 3);
    return found && { text: 'note', to: `notes/${found.by}/${found.index}` };
}

function debug_words() {
    const size_of_all = (all) => all.reduce((sum, { sh_size }) => sum + sh_size, 0n), all = debug_sections();
    const packed = size_of_all(all.filter(is_compressed)), size = size_of_all(all);
    const words = packed === size ? ', compressed' : packed ? `, of which ${in_bytes(packed)} are compressed` : '';
    return all.length > 0 ? `${in_bytes(size)}${words}` : 'none in the file';
}

function how_it_was_built() {
    const symbols = sections().find(({ sh_type }) => sh_type === SHT_SYMTAB), [debug] = debug_sections();
    const [link, comment] = ['.gnu_debuglink', '.comment'].map(section_called),
        name = link && name_at(file.elf.strtab(link.section), 0);
    return file.elf.header.e_type === ET_CORE ? [] : [
        said('build ID', 'build_id', String, to_build_id()) ?? row('build ID', 'none'),
        said('stripped', 'stripped',
            either(sections().length ? 'yes, it has no SHT_SYMTAB' : 'yes, of all section headers'),
            symbols && { ...to_section(symbols.index), to: `symbols/${symbols.index}` }),
        sections().length > 0 && row('debug information', debug_words(), debug && to_section(debug.index)),
        name && own('debug file', name, to_section(link.index)),
        all_facts().compilers?.length !== 0 && said('compiler', 'compilers', (names) => names.join(', '),
            comment && to_section(comment.index)),
    ];
}

// Returns the first symbol of a canary without a version.
const CANARIES = ['__stack_chk_fail', '__stack_chk_fail_local', '__stack_chk_guard'];
const to_canary = () => symbols_called(...CANARIES).map(to_symbol)[0];

const changes_code = () => value_of(goblin.DT_TEXTREL) !== undefined
    || ((value_of(goblin.DT_FLAGS) ?? 0n) & goblin.DF_TEXTREL) !== 0n;

function what_protects_it() {
    const has_stack = segment_of(goblin.PT_GNU_STACK), { kind } = all_facts();
    const flow = said('control-flow marks', 'control_flow', (names) => names.join(', ') || 'none');
    const relro = said('read-only relocations', 'relro', (word) => (word === 'no' ? 'no PT_GNU_RELRO' : word),
        to_segment(goblin.PT_GNU_RELRO));
    const signature = parts().added.find(({ title }) => title === 'module signature');
    return [kind !== 'library' && said('position-independent', 'pie', either('yes')),
        relro && { ...relro, mark: 'not proved' },
        said('functions are bound', 'bind_now', either('at the start', 'when they are first called')),
        said('stack', 'nx', either('not executable', has_stack ? 'executable' : 'not said, it has no PT_GNU_STACK'),
            to_segment(goblin.PT_GNU_STACK)),
        said('writable code', 'writable_code', either('yes, a PT_LOAD has PF_W and PF_X')),
        said('stack canary', 'canary', either('yes', 'no symbol of one'), to_canary()),
        ['program', 'library'].includes(kind) && changes_code() && row('relocations of code', 'yes (DT_TEXTREL)'),
        flow && own(flow.name, flow.value),
        signature && own('signature', 'there is one, which is not verified', { text: 'its bytes', to: signature.to })];
}

const first_rows = (rows, name, to) => shortened(rows, MOST_ROWS, (others) => own(name, others, { text: 'notes', to }));

// Returns the rows of a core's threads. Those at the same instruction have one row.
const POINTERS = new Set(['rip', 'rsp', 'eip', 'esp', 'pc', 'sp']);
function rows_of_threads(items) {
    const all = items.map((item) => {
        const pointers = registers_of(item, (name) => POINTERS.has(name)).sort()
            .map(([name, value]) => `${name} ${hex(value)}`);
        return { text: `${item.thread ?? 'unknown'}`, to: item.to, pointers, place: pointers[0] ?? '' };
    });
    const rows = Array.from(Map.groupBy(all, ({ place }) => place), ([place, same]) => (same.length > 1
        ? own(`${count(same.length)} threads`, place && `${place}:`, ...first_of(same, 'notes/segments'))
        : own(`thread ${same[0].text}`, same[0].pointers.join(', '), { text: 'note', to: same[0].to })));
    return first_rows(rows, 'other places of threads', 'notes/segments');
}

// Returns what the notes of a core say, by their types. (Of the threads' signals only the first one is shown.)
function what_was_running() {
    if (file.elf.header.e_type !== ET_CORE) return [];
    const all = notes_of('segments').items.map((item, index) => ({ ...item, to: `notes/segments/${index}` })),
        of = (type) => all.filter(({ note }) => note.name === 'CORE' && labels.note_type(note) === type);
    const threads = of('PRSTATUS'), in_words = ([name, { start, ranges }]) =>
        own('mapped file', `${name}, ${plural(ranges, 'range')} from ${hex(start)} on`);
    return [...threads.slice(0, 1).map((item) => own('signal', signal_of(item))),
        ...of('PRPSINFO').slice(0, 1).map((item) => ({ to: item.to, ...process_of(item) }))
            .filter(({ id }) => id !== undefined)
            .flatMap(({ to, id, words }) => [own('command', words, { text: 'note', to }), own('process', id)]),
        ...rows_of_threads(threads),
        ...of('FILE').slice(0, 1).flatMap((item) =>
            first_rows(Array.from(mapped_files(item), in_words), 'other mapped files', item.to))];
}

const WORDS = { code: 'code', data: 'data', read_only: 'read-only data', zeros: 'zeros, not in the file',
    not_loaded: 'not loaded' };
function sizes() {
    const { tops, starts, ends, added } = parts(), of_padding = (sum, top, i) =>
        sum + (top?.kind === 'padding' ? ends[i] - starts[i] : 0), padding = tops.reduce(of_padding, 0);
    return [...Object.entries(all_facts().sizes ?? {}).filter(([, size]) => size > 0n)
        .map(([name, size]) => row(WORDS[name], in_bytes(size))), padding > 0 && row('padding', in_bytes(padding)),
    ...added.filter(({ kind }) => kind === 'appended')
        .map(({ title, start, end, to }) => row(title, in_bytes(end - start), { text: hex(start), to }))];
}

function largest_sections() {
    const share = ({ sh_type, sh_size }) => (sh_type === SHT_NOBITS ? 'in memory only'
        : `${(100 * Number(sh_size) / file.content.length).toFixed(1)} %`);
    // (the size of section 0 is a number of sections)
    return sections().slice(1).filter(({ sh_size }) => sh_size > 0n)
        .sort((a, b) => Number(b.sh_size - a.sh_size)).slice(0, LARGEST)
        .map((section) => row(`${in_bytes(section.sh_size)}, ${share(section)}`, '', to_section(section.index)));
}

// Returns how much code is in no symbol, and the largest functions. If one has a name of C++, all have a mark.
async function largest_functions() {
    const { code, rest } = await code_without_symbol(), all = await largest(LARGEST);
    const mark = all.some(({ title, name }) => title !== name) ? 'names of C++ not proved' : undefined;
    return [code > 0 && row('in no symbol', `${count(rest)} of ${in_bytes(code)} of code`),
        ...all.map(({ size, name, title, to }) =>
            ({ ...row(in_bytes(size), title === name ? '' : title, { text: name, to }), mark }))];
}

/** Returns the summary: blocks with a title and tables. */
export async function summary() {
    const blocks = { 'What it is': what_it_is(), 'What was running': what_was_running(),
        'What protects it': what_protects_it(), 'What it needs': what_it_needs(),
        'Why it is large': sizes(), 'Largest sections': largest_sections(),
        'Largest functions': await largest_functions(), 'How it was built': how_it_was_built() };
    return Object.entries(blocks).map(([title, rows]) => ({ title,
        tables: Array.from(Map.groupBy(rows.filter(Boolean), ({ mark = '' }) => mark), ([mark, of]) =>
            ({ mark, rows: of })) })).filter(({ tables }) => tables.length > 0);
}
