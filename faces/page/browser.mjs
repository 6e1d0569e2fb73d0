// Tests the page in a browser, beside readelf and C: browser.mjs NAME BROWSER PAGE DUMP MADE STORED
// NAME is chromium or firefox, DUMP the program of faces/c/tests/dump.c, MADE the folder of the files that made.c
// makes, and STORED checks/files, with what readelf printed of files, and what it and c++filt call relocations and
// symbols. Files are picked as by a person. The page may send no request, no script may fail, and no name be markup.
import assert from 'node:assert/strict';
import { spawnSync } from 'node:child_process';
import { randomBytes } from 'node:crypto';
import { mkdirSync, mkdtempSync, readdirSync, readFileSync, rmSync, truncateSync, writeFileSync } from 'node:fs';
import { tmpdir } from 'node:os';
import { basename, join, resolve } from 'node:path';
import { setTimeout } from 'node:timers/promises';
import { pathToFileURL } from 'node:url';
import { inflateSync } from 'node:zlib';
import { Chromium, Firefox, PATIENCE, waited } from './browsers.mjs';
import { code, data, dynamic_file, elf_file, longs, note, noted_file, packed, patched, relocations, symbol,
    symbols_file, times } from '../web/elves.mjs';

const [, , kind, program, page, dump, made_files, stored_folder] = process.argv, stored = resolve(stored_folder);
const made = join(made_files, 'little64'), content = readFileSync(made),
    program_file = join(stored, 'made', 'x86_64_program'), program_bytes = readFileSync(program_file);
// (readelf lists no symbols of the files without section headers)
const stored_files = readdirSync(join(stored, 'made')).filter((name) => !/listed$|_core$|_stripped$/.test(name))
    .map((name) => join(stored, 'made', name));
const folder = mkdtempSync(join(tmpdir(), 'goblin-'));
const browser = new { chromium: Chromium, firefox: Firefox }[kind](folder);
const url = pathToFileURL(page).href, quoted = JSON.stringify;
const checks = [];
const evaluate = (expression) => browser.evaluate(expression);
const until = (expression) => browser.until(expression);

// Expressions for an element, and for the first one with a text, and the results of one for several items.
const one = (selector) => `document.querySelector(${quoted(selector)})`;
const with_text = (place, text) =>
    `[...document.querySelectorAll(${quoted(place)})].find((item) => item.textContent === ${quoted(text)})`;
const each_of = (selector, of) =>
    evaluate(`Array.from(document.querySelectorAll(${quoted(selector)}), (item) => ${of})`);
const text_of = (selector) => evaluate(`${one(selector)}?.textContent ?? null`);
const until_there = (selector) => until(`${one(selector)} !== null`);
const until_text = (selector, text) => until(`${one(selector)}?.textContent === ${quoted(text)}`);
const until_chosen = (title) => until_text('#chosen h2', title);
const until_active = (selector) => until(`document.activeElement.matches(${quoted(selector)})`);
const click = (selector) => evaluate(`${one(selector)}.click()`);
const focus = (selector) => evaluate(`${one(selector)}.focus()`);
const press_button = (text) => evaluate(`${with_text('main button', text)}.click()`);
const is_hidden = (id) => evaluate(`document.getElementById('${id}').hidden`);
const is_visible = (selector) => evaluate(`${one(selector)}.offsetParent !== null`);
const set_place = (place) => evaluate(`void (location.hash = ${quoted(place)})`);
const drawn = `${one('#panel .body .row')}?.row !== undefined || ${one('#panel .grid')}?.ariaRowCount === '1'`;
const bytes_drawn = `${one('#chosen .hex .row')}?.row`, is_busy = `document.body.ariaBusy === 'true'`;
const active_row = '#panel .row[aria-selected=true]';
const fragment = () => evaluate('location.hash.slice(1)');
const side = () => text_of('#chosen');
// (a row that is not read yet has a sign alone)
const cells = (column) => until(`![...document.querySelectorAll('#panel .body .row')]
    .some((row) => row.firstChild.textContent === '…')`)
    .then(() => each_of('#panel .body .row', `item.children[${column}].textContent`));
const resize = (width, height) => browser.resize(width, height);
const press = (selector, ...keys) => focus(selector).then(() => browser.press(...keys));
const click_row = (row) => evaluate(`document.querySelectorAll('#panel .body .row')[${row}].children[1].click()`);
const field_of = (name) => evaluate(`[...document.querySelectorAll('#chosen tr')]
    .find((row) => row.firstChild.textContent === ${quoted(name)})?.lastChild.innerText`);

// Sorts the open list by a column, in one direction and then in the other.
async function sort_by(column) {
    for (const order of ['ascending', 'descending']) {
        await click(`#panel [role=columnheader]:nth-child(${column}) button`);
        await until_there(`#panel [aria-sort=${order}]`);
    }
}

// Returns the offset of a section header of a file.
const header_at = (content, index) => Number(content.readBigUInt64LE(0x28)) + 64 * index;

// Picks a file, and waits until the bar has its name.
async function pick(path) {
    await evaluate(`document.getElementById('file').replaceChildren()`);
    await browser.pick('#pick', path);
    await until(`${one('#file b')}?.textContent === ${quoted(basename(path))} && !(${is_busy})`);
}

// Writes a file, and picks it, and perhaps opens a tab.
async function pick_written(name, content, tab) {
    const path = join(folder, name);
    writeFileSync(path, content);
    await pick(path);
    if (tab) await open_tab(tab);
    return path;
}

// Adds a check, which begins in a large window, and one that begins with the program.
const check = (title, run) => checks.push({ title, run });
const check_program = (title, run) => check(title, () => pick(program_file).then(run));

const open_sizes = (area = 'a') => click('#tab-sizes').then(() => until_there(`.areas ${area}`));
async function open_tab(name) {
    await click(`#tab-${name}`);
    await until(`document.querySelector('#panel .grid[aria-label=${name}]') && (${drawn})`);
}

// Goes to a list, and waits until the page says how many items it has, or `none` or `refused`.
async function open_list(place, said) {
    await set_place(place);
    await until(`${one('#panel output')}?.textContent === '${said}' && (${drawn} || ${/[a-z]/.test(said)})`);
}

// Asserts that each text, which a function returns of a name, is another one or matches a pattern.
async function has_texts(wanted, read = text_of) {
    for (const [name, text] of Object.entries(wanted))
        (text instanceof RegExp ? assert.match : assert.equal)(await read(name), text, name);
}

// Takes steps one after another: each is a function with its arguments, such as `is` with what is read and wanted.
async function take(...steps) { for (const [act, ...given] of steps) await act(...given); }
const is = async (read, wanted, what) =>
    (wanted instanceof RegExp ? assert.match : assert.deepEqual)(await read(), wanted, what);

// Goes to a location, back or forward, or along a link, until what is chosen has a title. There fields have texts.
const go = (place, title, fields = {}) =>
    set_place(place).then(() => until_chosen(title)).then(() => has_texts(fields, field_of));
const go_in_history = (way, title) => evaluate(`history.${way}()`).then(() => until_chosen(title));
const follow = (text, title = text) => evaluate(`${with_text('#chosen a', text)}.click()`)
    .then(() => until_chosen(title));

// Returns the first bytes that the side shows, in the lines that are drawn.
async function bytes_shown() {
    await until(bytes_drawn);
    const lines = await each_of('#chosen .hex .row',
        `[...item.children[1].childNodes].filter((node) => node.nodeType === 3)
            .map((node) => node.textContent).join(' ')`);
    return lines.join(' ').replaceAll(/\s/g, '');
}

const type = (text) => evaluate(`void (${one('#panel input')}.value = ${quoted(text)},
    ${one('#panel input')}.dispatchEvent(new Event('input')))`);
async function search(text, shown) {
    await until_there('#panel output');
    await evaluate(`void (${one('#panel output')}.textContent = '')`);
    await type(text);
    await until(`document.querySelector('#panel output').textContent === ${quoted(shown)}
        && (${drawn} || ${quoted(shown)} === 'none')`);
}

async function go_by_field(text, title) {
    await focus('#goto');
    await evaluate(`void (document.getElementById('goto').value = ${quoted(text)})`);
    await browser.press('Enter');
    if (title) await until_chosen(title);
}

// Returns what readelf printed of a stored file.
const listed = (path) => readFileSync(`${path}.listed`, 'utf8').split('\n$ nm ')[0];

const segments_of = (path) =>
    [...listed(path).matchAll(/^ {2}([A-Z_]+) +(0x\S+) \S+ \S+ (0x\S+) \S+ +([RWE ]+) (0x\S+)$/gm)]
        .map(([, type, offset, size, flags, align]) =>
            ({ type, offset: Number(offset), size: Number(size), flags: flags.trim(), align }));

function counts_of(path) {
    const output = listed(path);
    const sum = (pattern) => [...output.matchAll(pattern)].reduce((all, [, count]) => all + Number(count), 0);
    return {
        sections: sum(/Number of section headers: +(\d+)/g), segments: sum(/Number of program headers: +(\d+)/g),
        symbols: sum(/Symbol table .* contains (\d+) entr/g),
        relocations: sum(/Relocation section .* contains (\d+) entr/g),
        notes: [...output.matchAll(/^ {2}\S+ +0x[0-9a-f]{8}\t/gm)].length,
    };
}

// Returns the sections of a file by their names: index, type, address, offset and size.
function sections_of(path) {
    const pattern = /^ {2}\[ *(\d+)\] (\S+) +([A-Z_]+) +([0-9a-f]+) ([0-9a-f]+) ([0-9a-f]+)/gm;
    return Object.fromEntries([...listed(path).matchAll(pattern)].map(([, index, name, type, ...numbers]) => {
        const [address, offset, size] = numbers.map((number) => parseInt(number, 16));
        return [name, { index: Number(index), type, address, offset, size }];
    }));
}

// Returns the symbols of a file's symbol table: index, value, size, type, section and name.
function symbols_of(path) {
    const [, table] = listed(path).split("Symbol table '.symtab'");
    return [...table.matchAll(/^ *(\d+): ([0-9a-f]+) +(\d+|0x[0-9a-f]+) (\w+) +\w+ +\w+ +(\S+) ?(\S*)$/gm)]
        .map(([, index, value, size, type, section, name]) =>
            ({ index: Number(index), value: parseInt(value, 16), size: Number(size), type, section, name }));
}

// Of the program that is picked most: its sections and symbols, the location of these, its functions from the largest
// on, and main with its location, address and offset.
const hex = (number) => `0x${number.toString(16)}`, decimal = (number) => number.toLocaleString('en');
const sections = sections_of(program_file), symbols = symbols_of(program_file),
    symtab = `symbols/${sections['.symtab'].index}`, text = sections['.text'];
const functions = symbols.filter(({ type, size }) => type === 'FUNC' && size > 0).sort((a, b) => b.size - a.size);
const main = symbols.find(({ name }) => name === 'main'), main_place = `${symtab}/${main.index}`,
    main_address = hex(main.value);
const main_at = main.value - text.address + text.offset;

check('Tabs have the numbers that readelf counts, and sections have its names', async () => {
    const all = {};
    for (const path of stored_files) {
        await pick(path);
        const wanted = counts_of(path), found = {};
        for (const name of Object.keys(wanted)) {
            found[name] = Number((await text_of(`#tab-${name} span`) ?? '0').replaceAll(',', ''));
            all[name] = (all[name] ?? 0) + wanted[name];
        }
        assert.deepEqual(found, wanted, path);
        await open_tab('sections');
        const names = [...listed(path).matchAll(/^ {2}\[ *\d+\] (\S*) +[A-Z]/gm)].map(([, name]) => name);
        const shown = await cells(1);
        assert.ok(shown.length > 5);
        assert.deepEqual(shown, names.slice(0, shown.length), path);
    }
    for (const [name, count] of Object.entries(all)) assert.ok(count > 20, `${count} ${name}`);
});

check('A file is refused in the words of C, and the page says what was read or what it is', async () => {
    const head = 'the file header', others = { '!<arch>\n': 'an archive', '\x1f\x8b': 'by gzip', '#!/': 'a script',
        MZ: 'DOS (PE)', '\xcf\xfa\xed\xfe': 'a Mach-O file' };
    for (const [is_elf, bytes, ...words] of [[true, content.subarray(0, 40), head],
        [false, Buffer.concat([Buffer.from('MZ'), content.subarray(2)]), head, '4d 5a 4c 46'],
        [false, Buffer.from('text\n'), head, '74 65 78 74 0a'],
        ...Object.entries(others).map(([begin, what]) =>
            [false, Buffer.from(begin.padEnd(80, ' '), 'latin1'), what])]) {
        const { stdout } = spawnSync(dump, [await pick_written('refused', bytes)]), said = await text_of('#refused');
        const [, words_of_c] = /^goblin_file kind=.* offset=\w+ (.+)$/m.exec(stdout);
        assert.equal(await text_of('#refused:not([hidden]) h3'), `Refused: ${words_of_c}`);
        for (const word of words) assert.ok(said.includes(word), said);
        assert.deepEqual([said.includes('This is not an ELF file'), await is_hidden('shown')], [!is_elf, true]);
    }
    const { memory } = browser.cost(), zeros = await pick_written('zeros', '');
    truncateSync(zeros, 4e8);
    await pick(zeros);
    await waited('no file that is refused is kept', () => browser.cost().memory - memory < 2e8);
});

check('The page shows why a file is not read, instead of the previous file', async () => {
    const large = join(folder, 'large'), trouble = '#trouble:not([hidden])',
        is_shown = (part, wanted) => is(() => is_hidden(part), !wanted);
    await take([resize, 1600, 1600], [pick, program_file], [go, main_place, 'main'],
        [pick_written, 'empty', ''], [resize, 1400, 1600], [setTimeout, 250],
        [has_texts, { '#said': '', [trouble]: 'The file is empty: it has 0 bytes.' }],
        [is_shown, 'shown', false], [is_shown, 'refused', false]);
    writeFileSync(large, content);
    truncateSync(large, 2 ** 31 + 1);
    const words = 'The file has 2,147,483,649 bytes. This page reads files of at most 2 GiB (2,147,483,648 bytes).';
    await take([pick, made], [pick, large], [is_shown, 'shown', false],
        [has_texts, { [trouble]: words, '#start .drop': /at most 2 GiB/ }],
        // (a text that is typed just before is searched no more)
        [pick, program_file], [open_tab, 'sections'], [pick, large], [type, 'a'], [setTimeout, 300],
        [has_texts, { '#said': '' }]);
    // (one that is cut while it is read)
    truncateSync(large, 4e8);
    await browser.pick('#pick', large);
    await until(is_busy);
    truncateSync(large, content.length);
    await until(`!(${is_busy})`);
    await has_texts({ [trouble]: /was changed after it was chosen/ });
});

check('If the section headers are refused, no list that is made from them is shown as empty', async () => {
    await pick_written('headers', patched(content, [0x28, content.length]));
    const words = [];
    for (const name of ['sections', 'symbols', 'relocations', 'notes']) {
        await has_texts({ [`#tab-${name} span`]: 'refused' });
        await evaluate(`document.getElementById('panel').replaceChildren()`);
        await take([click, `#tab-${name}`], [until_there, '#panel .refused']);
        words.push(await text_of('#panel .refused'));
    }
    assert.match(words[0], new RegExp('^The section headers begin at 0x2000, .*Refused: .* while reading the section'
        + ' headers: e_shnum \\d+, e_shoff 0x', 's'));
    assert.deepEqual(new Set(words), new Set([words[0]]));
    const cut_note = note('GNU', 1, Buffer.alloc(16)).subarray(0, -4);
    const notes = [note('GNU', 3, Buffer.alloc(4)), note('GA\0\xff', 0x100, Buffer.alloc(4)), cut_note];
    await pick_written('none', elf_file({ sections: [{ name: '.note\u202e', type: 7, bytes: Buffer.concat(notes) }] }));
    await click('#tab-symbols');
    await until(`document.getElementById('panel').textContent.startsWith('The file has no symbols')`);
    // (a location may name a section that is not such a list; then nothing is found)
    await take([open_list, 'symbols/1', 'none'], [has_texts, { '#panel .notice': 'Section 1 holds no symbols.' }],
        [search, 'a', 'none'],
        // (a note whose owner is not UTF-8 is read; a cut one is refused, and those after it are not read)
        [open_tab, 'notes'], [is, () => cells(2), ['GNU', 'GAU+0000\\xff']], [has_texts, { '#tab-notes span': '2+',
            '#panel .refused': /^Refused: .* the descriptor of the note at 0x[0-9a-f]+, of \.noteU\+202E\./ }]);
});

check('Packed relocations and what only the dynamic section leads to are listed, as not proved', async () => {
    const bytes = longs(0x1000, 0b1011, 0b11, 0x2000), wanted = ['0x1000', '0x1008', '0x1018', '0x1200', '0x2000'];
    const file = elf_file({ type: 3, sections: [{ name: '.relr.dyn', type: 19, flags: 2, bytes }] });
    await take([pick_written, 'packed', file, 'relocations'], [has_texts, { '#tab-relocations span': '5',
        '#panel .others': /packed relocations .* outside of what is proved/i }], [is, () => cells(1), wanted],
    [is, async () => (await saved_rows('relocations')).map(([, offset]) => offset), wanted],
    [go, 'relocations/1/3', 'packed relocation 3', { r_offset: /^0x1200/ }],
    [pick_written, 'last', patched(file, [64, (1n << 64n) - 16n], [72, (1n << 64n) - 1n]), 'relocations'],
    [is, async () => (await cells(1)).slice(0, 4), ['0xfffffffffffffff0', '0xfffffffffffffff8', '0x0', '0x8']]);
    for (const [at, value] of [[0x18, (1n << 64n) - 8n], [0x20, 1n << 40n]])
        await take([pick_written, 'past', patched(file, [header_at(file, 1) + at, value])],
            [has_texts, { '#tab-relocations span': 'refused' }]);
    await pick_written('headless', Buffer.from(program_bytes).fill(0, 0x28, 0x30).fill(0, 0x3a, 0x40), 'symbols');
    const [symbols, dyn, plt] = ['.dynsym', '.rela.dyn', '.rela.plt'].map((name) => sections[name].size / 24);
    await has_texts({ '#tab-symbols span': `${symbols}`, '#tab-relocations span': `${dyn + plt}`,
        '#panel .others': /the entries of the dynamic section, whose meaning is outside of what is proved/ });
    const is_listed = (column, table, pattern) => {
        const [part] = listed(program_file).split(` '${table}' `)[1].split('\n\n');
        return is(async () => (await cells(column)).slice(0, 20),
            [...part.matchAll(pattern)].map(([, name]) => name).slice(0, 20));
    };
    await take([is_listed, 1, '.dynsym', /^ *\d+: .* (?:UND|ABS|\d+) ?([^@ \n]*)/gm],
        [open_list, 'relocations/DT_JMPREL', plt], [is_listed, 3, '.rela.plt', /R_\w+ +[0-9a-f]+ ([^@ ]+)/g]);
    // (the hash tables of s390 and Alpha have wide numbers)
    const hashed = (machine, ...hash) =>
        dynamic_file(longs(...hash), [[4, 0x400000], [6, 0x400000]], { machine });
    for (const machine of [22, 0x9026]) await take([pick_written, 'wide', hashed(machine, 1, 3, Array(9).fill(0)),
        'symbols'], [has_texts, { '#tab-symbols span': '3' }]);
    // (a hash table of s390 may say that symbols have more bytes than a number can)
    await take([pick_written, 'hash', hashed(22, 1, 1n << 61n)], [open_list, 'symbols/DT_SYMTAB', 'refused'],
        [has_texts, { '#panel .refused': / while reading the symbols of DT_SYMTAB: offset /, '#panel pre': null,
            '#tab-symbols span': 'refused' }]);
});

check('A damaged file takes no long time, whatever its numbers say', async () => {
    // (many sections over the same bytes)
    const repeated = (type, bytes, count) => {
        const empty = { name: '', type, bytes: Buffer.alloc(0) },
            file = elf_file({ type: 3, sections: [{ ...empty, bytes }, ...Array(count).fill(empty)] });
        const [first, second, last] = [1, 2, count].map((index) => header_at(file, index));
        return file.fill(Buffer.from(file.subarray(first, second)), second, last);
    };
    const tables = repeated(2, Buffer.alloc(24 * 20000), 20000), places = repeated(19, Buffer.alloc(1 << 17, 255), 200);
    const buckets = dynamic_file(longs(0x1ffffffffn, 1), [[0x6ffffef5, 0x400000], [6, 0x400000], [0, 0]]);
    // (and many symbols that are in none of many segments)
    const strays = elf_file({ type: 3, segments: Array(30000).fill({ bytes: Buffer.alloc(0) }), sections: [{ name: '',
        type: 2, bytes: Buffer.concat(Array(30000).fill(symbol({ info: 18, shndx: 999, size: 1 }))) }] });
    for (const content of [tables, places, buckets, strays])
        await timed(() => pick_written('long', content).then(() => facts()));
    // (and names of C++ that each stand for 44,737 signs: those past a number of signs are left alone)
    const name = `_Z1f200${'a'.repeat(200)}1AI${'S_'.repeat(10)}E1BI${'S1_'.repeat(3)}E${'S3_'.repeat(6)}`;
    await pick_written('names', symbols_file(Array(7000).fill({ text: name })), 'symbols');
    await press_button('Demangle');
    await click('#panel [role=columnheader]:nth-child(2) button');
    await until(`${one('#panel output')}.textContent === '7,001' && ${one('#panel .body .row')}.row`);
    assert.deepEqual((await cells(1)).slice(0, 2), ['', name]);
    await press_button('Demangle');
});

// Returns the rows of the summary, or of some of its blocks: the name and value of each, and the mark above them.
async function facts(path, title = '') {
    if (path) await pick(path);
    await click('[role=tab]');
    await until_there('#panel .summary h3');
    return each_of(`#panel .summary [aria-label${title && `^='${title}'`}] tr`, `[...[...item.children].map(
        ({ textContent }) => textContent), item.closest('table').ariaLabel.split(', ')[1] ?? '']`);
}
const lines_of = (title) => facts('', title).then((rows) => rows.map(([name, value]) => `${name}, ${value}`));
const value_in = (rows, name) => rows.find(([title]) => title === name)?.[1];

// What rests on what the page reads itself is below a mark, one a block. What a cut file lacks is unknown.
check('The first tab says in words what readelf lists of a program, in the order of what a person asks', async () => {
    const rows = await facts(program_file), of = (name) => value_in(rows, name), output = listed(program_file),
        own_text = `[...item.querySelectorAll('.own')].map(({ textContent }) => textContent).join()`;
    assert.deepEqual(await each_of('#panel .summary section', `[item.querySelector('h3').textContent, ${own_text}]`),
        [['What it is', ''], ['What protects it', 'not proved'], ['What it needs', 'not proved'],
            ['Why it is large', ''], ['Largest sections', ''], ['Largest functions', ''], ['How it was built', '']]);
    const needs = output.split('Version needs section')[1].matchAll(/File: (\S+).*\n((?:.* Name: .*\n)*)/g);
    const versions = Object.entries(Object.fromEntries(Array.from(needs, ([, name, lines]) =>
        [name, [...lines.matchAll(/Name: (\S+)/g)].map(([, version]) => version)])));
    for (const [name, wanted] of Object.entries({
        libraries: [...output.matchAll(/\(NEEDED\) .*\[(.*)\]/g)].map(([, name]) => name).join(', '),
        'symbol versions': versions.map(([name, all]) => `${name}: ${all.join(', ')}`).join('; '),
        interpreter: new RegExp(`^${/program interpreter: (.*)\]/.exec(output)[1]}, segment \\d+$`),
        'build ID': `${/Build ID: (\w+)/.exec(output)[1]}, note`, 'position-independent': 'yes',
        kind: `A position-independent program for x86-64 of ${decimal(program_bytes.length)} bytes, without debug`
            + ' information', 'read-only relocations': 'partial, segment 12', stack: 'not executable, segment 11',
        'stack canary': 'yes, __stack_chk_fail', stripped: 'no, .symtab',
    })) await is(() => of(name), wanted, name);
    await has_texts({ '#file': /position-independent program for x86-64/ });
    const cut = Object.fromEntries(await facts(join(stored, 'facts', 'cut_dynamic'))),
        unknown = 'unknown: not in the file, or more than is read';
    assert.deepEqual([cut.libraries, cut['stack canary'], cut.stack], [unknown, unknown, 'not executable, segment 8']);
    for (const [name, , mark] of rows)
        assert.equal(mark, /^(symbol versions|control-flow marks|read-only relocations|debug file)$/.test(name)
            ? 'not proved' : '', name);
    const [[name, { size: largest }]] = Object.entries(sections).sort(([, a], [, b]) => b.size - a.size);
    assert.ok(rows.some(([size, value]) => size.startsWith(`${decimal(largest)} bytes, `) && value === name));
    // (underscores are above the line below a link)
    assert.ok(await evaluate(`parseFloat(getComputedStyle(${one('.fields a')}).textUnderlineOffset) >= 4`));
    const [, ...found] = await facts(program_file, 'Largest functions');
    assert.equal(found[0][1], functions[0].name);
    assert.deepEqual(found.map(([size]) => size), functions.slice(0, 10).map(({ size }) => `${decimal(size)} bytes`));
    const { kind: words, 'debug information': debug } = Object.fromEntries(await facts(made));
    const of_object = `An object file for x86-64 of ${decimal(content.length)} bytes, with debug information`;
    assert.deepEqual([words, debug], [of_object, '64 bytes, .debug_info']);
});

check('All libraries are in one row, up to a number, with how many there are and are left out', async () => {
    const needing = (strings, names, given) =>
        dynamic_file(strings, [...names.map((at) => [1, at]), [5, 0x400000], [10, strings.length], [0, 0]], given);
    for (const [all, more] of [[261, ''], [300, ''], [301, ' and 1 more'], [400, ' and 100 more']]) {
        const names = times(all, (i) => (i < 260 ? `l${i}.so` : `libc.so.${i}`)),
            strings = Buffer.from(`\0${names.map((name) => `${name}\0`).join('')}`);
        await pick_written('needed', needing(strings, names.map((name) => strings.indexOf(`\0${name}\0`) + 1)));
        assert.equal(value_in(await facts(), 'libraries'), `${all}: ${names.slice(0, 300).join(', ')}${more}`);
    }
    // (in a damaged file each name may be long, and of signs that are shown as several)
    const long = Buffer.alloc(4097, 1).fill(0, 0, 1).fill(0, 4096), text = Buffer.alloc(65536, 'x');
    await pick_written('long', needing(long, Array(20).fill(1), { sections: [data('.comment', text)] }));
    const rows = await facts(), libraries = `20: ${Array(8).fill('U+0001'.repeat(4095)).join(', ')} and 12 more`;
    assert.ok(value_in(rows, 'libraries') === libraries && value_in(rows, 'compiler').startsWith(`${text}`));
});

check('A function has one row, whatever its names, and what is in no symbol is said, too', async () => {
    const given = [['a', 0, 8], ['alias', 0, 8], ['inside', 4, 4], ['b', 8, 16], ['other', 8, 12], ['c', 40, 1]].map(
        ([text, value, size]) => ({ text, info: 2, shndx: 3, value, size }));
    const text = code(Buffer.alloc(64, 1)), functions = () => lines_of('Largest functions');
    await take([pick_written, 'functions', symbols_file(given, text)],
        [is, functions, ['in no symbol, 39 of 64 bytes of code', '16 bytes, b', '8 bytes, a', '1 byte, c']]);
    // (in the first ABI of 64-bit PowerPC symbols of functions are descriptors, with the sizes of the code)
    const power = join(stored, 'made', 'powerpc64_library'), { '.symtab': { index } } = sections_of(power),
        described = symbols_of(power).find(({ name }) => name === 'function');
    assert.deepEqual((await facts(power, 'Largest functions')).slice(1).map(([, name]) => name.slice(0, 5)),
        ['__plt', '__plt', '__plt']);
    await go(`symbols/${index}/${described.index}`, 'function');
    await has_texts({ '#chosen .lies': / 16 bytes$/, '#chosen .blocks button': 'descriptor in .opd' });
    // (what another section covers is not drawn as code)
    const other = data('.data', Buffer.alloc(32, 1), { flags: 3 }),
        content = symbols_file([{ text: 'all', info: 2, shndx: 3, size: 64 }], text, other);
    const [of_text, of_data] = [3, 4].map((index) => header_at(content, index) + 0x18);
    await take([pick_written, 'covered', patched(content, [of_data, content.readBigUInt64LE(of_text) + 32n])],
        [is, functions, ['in no symbol, 0 of 32 bytes of code', '64 bytes, all']]);
});

check('What is broken is in one row, with links to its places', async () => {
    const far = 1n << 40n, sections = ['.a', '.b', '.c'].map((name) => data(name, Buffer.alloc(64, 1)));
    const made_file = elf_file({ sections, segments: [{ bytes: Buffer.alloc(8) }] });
    const table = header_at(made_file, 0), whole = patched(made_file, [table + 0x20, far], [table + 0x28, 9, 4]);
    const [a, b, c] = [1, 2, 3].map((index) => header_at(whole, index) + 0x18);
    const cut = 'cut at the file’s end at', end = hex(whole.length), farthest = (1n << 63n) + 1n,
        past = 'past the file’s end at', header = 'wrong in the header:';
    for (const [[at, value, width = 8, size], words, ...places] of [
        [[0, 0x7f, 1], 'no: tables, sections and segments lie in the file, and no sections overlap'],
        [[0x34, 52, 2], `yes: ${header} e_ehsize is 52, not 64`, 'header/e_ehsize'],
        [[0x36, 32, 2], `yes: ${header} e_phentsize is 32, not 56`, 'header/e_phentsize'],
        [[0x3a, 40, 2], `yes: ${header} e_shentsize is 40, not 64`, 'header/e_shentsize'],
        [[0x3e, 9, 2], `yes: ${header} e_shstrndx is 9 of 5 sections`, 'header/e_shstrndx'],
        [[0x3e, 0xffff, 2], `yes: ${header} e_shstrndx is 65535, sh_link of section 0 is 9 of 5 sections`,
            'header/e_shstrndx'],
        [[0x3c, 0, 2], 'yes: refused: section headers', 'sections'],
        [[b, whole.readBigUInt64LE(a) + 8n], 'yes: overlapping: .a, .b', 'sections/1', 'sections/2'],
        [[c, far], `yes: ${past} ${end}: .c`, 'sections/3'], [[c + 8, far], `yes: ${cut} ${end}: .c`, 'sections/3'],
        [[64 + 0x20, far], `yes: ${cut} ${end}: segment 0, LOAD`, 'segments/0'],
        [[0, 0x7f, 1, table + 100], `yes: ${cut} ${hex(table + 100)}: Section headers`, 'sections'],
        [[0, 0x7f, 1, table], `yes: ${past} ${hex(table)}: Section headers`, 'sections'],
        [[c, farthest], `yes: ${past} ${end}: .c`, 'sections/3'],
    ]) {
        await pick_written('broken', patched(whole.subarray(0, size), [at, value, width]));
        const found = value_in(await facts(), 'broken'), links = await each_of('#panel .summary tr',
            `item.textContent.startsWith('broken') ? [...item.querySelectorAll('a')].map(({ hash }) => hash) : []`);
        assert.deepEqual([found, links.flat()], [words, places.map((place) => `#${place}`)]);
    }
    await has_texts({ '#legend .past': `past the end: .c at ${hex(farthest)}` });
    // (the segments of a debug file are those of another file)
    const of_debug = value_in(await facts(join(stored, 'facts', 'debug_with_sizes')), 'broken');
    assert.equal(of_debug, 'no: tables and sections lie in the file, and no sections overlap');
    // (here of .text, and in .comment)
    await take([has_texts, { '#legend .past': null }],
        [go, 'address/0x470', 'address 0x470', { section: '.text', offset: /^none/ }],
        [go, 'offset/0x2d0', 'offset 0x2d0'], [is, side, /\.comment/], [is, () => field_of('address'), null]);
    const high = elf_file({ type: 2, segments: [{ vaddr: (1n << 64n) - 16n, bytes: Buffer.alloc(64, 1) }] });
    await take([pick_written, 'high', high], [go, 'offset/0x98', 'offset 0x98', { address: '0x10' }]);
    // (an entry where nothing is loaded, as of a kernel, is no link)
    for (const [type, entry, links] of [[2, (1n << 64n) - 8n, 1], [2, 0x1000n, 0], [1, 8n, 0]]) {
        await pick_written('entry', patched(high, [0x10, type, 2], [0x18, entry]));
        assert.equal(value_in(await facts(), 'starts at'), hex(entry));
        assert.equal((await each_of('#panel .summary [href^="#address"]', 'item.hash')).length, links);
    }
    // (section 0 may have any type)
    const first = symbols_file([{ text: 'a' }]);
    await take([pick_written, 'first', patched(first, [header_at(first, 0) + 4, 2, 4]), 'symbols'],
        [has_texts, { '#tab-symbols span': '2' }], [is, () => cells(1), ['', 'a']]);
});

check('A module, its signature, compressed debug information, appended bytes and padding are called so', async () => {
    const texts = Buffer.from('depends=crc16,mbcache\0vermagic=6.1.0 SMP \0'), signature = Buffer.alloc(700, 0x30),
        names = ['.modinfo', '.gnu.linkonce.this_module'];
    const module = elf_file({ sections: [data(names[0], texts, { flags: 2 }), data(names[1], texts, { flags: 3 }),
        data('.debug_info', Buffer.alloc(24, 1), { flags: 0x800 }), data('.a', Buffer.alloc(1, 1)),
        data('.none', Buffer.alloc(2040), { type: 0 })] });
    const signed = Buffer.concat([signature, Buffer.from([0, 0, 2, 0, 0, 0, 0, 0, 0, 0, 2, 0xbc]),
        Buffer.from('~Module signature appended~\n')]);
    const content = Buffer.concat([module, Buffer.from('appended'), signed]);
    const rows = await facts(await pick_written('module', content));
    for (const [name, value] of Object.entries({
        kind: `A kernel module for x86-64 of ${decimal(content.length)} bytes, with debug information`,
        kernel: '6.1.0 SMP ', modules: 'crc16,mbcache', 'debug information': '24 bytes, compressed, .debug_info',
        'appended bytes': `8 bytes, ${hex(module.length)}`, 'module signature': `740 bytes, ${hex(module.length + 8)}`,
        broken: 'no: tables, sections and segments lie in the file, and no sections overlap',
    })) assert.equal(value_in(rows, name), value, name);
    assert.equal((await shares())['appended bytes'], Math.round(1000 * 748 / content.length) / 10);
    await open_tab('layout');
    const [sizes, titles] = [await cells(3), await cells(5)], next = titles.indexOf('.a') + 1;
    assert.deepEqual([titles.includes('.debug_info (compressed)'), titles.includes('gap')], [true, false]);
    assert.deepEqual([sizes[next], titles[next], ...titles.slice(-2)],
        ['2,047', 'padding', 'appended bytes', 'module signature']);
    const unsaid = elf_file({ sections: names.map((name) => data(name, Buffer.from('vermagic\0'))) });
    assert.equal(value_in(await facts(await pick_written('unsaid', unsaid)), 'kernel'), '');
});

check('A core has its signal, command, threads with registers, and mapped files, by the layouts of Linux', async () => {
    const put = (size, ...numbers) => patched(Buffer.alloc(size), ...numbers),
        running = () => facts('', 'What was running');
    const thread = (id, rip, rsp) =>
        note('CORE', 1, put(336, [12, 11, 2], [32, id, 4], [112 + 80, 0x77], [112 + 128, rip], [112 + 152, rsp]));
    const process = put(136, [24, 70, 4]);
    process.write('program', 40);
    process.write('./program --all', 56);
    const ranges = [[0x400000, 0x401000, 0], [0x401000, 0x402000, 1], [0x7f0000, 0x7f1000, 0]];
    const mapped = Buffer.concat([longs(3, 4096, ...ranges), Buffer.from('/bin/a\0/bin/a\0/lib/b c\0')]);
    const notes = [thread(71, 0x401234, 0x7fff00), note('CORE', 3, process), note('CORE', 0x46494c45, mapped),
        thread(72, 0x401300, 0x7ffe00), ...times(299, (i) => thread(100 + i, 0x402000, 0x7ffd00))];
    await take([pick_written, 'process', noted_file(notes)], [is, running, [['signal', '11, SIGSEGV'],
        ['command', './program --all, note'], ['process', '70'], ['thread 71', 'rip 0x401234, rsp 0x7fff00, note'],
        ['thread 72', 'rip 0x401300, rsp 0x7ffe00, note'],
        ['299 threads', 'rip 0x402000: 100, 101, 102, 103, 104, 105, 106, 107, and 291 more'],
        ['mapped file', '/bin/a, 2 ranges from 0x400000 on'],
        ['mapped file', '/lib/b c, 1 range from 0x7f0000 on']].map((row) => [...row, 'not proved'])],
    [pick_written, 'apart', noted_file(times(25, (i) => thread(i, 0x401000 + i, 0x7f0000)))],
    [is, async () => (await lines_of('What was running')).slice(-2),
        ['thread 19, rip 0x401013, rsp 0x7f0000, note', 'other places of threads, 5, notes']]);
    // (some machines have other signals by these numbers; and a note may be too short to have a number)
    for (const [machine, bytes, signal, name] of [[62, put(336, [12, 10, 2]), '10, SIGUSR1', 'thread 0'],
        [8, put(336, [12, 10, 2]), '10', 'thread 0'], [43, put(336, [12, 10, 2]), '10', 'thread 0'],
        [62, Buffer.alloc(8, 1), 'unknown', 'thread unknown']]) {
        await pick_written('signal', noted_file([note('CORE', 1, bytes), note('CORE', 6, process)], { machine }));
        const [first, [thread]] = await running();
        assert.deepEqual([...first.slice(0, 2), thread], ['signal', signal, name]);
    }
    await pick(join(folder, 'process'));
    await go('notes/segments/0', 'CORE PRSTATUS, thread 71', { rax: '0x77', rip: '0x401234', registers: /not proved/ });
    for (const [machine, places] of [[183, { x0: 0, sp: 31, pc: 32 }], [243, { pc: 0, sp: 2, t6: 31 }]]) {
        const all = Object.entries(places), status =
            note('CORE', 1, put(480, ...all.map(([, place]) => [112 + 8 * place, 0x1000 + place])));
        await take([pick_written, `core${machine}`, noted_file([status], { machine })],
            [go, 'notes/segments/0', 'CORE PRSTATUS, thread 0',
                Object.fromEntries(all.map(([name, place]) => [name, hex(0x1000 + place)]))]);
    }
});

// Returns the legend's percentages by their names.
async function shares() {
    const found = (await each_of('#legend li', 'item.textContent'))
        .flatMap((item) => [...item.matchAll(/^(.+) ([\d.]+) %$/g)]);
    return Object.fromEntries(found.map(([, word, share]) => [word, Number(share)]));
}

const status = (thread) => Buffer.concat([Buffer.alloc(32), packed([thread, 4]), Buffer.alloc(300)]);
const core_notes = [
    ['CORE', 1, 'PRSTATUS', 71], ['CORE', 3, 'PRPSINFO'], ['CORE', 0x53494749, 'SIGINFO'], ['CORE', 6, 'AUXV'],
    ['CORE', 0x46494c45, 'FILE'], ['CORE', 2, 'FPREGSET', 71], ['LINUX', 0x202, 'X86_XSTATE', 71],
    ['CORE', 1, 'PRSTATUS', 72], ['CORE', 2, 'FPREGSET', 72], ['LINUX', 0x7777, '0x7777', 72],
    ['LINUX', 0x205, 'X86_XSAVE_LAYOUT'], ['GDB', 0xff000000, 'GDB_TDESC'],
    ['GNU', 3, 'GNU_BUILD_ID'],
];

check('Memory and notes of a core with its threads, and segments without sections, are pieces', async () => {
    const notes = core_notes.map(([owner, type, name, thread]) =>
        note(owner, type, name === 'PRSTATUS' ? status(thread) : Buffer.alloc(64)));
    const file = noted_file(notes, { segments: [{ flags: 5, vaddr: 0x400000, bytes: Buffer.alloc(4096, 1) },
        { flags: 6, vaddr: 0x600000, bytes: Buffer.alloc(8192, 2) }] });
    await pick_written('core', file, 'notes');
    const legend = await shares(), { padding: between = 0 } = legend;
    assert.deepEqual([legend.code, legend.data, legend.notes],
        [4096, 8192, Buffer.concat(notes).length].map((held) => Math.round(1000 * held / file.length) / 10));
    assert.ok(between < 0.2, `padding ${between} %`);
    const shown = core_notes.map(([, , name, thread = '']) => [name, `${thread}`]), threads = await cells(4);
    assert.deepEqual((await cells(3)).map((name, i) => [name, threads[i]]), shown);
    await open_tab('layout');
    const pieces = await cells(5);
    const titles = core_notes.map(([owner, , name, thread]) => `${owner} ${name}${thread ? `, thread ${thread}` : ''}`);
    for (const title of [...titles, 'segment 1, LOAD', 'segment 2, LOAD'])
        assert.ok(pieces.includes(title), pieces.join('; '));
    const stripped = Buffer.from(program_bytes).fill(0, 0x28, 0x30).fill(0, 0x3c, 0x40);
    await pick_written('stripped', stripped);
    const all = segments_of(program_file).filter(({ type }) => type === 'LOAD');
    const covered = all.reduce((sum, { size: bytes }) => sum + bytes, 0), found = await shares();
    const rest = 100 * (stripped.length - covered) / stripped.length - found.padding - found['appended bytes'];
    assert.ok(covered > 0 && Math.abs(rest) < 0.15, `${rest} %`);
});

check('If a file has more segments than its header can say, the first section header says how many', async () => {
    const many = Buffer.concat([elf_file({ type: 4 }), Buffer.alloc(64 + 56 * 70000)]);
    const file = patched(many, [0x20, 128], [0x28, 64], [0x38, 0xffff, 2], [0x3a, 64, 2], [0x3c, 1, 2],
        [64 + 44, 70000, 4]);
    await take([pick_written, 'many', file, 'segments'],
        [has_texts, { '#tab-segments span': '70,000', '#panel output': '70,000' }],
        [go, 'segments/69999', 'segment 69999, NULL']);
});

check('In a file with sections code is what executable sections hold, and no padding of a segment', async () => {
    const content = patched(elf_file({ segments: [{ flags: 5, vaddr: 0x400000, bytes: Buffer.alloc(4096) }],
        sections: [code(Buffer.alloc(4096, 0x90), { addr: 0x401000 })] }), [64 + 0x20, 8192]);
    const share = (bytes, of = content) => Math.round(1000 * bytes / of.length) / 10;
    await pick_written('padding', content);
    const legend = await shares();
    // (the names of sections have 17 bytes)
    assert.deepEqual([legend.code, legend.padding], [share(4096), share(4096 + 7)]);
    // (bytes in no section are a gap, unless they are all the same)
    const hole = elf_file({ sections: [code(Buffer.alloc(4096, 'gap'))] });
    await pick_written('hole', patched(hole, [header_at(hole, 1) + 0x20, 96]));
    assert.equal((await shares()).gap, share(4000, hole));
    await pick(program_file);
    const pattern = /^ {2}\[ *\d+\] \S+ +(?!NOBITS)[A-Z_]+ +\S+ \S+ ([0-9a-f]+) \S+ +[WA]*X/gm;
    const held = [...listed(program_file).matchAll(pattern)].reduce((all, [, size]) => all + parseInt(size, 16), 0);
    assert.ok(held > 1000 && Math.abs((await shares()).code - 100 * held / program_bytes.length) < 0.1);
});

check('The part of a segment that a cut file has is named and hatched, and is no gap', async () => {
    const all = segments_of(program_file), last = all.findIndex(({ flags }) => flags === 'R E'),
        { offset: start, size } = all[last];
    const end = start + Math.floor(size / 2), final = hex(end - 1), share = (bytes) => 100 * bytes / end;
    await pick_written('cut', program_bytes.subarray(0, end));
    const held = Buffer.alloc(end).fill(1, 0, 64 + 56 * all.length);
    for (const { offset, size: bytes } of all) held.fill(1, Math.min(offset, end), Math.min(offset + bytes, end));
    const { gap = 0, padding = 0, 'hatched: cut at the file’s end': cut } = await shares(), rest = gap + padding;
    assert.ok(Math.abs(rest - share(held.filter((byte) => byte === 0).length)) < 0.1, `${rest} %`);
    assert.ok(Math.abs(cut - share(end - start)) < 0.1, `cut ${cut} %`);
    await go(`offset/${final}`, `offset ${final}`);
    const title = `segment ${last}, LOAD (cut: ${decimal(end - start)} of ${decimal(size)} bytes are here)`,
        shown = await side();
    assert.ok(shown.includes(`in ${title}`) && shown.includes(`${title} + ${hex(end - 1 - start)}`), shown);
    // (the lines of the hatching divide its colour)
    const low = await evaluate(`document.getElementById('canvas').height - 16`), is_code = await row_of('code', low);
    assert.ok(is_code.filter((is_it, i) => is_it && !is_code[i - 1]).length > 20);
    // (what lies past the end is marked there, and named)
    const marked = (await row_of('bad', low)).indexOf(true), headers = hex(header_at(program_bytes, 0));
    assert.ok(marked > 0 && Math.abs(marked - is_code.lastIndexOf(true)) < 8,
        `${marked}, ${is_code.lastIndexOf(true)}`);
    assert.match(await text_of('#legend .past'),
        new RegExp(`^past the end: Section headers at ${headers}, segment \\d+, `));
    const damaged = elf_file({ sections: [code(Buffer.alloc(64))] });
    await pick_written('damaged', patched(damaged, [header_at(damaged, 1) + 0x20, 1n << 40n]), 'layout');
    const text = `.text (cut: ${damaged.length - 64} of 1,099,511,627,776 bytes are here)`;
    assert.deepEqual(await cells(5), ['ELF header', text, '.shstrtab', text, 'Section headers']);
});

check('Names depend on the machine and the owner, and numbers without a name are shown as numbers', async () => {
    const bytes = Buffer.alloc(8), segments = [{ type: 0x70000001, bytes }],
        text = (name, type, flags = 0) => ({ name, type, flags, bytes });
    const notes = { name: '.note', type: 7,
        bytes: Buffer.concat([note('stapsdt', 3, bytes), note('GNU', 3, bytes), note('other', 3, bytes)]) };
    const given = [notes, text('.unwind', 0x70000001), text('.relr.dyn', 19), text('.unknown', 0x61234567),
        text('.kept', 1, 0x200002)], are = (column, wanted) => is(() => cells(column), wanted);
    for (const [machine, name, of_segment] of [[62, 'X86_64_UNWIND', '0x70000001'], [40, 'ARM_EXIDX', 'ARM_EXIDX'],
        [243, '0x70000001', '0x70000001']]) {
        await pick_written(`labels${machine}`, elf_file({ machine, osabi: 3, sections: given, segments }), 'sections');
        const types = (await cells(2)).slice(2, 6), { 5: flags } = await cells(6);
        assert.deepEqual([...types, flags], [name, 'RELR', '0x61234567', 'PROGBITS', 'ALLOC GNU_RETAIN']);
        await take([open_tab, 'segments'], [are, 1, [of_segment]]);
    }
    await take([open_tab, 'notes'], [are, 3, ['STAPSDT', 'GNU_BUILD_ID', '0x3']], [click, '#tab-header'],
        [until, `document.querySelector('[data-field=ei_osabi]')?.textContent.includes('ELFOSABI_GNU')`]);
    // (FreeBSD numbers the notes of its cores anew)
    for (const [type, ...types] of [[2, 'FREEBSD_ABI_TAG', '0x7'], [4, 'PRSTATUS', 'THRMISC']])
        await take([pick_written, 'freebsd', noted_file([1, 7].map((of) => note('FreeBSD', of, bytes)), { type }),
            'notes'], [are, 3, types]);
    // (numbers that the page does not name are in its closing list)
    const register = symbols_file([{ text: '%g2', info: 13 }]);
    await take([pick_written, 'register', patched(register, [0x12, 43, 2]), 'symbols'], [are, 4, ['NOTYPE', '13']],
        [pick_written, 'alpha', elf_file({ machine: 0x9026, sections: [relocations({ type: 2 })] }), 'relocations'],
        [are, 2, ['2']], [facts],
        [has_texts, { '#panel .others': /the relocations of Alpha and .* SPARC’s symbol type STT_REGISTER/ }],
        // (what belongs together is apart in the text, too, which is copied and read aloud)
        [pick, program_file], [go, main_place, 'main', { st_info: '0x12, STB_GLOBAL (1), STT_FUNC (2)',
            st_other: /STV_DEFAULT \(0\)/, st_size: `${main.size}, ${decimal(main.size)} bytes` }],
        [has_texts, { '#tab-sections': `Sections ${counts_of(program_file).sections}`,
            h1: 'goblin what an ELF file holds' }]);
});

// Names of C++: some of each form that is read.
const READ = ['_ZN5space5ClassILi5ELb1ELm7EEC2ERKS1_', '_ZNKSs4sizeEv',
    '_ZStlsISt11char_traitsIcEERSt13basic_ostreamIcT_ES5_PKc', '_ZTVN1a1bE', '_ZN1aIiEaSEOS0_', '_Z3mapIPFvPKciEET_S3_',
    '_ZThn16_N1a1bEv', '_ZN3fooB5cxx11ILN1k1eE3EJidEE3barEv.part.0', '_ZNO1a1bEVPKi', '_ZN12_GLOBAL__N_11aD1Ev',
    '_ZNVKSt6atomicIiE4loadESt12memory_order', '_ZN1aIJEiE1bEv', '_ZGVNK1a1bE'];

// (modules.mjs compares what each name is with c++filt)
check('A switch shows names of C++ as they are written there, and both are found and saved', async () => {
    const names = [...READ, 'main', '_Z'], by_filter = new Map(readFileSync(join(stored, 'mangled'), 'utf8').trim()
        .split('\n').map((line) => line.split('\t'))), wanted = READ.map((name) => by_filter.get(name));
    const shows = (first) => until(`${one('#panel .body .row:nth-child(2) .cell:nth-child(2)')}?.textContent
        === ${quoted(first)}`), heads = () => each_of('#panel [role=columnheader]', 'item.textContent');
    await pick_written('mangled', symbols_file(names.map((text) => ({ text }))), 'symbols');
    const [index, name, ...others] = await heads();
    assert.deepEqual([name, (await cells(1)).slice(1)], ['Name', names]);
    assert.deepEqual((await saved_rows('symbols')).map(([, , demangled]) => demangled), ['', ...wanted, '', '']);
    await press_button('Demangle');
    await shows(wanted[0]);
    assert.deepEqual([(await cells(1)).slice(1), await heads()],
        [[...wanted, 'main', '_Z'], [index, 'Demangled (not proved)', ...others]]);
    for (const text of [wanted[0], READ[0]]) await search(text.toUpperCase(), `1 of ${names.length + 1}`);
    await search('', `${names.length + 1}`);
    await press_button('Demangle');
    await shows(READ[0]);
    await go('symbols/1/1', READ[0], { demangled: `${wanted[0]}, not proved` });
});

check('While a file is read, the previous one stays and can be used, and the page says how much is left', async () => {
    await take([pick, program_file], [open_tab, 'sections']);
    const large = join(folder, 'large'), { memory } = browser.cost();
    writeFileSync(large, content);
    truncateSync(large, 4e8);
    await browser.pick('#pick', large);
    await take([until, is_busy], [evaluate, `void (${one('#goto')}.value = '.text', ${one('#goto')}.onfocus())`],
        [until_there, '#found:not([hidden]) li']);
    for (const row of [1, 2, 3]) {
        await click_row(row);
        assert.ok(await evaluate(is_busy), 'the file is read before its test is done');
        await until_chosen((await cells(1))[row]);
    }
    const is_undimmed = async () =>
        assert.deepEqual([await text_of('#loading'), await evaluate(`${one('.dimmed')} === null`)], ['', true]);
    await take([until_there, 'body.dimmed'], [has_texts, { '#file b': 'x86_64_program',
        '#loading': /^Reading large: [\d,]+ MB of 400 MB left$/ }],
    [until, `${one('#file b')}.textContent === 'large' && !(${is_busy})`], [is_undimmed],
    [is, () => is_hidden('found'), true]);
    // (the file is in the memory once)
    await waited('no second copy of the file is kept', () => browser.cost().memory - memory < 1.6 * 4e8);
    // (a file that another one replaces before it is read does not dim that one; timers are late, as that one may be)
    await evaluate(`void (globalThis.timer = setTimeout,
        globalThis.setTimeout = (run, wait) => timer(run, 10 * wait))`);
    await browser.pick('#pick', large);
    await pick(made);
    await evaluate(`new Promise((resolve) => timer(resolve, 2100)).then(() => void (globalThis.setTimeout = timer))`);
    await is_undimmed();
    rmSync(large);
});

const bytes_of = (path, at, size) => readFileSync(path).subarray(at, at + size).toString('hex');

check_program('A symbol has its bytes, and links along which back and forward lead', async () => {
    await go(main_place, 'main');
    const shown = await bytes_shown(), data = sections['.data'];
    assert.ok(shown.length > 40 && bytes_of(program_file, main_at, main.size).startsWith(shown), shown);
    // (a symbol without a size has the bytes from its offset on)
    const label = symbols.find(({ type, size, section }) => type === 'NOTYPE' && size === 0
        && section === `${data.index}`), of_label = await go(`${symtab}/${label.index}`, label.name).then(bytes_shown);
    assert.ok(of_label
        && bytes_of(program_file, label.value - data.address + data.offset, 16).startsWith(of_label), label.name);
    // (and one at whose address nothing is has no link to it)
    const end = symbols.find(({ name }) => name === '_end'), address = `address ${main_address}`;
    await take([go, `${symtab}/${end.index}`, '_end', { st_value: hex(end.value) }], [go, main_place, 'main'],
        [follow, 'address', address], [is, side, /segment \d+, LOAD/], [follow, 'main'], [follow, '.text'],
        [is, fragment, `sections/${text.index}`], [go_in_history, 'back', 'main'], [is, fragment, main_place],
        [go_in_history, 'back', address], [is, fragment, `address/${main_address}`],
        [go_in_history, 'forward', 'main']);
});

check('A link to a location leads there once the file is picked', async () => {
    await browser.open(`${url}#sections/${sections['.dynstr'].index}`);
    await take([pick, program_file], [until_chosen, '.dynstr'],
        [has_texts, { [`${active_row} :nth-child(2)`]: '.dynstr' }]);
});

check_program('A section has links to those at its sh_link and sh_info', async () => {
    for (const [name, link, fields = {}] of [['.rela.plt', '.dynsym', { sh_info: /^\d+, \.got/ }],
        ['.rela.dyn', '.dynsym'], ['.dynsym', '.dynstr'], ['.symtab', '.strtab']])
        await take([go, `sections/${sections[name].index}`, name,
            { sh_link: `${sections[link].index}, ${link}`, ...fields }], [follow, link]);
});

check_program('Back goes from row to row, and the steps of the arrow keys count as one', async () => {
    await open_tab('sections');
    const [, first, second, third] = await cells(1), active = () => text_of(`${active_row} :nth-child(2)`);
    await take([click_row, 1], [until_chosen, first], [click_row, 2], [until_chosen, second],
        [press, '#panel .grid', 'ArrowDown'], [until_chosen, third], [go_in_history, 'back', first],
        [is, active, first],
        // (a tab where nothing is chosen shows nothing of the tab before)
        [open_tab, 'segments'], [until_chosen, 'ELF header'], [go_in_history, 'back', first],
        [click, '#tab-sections'], [until_chosen, 'ELF header'], [is, () => text_of(active_row), null],
        [go, 'sections/1', first]);
    // (an arrow key moves the mark on, also while the worker is asked where the row of a location is)
    await evaluate(`(async () => {
        history.pushState({}, '', '#sections/5');
        dispatchEvent(new PopStateEvent('popstate'));
        for (let i = 0; i < 50; i++) await undefined;
        ${one('#panel .grid')}.dispatchEvent(new KeyboardEvent('keydown', { key: 'ArrowDown' }));
    })()`);
    await take([until_chosen, second], [is, active, second]);
    // (a row is shown that is clicked before the list is sorted anew)
    await evaluate(`void (${one('#panel [role=columnheader]:nth-child(2) button')}.click(),
        document.querySelectorAll('#panel .body .row')[3].children[1].click())`);
    await until_chosen(third);
});

check_program('The chosen row stays marked once the list is sorted or searched', async () => {
    const all = Object.keys(sections).length + 1, marked = `${active_row} :nth-child(2)`,
        first_row = (text) => until_text('#panel .body .row :first-child', text);
    await take([go, `sections/${text.index}`, '.text'], [sort_by, 1], [first_row, `${all - 1}`],
        [until_text, marked, '.text'], [search, '.tex', `1 of ${all}`], [has_texts, { [marked]: '.text' }],
        [search, '.dynst', `1 of ${all}`], [has_texts, { [marked]: null }], [search, '', `${all}`],
        [has_texts, { [marked]: '.text' }]);
    // (a link to it scrolls to it, and out of view it can be copied)
    const texts = times(500, (i) => ({ text: `s${i + 1}` }));
    await take([pick_written, 'scrolled', symbols_file(texts), 'symbols'], [go, 'symbols/1/400', 's400'],
        [search, 's1', '111 of 501'], [go, 'symbols/1/1', 's1'], [go, 'symbols/1/400', 's400'],
        [until_text, marked, 's400'], [go, 'symbols/1/1', 's1'], [sort_by, 1], [first_row, '500'],
        [has_texts, { [marked]: null }],
        [is, () => copied('Copy row'), '1\ts1\t0x0\t0\tNOTYPE\tLOCAL\tDEFAULT\tundefined'],
        [evaluate, 'void (globalThis.copied = undefined)'], [focus, '#panel .grid'], [is, copied_by_key, ''],
        [until, `globalThis.copied === '1'`]);
});

check_program('A relocation leads to its symbol, and has the bytes that it changes', async () => {
    const [dynamic] = listed(program_file).split(" '.rela.plt' "), all = [...dynamic.matchAll(
        /^([0-9a-f]{16}) +[0-9a-f]{16} (R_\w+) +(?:[0-9a-f]{16} (\w+)(?:@\S+)? \+ )?([0-9a-f]+)$/gm)];
    const at = all.findIndex(([, , type]) => type === 'R_X86_64_GLOB_DAT'), [, digits, , name] = all[at],
        place = parseInt(digits, 16), got = Object.values(sections).find(({ address, size, type }) =>
            address > 0 && place >= address && place < address + size && type !== 'NOBITS');
    await take([go, `relocations/${sections['.rela.dyn'].index}/${at}`, name, { r_type: /R_X86_64_GLOB_DAT/ }],
        [is, bytes_shown, bytes_of(program_file, place - got.address + got.offset, 8)],
        [follow, 'address', `address ${hex(place)}`], [go_in_history, 'back', name], [follow, name],
        [until, `location.hash.startsWith('#symbols/${sections['.dynsym'].index}/')`],
        [until, `${with_text('#chosen th', 'st_info')} !== undefined`]);
    // an object file, whose relocations have offsets in the section at sh_info
    const text = code(Buffer.from('0011223344556677', 'hex')), table = relocations({ offset: 3, type: 2 });
    await take([pick_written, 'object', elf_file({ sections: [text, { ...table, info: 1 }] })],
        [go, 'relocations/2/0', 'R_X86_64_PC32'], [is, bytes_shown, '3344556677']);
});

check_program('The field goes to an offset, an address and a name, and says how it reads digits', async () => {
    const inside = hex(main.value + 1), field = one('#goto'), found = () => is_hidden('found'),
        until_place = (place) => until(`document.querySelector('#chosen h2').textContent.endsWith('${place}')`);
    const begin = (text) => evaluate(`void (${field}.value = '${text}', ${field}.onfocus())`);
    await take([go_by_field, ' 0x10 ', 'offset 0x10'], [is, side, /in ELF header/], [go_by_field, inside],
        [until_place, inside], [is, side, /main \+ 0x1/], [go_by_field, '.dynstr', '.dynstr'],
        [until_active, '#chosen h2'], [go_by_field, 'main', 'main'], [is, fragment, main_place],
        // (Enter waits for a search that has begun)
        [evaluate, `void (${field}.value = '.dynstr', ${field}.onfocus(),
            ${field}.dispatchEvent(new KeyboardEvent('keydown', { key: 'Enter' })))`], [until_chosen, '.dynstr'],
        [go_by_field, 'there is no such name'], [until_text, '#none:not([hidden])',
            'The file has nothing at that offset or address, and no such name as it is in the file.'],
        // (a touch may scroll the results, and a click chooses one)
        [begin, '.dynsym'], [until_text, '#found li b', '.dynsym'],
        [evaluate, `void ${one('#found li')}.dispatchEvent(new PointerEvent('pointerdown', { bubbles: true }))`],
        [is, found, false], [click, '#found li'], [until_chosen, '.dynsym'],
        // (nothing is found for one who has left the field)
        [evaluate, `void (${field}.focus(), ${field}.value = 'main', ${field}.dispatchEvent(new Event('input')),
            ${field}.blur())`], [setTimeout, 500], [is, found, true]);
    // Digits without 0x are decimal or hexadecimal. The page says how it reads them, and links to the other reading.
    const readings = ['offset 0x64, read as decimal', 'offset 0x100, read as hexadecimal'];
    for (const [text, [taken, other]] of [['100', readings], ['0000000000000100', readings.toReversed()]])
        await take([go_by_field, text, taken.split(',')[0]], [until_text, '#said', `${taken}, or ${other}`],
            [click, '#said a'], [until_chosen, other.split(',')[0]]);
    // (the addresses of kernels have 20 decimal digits, and a name that could be a number is a name)
    const kernel = 0xffffffff81000000n;
    await take([go_by_field, main.value.toString(16).padStart(16, '0')], [until_place, main_address],
        [until, `/^\\w+ ${main_address}, read as hexadecimal/.test(document.getElementById('said').textContent)`],
        [pick_written, 'kernel', elf_file({ segments: [{ vaddr: kernel, bytes: Buffer.alloc(16) }], type: 2 })],
        [go_by_field, `${1n << 64n}`], [until_there, '#none:not([hidden])'],
        [go_by_field, `${kernel}`, `address ${hex(kernel)}`],
        [pick_written, 'named', elf_file({ sections: [data('a1', Buffer.alloc(256))] })],
        [go_by_field, 'a1', 'a1'], [go_by_field, 'a2', 'offset 0xa2']);
});

check_program('A search finds texts and addresses, and Enter opens what it finds', async () => {
    const all = decimal(symbols.length), of_all = (is_found) => `${symbols.filter(is_found).length} of ${all}`,
        named = symbols.filter(({ name }) => name.includes('main')), [first, second] = named;
    const at = (value) => [search, `  ${hex(value)} `, of_all(({ value: start, size }) =>
        start === value || (start < value && value < start + size))];
    assert.ok(symbols.some(({ type }) => type === 'SECTION' || type === 'FILE'));
    await take([open_list, symtab, all], at(main.value + main.size), at(main.value + 1),
        [async () => assert.ok((await cells(1)).includes('main'))],
        [search, 'FILE', of_all(({ type, name }) => type === 'FILE' || /file/i.test(name))],
        // Enter opens the first result, and a row of the list, whose column heads are before it.
        [search, 'main', `${named.length} of ${all}`], [press, '#panel input', 'Enter'], [until_active, '#chosen h2'],
        [is, fragment, `${symtab}/${first.index}`], [press, '#panel .saving button:last-child', 'Tab'],
        [is, () => evaluate(`document.activeElement.closest('[role=columnheader]')?.textContent`), '#']);
    await browser.press(...Array(8).fill('Tab'));
    await until_active('[role=grid]');
    await browser.press('ArrowDown', 'Enter');
    // (a search in a list that another one replaces before it begins is given up)
    const { index, size } = sections['.dynsym'];
    await take([until_active, '#chosen h2'], [is, fragment, `${symtab}/${second.index}`], [type, 'init'],
        [open_list, `symbols/${index}`, decimal(size / 24)], [setTimeout, 300], [click_row, 1],
        [until, `location.hash.startsWith('#symbols/${index}/')`], [is, fragment, `symbols/${index}/1`]);
});

check('Each row of a list that is higher than an element can be is reached', async () => {
    await pick_written('high', symbols_file(times(300000, (i) => ({ text: `s${i + 1}` }))), 'symbols');
    for (const index of [300000, 150000, 299990, 1]) {
        await go(`symbols/1/${index}`, `s${index}`);
        const [first, ...others] = (await cells(0)).map(Number), seen = others.map((_, i) => first + i + 1);
        assert.deepEqual([others, await text_of(`${active_row} :nth-child(2)`)], [seen, `s${index}`]);
        assert.ok(await evaluate(`${one('#panel .grid')}.getBoundingClientRect().bottom
            > ${one(active_row)}.getBoundingClientRect().top`));
    }
    await take([press, '#panel .grid', 'ArrowDown'], [until_chosen, 's2']);
    // (the rows at its start may be forgotten, and another file be shown)
    for (let at = 0; at < 80; at++)
        await evaluate(`(${one('#panel .grid')}.scrollTop = ${7e4 * at}, new Promise(requestAnimationFrame))`);
    await take([pick, made], [setTimeout, 250], [has_texts, { '#said': '' }]);
});

// Fails if what is done takes the browser's processes long.
async function timed(act) {
    const { seconds } = browser.cost();
    await act();
    const taken = browser.cost().seconds - seconds;
    assert.ok(taken < 6, `${taken} seconds`);
}

// The first ones read the names. They take a few seconds of a busy processor, and not one for each 10,000.
check('Searches and sorts of 184,833 symbols of C++ are fast, and say how much is done', async () => {
    const count = 184832, end = 'EEEE4some3mapERKSt6vectorISt4pairIPKcS0_ISsEESaIS6_EEi', whole = decimal(count + 1);
    const value_of = (i) => i * 7919 % 1000003, all = times(count, (i) =>
        ({ text: `_ZN5spaceINS_5ClassIiLi${i}${end}`, info: 0x12, shndx: 3, value: value_of(i) }));
    const [, second] = all.map(({ text }) => text).sort(), saying = `1 of ${whole}`,
        path = await pick_written('symbols', symbols_file(all, code(Buffer.alloc(64))), 'symbols');
    const signs = async (word) => assert.ok(await evaluate(`signs.some((sign) => /^${word} … \\d+ %$/.test(sign))`));
    const watch = (selector) => evaluate(`void new MutationObserver(() => signs.push(${one(selector)}.textContent))
        .observe(${one(selector)}, { childList: true })`);
    const in_row = (row, column, text) => until(`${one(`#panel .body .row:nth-child(${row})`)}
        ?.children[${column}].textContent === ${quoted(text)}`);
    await take([evaluate, 'void (globalThis.signs = [])'], [watch, '#panel output'], [press_button, 'Demangle'],
        [timed, () => search('class<int, 777>', saying)], [signs, 'searching'],
        [is, async () => (await cells(1))[0], /^space<space::Class<int, 777> >::some::map\(/],
        [timed, () => search('', whole)], [press_button, 'Demangle']);
    const values = times(count, value_of).sort((a, b) => b - a);
    const sort = (column) => click(`#panel [role=columnheader]:nth-child(${column}) button`);
    for (const first of [0, values[1]])
        await timed(() => take([sort, 3], [until_text, '#panel output', whole], [in_row, 2, 2, hex(first)]));
    assert.deepEqual((await cells(2)).slice(0, 20), values.slice(0, 20).map(hex));
    await timed(() => take([sort, 2], [in_row, 3, 1, second]));
    // (a list that is searched while it is saved says what is found)
    await take([signs, 'sorting'], [press_button, 'Save CSV'], [search, 'Li777E', saying], [waited, 'a saved list',
        () => readdirSync(browser.downloads).some((name) => name.endsWith('.csv'))],
    [has_texts, { '#panel output': saying }],
    // (what is read once is not said to be read again, as while symbols are)
    [watch, '#loading'], [pick, path]);
    const said = new Set(await evaluate(`signs.filter((sign) => /^Reading/.test(sign))`));
    assert.ok(said.size < 4, [...said].join());
    // (Enter opens what a search finds that runs, unless another text is typed, and what is searched is not forgotten)
    await take([open_tab, 'symbols'], [type, 'Li77'], [press, '#panel input', 'Enter'], [type, 'Li778E'],
        [setTimeout, 250], [is, fragment, 'symbols'], [press, '#panel input', 'Enter'], [until_chosen, all[778].text],
        // (the field for a name says that it searches, too, here in names that are not read yet)
        [pick, path], [watch, '#none'], [go_by_field, 'Li777E', all[777].text],
        [is, () => evaluate(`signs.includes('searching …')`), true], [is, () => is_hidden('none'), true]);
});

// Returns the cells of each line of a saved list but the first.
const rows_of = (text) => text.trim().split('\r\n').slice(1)
    .map((line) => [...line.matchAll(/(?:^|,)(?:"((?:[^"]|"")*)"|([^,]*))/g)]
        .map(([, inside, plain]) => inside?.replaceAll('""', '"') ?? plain));

// Saves the open list, and returns the content of the file. (Until that is whole, it has another name, or there is one
// with its part.) Chromium drops downloads beyond ten a second, so each waits for a tenth. If none is there after half
// of the time that the test waits, the list is saved once more, and a line says so. Meanwhile a function is called.
async function saved(name, look = () => {}) {
    const form = new RegExp(`\\.${name}(\\(\\d+\\))?( \\(\\d+\\))?\\.csv$`);
    const content_of = (file) => readFileSync(join(browser.downloads, file), 'utf8');
    const clear = () => readdirSync(browser.downloads)
        .forEach((file) => rmSync(join(browser.downloads, file), { force: true }));
    let pressed = 0;
    const content = await waited('a saved list', async () => {
        look();
        if (Date.now() - pressed > PATIENCE / 2) {
            if (pressed > 0) console.log(`saved: ${name} once more, after ${readdirSync(browser.downloads)}`);
            clear();
            await setTimeout(150);
            pressed = Date.now();
            await press_button('Save CSV');
        }
        const [file, ...others] = readdirSync(browser.downloads);
        return others.length === 0 && form.test(file) && content_of(file);
    });
    clear();
    return content;
}
const saved_rows = async (name) => rows_of(await saved(name));

check('A symbol names its section by an index that does not fit in it, and a section by its symbol', async () => {
    const others = [4, 5, 6, 6].map((index) => data(`.s${index}`, Buffer.alloc(0)));
    const indices = { name: '.shndx', type: 18, link: 1, entsize: 4, bytes: packed([0, 4], [0, 4], [6, 4]) };
    const content = symbols_file([{ info: 3, shndx: 5 }, { text: 'past', info: 0x12, shndx: 0xffff },
        { text: 'past', value: 1 }, { text: 'past', info: 0x12, shndx: 0xffff }], indices, ...others);
    const named = async () => (await cells(7)).slice(0, 3);
    await take([pick_written, 'indices', content, 'symbols'], [is, () => cells(1), ['', '.s5', 'past', 'past', 'past']],
        [is, named, ['undefined', '.s5', '.s6']]);
    // (a section's symbol has no name of its own for a link, and a link leads to the first one with the name)
    for (const [place, title, has_link] of [['symbols/1/1', '.s5', false], ['symbols/1/3', 'past', false],
        ['sections/7', '.s6', false], ['symbols/1/4', 'past', true], ['sections/6', '.s6', true],
        ['symbols/1/2', 'past', true]])
        await take([go, place, title],
            [is, () => evaluate(`${with_text('#chosen button', 'Copy link')} !== undefined`), has_link]);
    const at = header_at(content, 3) + 0x18; // (the indices may be said to be past all offsets)
    await take([follow, '.s6'],
        [pick_written, 'far', patched(content, [at, (1n << 64n) - 8n], [at + 8, 1n << 40n]), 'symbols'],
        [is, named, ['undefined', '.s5', 'extended index']]);
});

// Returns what a button copies.
async function copied(button) {
    await evaluate(`void (globalThis.copied = undefined,
        navigator.clipboard.writeText = async (text) => { globalThis.copied = text; })`);
    await press_button(button);
    await until('globalThis.copied !== undefined');
    return evaluate('globalThis.copied');
}

// Returns what a copy by the browser's own key takes, or true if the page leaves that to the browser.
const copied_by_key = () => evaluate(`((event) => ${one('#panel .grid')}.dispatchEvent(event)
    || event.clipboardData.getData('text/plain'))(new ClipboardEvent('copy',
    { clipboardData: new DataTransfer(), bubbles: true, cancelable: true }))`);

check_program('Cells, rows, bytes and whole lists are copied and saved', async () => {
    const cells_of_main = [main.index, 'main', main_address, main.size, 'FUNC', 'GLOBAL', 'DEFAULT', '.text'];
    await take([go, main_place, 'main'], [click, `${active_row} :nth-child(2)`], [until_chosen, 'main'],
        [is, () => copied('Copy cell'), 'main'], [focus, '#panel .grid'], [is, copied_by_key, 'main'],
        [is, () => copied('Copy row'), cells_of_main.join('\t')], [is, async () =>
            (await copied('Copy hex')).replaceAll(' ', ''), bytes_of(program_file, main_at, main.size)],
        // (a page that is opened by http has no clipboard)
        [evaluate, `void Object.defineProperty(navigator, 'clipboard', { value: undefined, configurable: true })`],
        [press_button, 'Copy row'],
        [until, `/only from a page that is a file or is opened by https/.test(${one('#said')}.textContent)`],
        [evaluate, 'delete navigator.clipboard']);
    const list = await saved('symbols'), rows = rows_of(list);
    assert.equal(list.split('\r\n')[0], '#,Name,Value,Size,Type,Binding,Visibility,Section');
    assert.deepEqual(rows.map(([number, , value, size]) => [number, value, size].map(Number)),
        symbols.map((item) => [item.index, item.value, item.size]));
    assert.equal(rows[main.index][1], 'main');
});

// Picks a file with a number of symbols whose names overlap, each of more signs than are shown, and with others.
function pick_overlapping(count, others = []) {
    const text = Buffer.from(`\0${['a'.repeat(count + 1024), ...others].join('\0')}\0`);
    const places = [...Array(count).keys(), ...others.map((name) => text.indexOf(`\0${name}\0`))],
        bytes = Buffer.concat(places.map((at) => symbol({ name: at + 1 })));
    return pick_written('overlapping', elf_file({ sections: [{ name: '.symtab', type: 2, link: 2, bytes },
        { name: '.strtab', type: 3, bytes: text }] }), 'symbols');
}

check('A list of long names is saved piece by piece, and not twice in the memory', async () => {
    const count = 60000, name = `${'a'.repeat(1024)}…`;
    await pick_overlapping(count);
    const { memory } = browser.cost();
    let most = 0;
    const content = await saved('symbols', () => { most = Math.max(most, browser.cost().memory - memory); });
    const lines = content.split('\r\n').slice(1, -1);
    assert.ok(lines.length === count && lines.every((line, i) => line.startsWith(`${i},${name},0x0,`)));
    const limit = { chromium: 6, firefox: 7.5 }[kind] * content.length;
    assert.ok(most < limit, `${most} bytes, to save ${content.length}`);
});

check('Names are sorted, in a damaged file by their first twelve signs, once they have very many', async () => {
    const [b, c] = ['b'.repeat(11), 'c'.repeat(12)];
    for (const [count, ...wanted] of [[1, `${c}2`, `${c}1`, `${b}2`, `${b}1`],
        [72000, `${c}1`, `${c}2`, `${b}2`, `${b}1`]])
        await take([pick_overlapping, count, [`${c}1`, `${c}2`, `${b}1`, `${b}2`]], [sort_by, 2],
            [until, `${one('#panel .body .row :nth-child(2)')}?.textContent.startsWith('c')`],
            [is, async () => (await cells(1)).slice(0, 4), wanted]);
});

check('A saved list holds nothing that a spreadsheet would run or that ends a cell, and plain numbers', async () => {
    await pick_written('formula', symbols_file([{ text: '=1+1' }, { text: 'a,"b"' }]), 'symbols');
    const lines = (await saved('symbols')).trim().split('\r\n');
    assert.ok(lines[2].startsWith(`1,"'=1+1",0x0,`) && lines[3].startsWith('2,"a,""b""",0x0,'), lines.join('\n'));
    // (numbers that the page shows as words and signs are saved as numbers)
    const content = elf_file({ segments: [{ flags: 5, bytes: Buffer.alloc(4096) }],
        sections: [relocations({ type: 2, addend: (1n << 64n) - 16n })] });
    const saved_cell = (name, column) => open_tab(name).then(() => saved_rows(name)).then(([row]) => row[column]);
    await take([pick_written, 'numbers', content, 'relocations'], [search, '-0x10', '1 of 1'],
        [search, '−0x10', '1 of 1'], [is, () => saved_cell('relocations', 4), '-0x10'],
        [is, () => saved_cell('segments', 2), '0x5'], [open_tab, 'layout']);
    let at = 0;
    const parts = await saved_rows('layout');
    for (const [, from, to, size, share] of parts)
        assert.deepEqual([from, to, share],
            [hex(at), hex(at += Number(size)), (100 * Number(size) / content.length).toFixed(2)]);
    assert.deepEqual([at, parts.length > 4], [content.length, true]);
});

// The bytes that say where the table is are marked.
check('Of a refused table nothing can be saved, and by no way another table is', async () => {
    const bytes = Buffer.alloc(72), place = longs(64 + 72, 1n << 40n), shown = { 1: 3, 2: 'refused', 3: 'none' };
    for (const [name, type] of [['symbols', 2], ['relocations', 4]]) {
        const table = { type, entsize: 24, bytes }, content = elf_file({ sections: [{ name: '.read', ...table },
            { name: '.refused', ...table }, data('.data', bytes)] });
        // (the offset of section 2, after the header and section 1, and its size)
        place.copy(content, header_at(content, 2) + 0x18);
        for (const opened of [[2], [1, 2], [1, 3]]) {
            await pick_written(`refused-${name}`, content);
            for (const index of opened) {
                await open_list(`${name}/${index}`, shown[index]);
                const marked = (await each_of('#panel .refused b', 'item.textContent'))
                    .filter(({ length }) => length === 2).join('');
                assert.deepEqual([await is_visible('#panel .saving'), marked],
                    [index === 1, index === 2 ? place.toString('hex') : '']);
                const lines = (await saved(name)).trim().split('\r\n');
                assert.equal(lines.length, index === 1 ? 4 : 1, `${name} of section ${index}: ${lines}`);
            }
        }
    }
});

check('A sentence says that a folder is dropped, that of two files one is opened, and what leads nowhere', async () => {
    const inside = join(folder, 'inside'), none = (kind, name) => [`${kind}=${name}`,
        `This file has no ${kind} with the name ${name}. This is its summary.`];
    mkdirSync(inside);
    await browser.drop(inside);
    await until_text('#trouble:not([hidden])', 'inside is a folder. Drop an ELF file that is in it.');
    const dragged = `new DragEvent('dragenter', { dataTransfer: new DataTransfer(), cancelable: true })`;
    assert.equal(await evaluate(`dispatchEvent(${dragged}) && ${one('.over')} === null`), true); // (no file)
    await browser.drop(program_file, made);
    await take([until_text, '#said', 'The page shows one file at a time: x86_64_program. Of the 2 that were dropped,'
        + ' little64 is not opened.'], [until_text, '#file b', 'x86_64_program'], [pick, program_file]);
    const nothing = (place) => [place, `The page finds nothing at #${place} in this file.`];
    for (const [place, words] of [none('symbol', 'nope'), none('section', '.no'),
        ...['sections/99999', 'header/e_no', 'address/0x', 'nowhere', `${symtab}/99999`, '%', 'sections/x',
            'offset/0xffffffffffffffff', 'symbols/99999/1', 'notes/x/0', '__proto__/1'].map(nothing)]) {
        await take([set_place, place], [until_text, '#said', words]);
        assert.equal((await each_of('[role=tab][aria-selected=true]', 'item.id')).length, 1, place);
    }
    // (nor is it said of the next file)
    await take([pick, program_file], [has_texts, { '#said': '' }]);
    for (const [place, title] of [['header/e_type', 'e_type'], ['sections', 'ELF header'], [main_place, 'main'],
        ['notes/segments', 'ELF header'], ['offset/0x1', 'offset 0x1'], ['summary', 'ELF header']])
        await take([go, place, title], [is, () => text_of('#said'), '', place]);
});

check('Control characters and those that turn the direction of a text are escaped, in saved lists, too', async () => {
    const codes = (from, to) => times(to - from + 1, (i) => from + i), groups = [codes(1, 0x1f), codes(0x7f, 0x9f),
        [0x200e, 0x200f, ...codes(0x2028, 0x202e), ...codes(0x2066, 0x2069)],
        [0x34f, 0x115f, 0x180b, 0x2800, 0x3164, 0xfe0f, 0xffa0, 0xe0100]];
    const names = groups.map((group) => `a${String.fromCodePoint(...group)}`),
        escapes = names.map((name) => `a${Buffer.from(name.slice(1)).toString('hex').replace(/../g, '\\x$&')}`);
    const shown = groups.map((group) =>
        `a${group.map((code) => `U+${code.toString(16).toUpperCase().padStart(4, '0')}`).join('')}`);
    await take([pick_written, 'unseen', symbols_file(names.map((text) => ({ text }))), 'symbols'],
        [is, async () => (await cells(1)).slice(1), shown],
        [is, async () => (await saved_rows('symbols')).slice(1).map(([, name]) => name), escapes],
        ...shown.map((title, i) => [go, `symbols/1/${i + 1}`, title]));
});

check('The page says in words what a refusal means, and has an example', async () => {
    await take([pick_written, 'short', content.subarray(0, 0x1000)], [click, '#tab-sections'],
        [until_there, '#panel .plainly'],
        [has_texts, { '#panel .plainly': /^The section headers begin at 0x1800, the file ends at 0x1000: it is cut/ }]);
    assert.ok((await facts(join(folder, 'short')))
        .some(([, value]) => value === 'unknown: not in the file, or more than is read'));
    await take([click, '#example'], [until_text, '#file b', 'example'],
        [has_texts, { '#file': /program at fixed addresses for x86-64/ }]);
});

check_program('A link by a name leads to a section or symbol of a file built anew, wherever it is', async () => {
    for (const [place, name, value] of [['section=.text', 'sh_offset', text.offset],
        ['symbol=main', 'st_value', main.value]])
        await take([go, place, place.split('=')[1], { [name]: new RegExp(`^${hex(value)}\\b`) }],
            [is, () => copied('Copy link'), `${url}#${place}`]);
    await go('symbol=%', 'ELF header');
});

check_program('A row has as many bytes as fit, a field shows its bytes, and a byte its field', async () => {
    const { index, size, offset } = text,
        length = `${one('#chosen .hex .row :nth-child(2)')}?.textContent.trim().split(' ').length`;
    for (const [width, each] of [[1600, 16], [1280, 8], [800, 16], [400, 8], [1400, 8]])
        await take([resize, width, 1000], [go, 'header', 'ELF header'], [go, `sections/${index}`, '.text'],
            [until, bytes_drawn], [is, () => evaluate(length), each, `${width}`]);
    await resize(1280, 1000);
    // (in a low window, which has no such button, the list is there, too)
    for (const each of [32, 8])
        await take([press_button, 'Wide'], [until, `${length} === ${each}`],
            [is, () => is_visible('#panel'), each !== 32], [resize, 1280, 560],
            [until, `${one('#panel')}.offsetParent !== null`], [resize, 1280, 1000]);
    const lit = (place) => each_of(`#chosen ${place}`, 'item.textContent').then((texts) => texts.join(''));
    const is_lit = async (name, number) =>
        assert.deepEqual([await lit('tr.lit th'), await lit('.hex .cell:nth-child(2) .lit')],
            [name, longs(number).toString('hex')]);
    await take([resize, 1400, 1000], [press_button, 'sh_size'], [until_there, '#chosen .hex .lit'],
        [is_lit, 'sh_size', size], [evaluate, `${one('#chosen .hex [data-field=sh_offset]')}
            .dispatchEvent(new PointerEvent('pointerover', { bubbles: true }))`], [is_lit, 'sh_offset', offset]);
});

check('The byte order and the heads of columns are words', async () => {
    await take([pick, made], [has_texts, { '#file': /little endian/ }],
        [pick_written, 'big', readFileSync(join(made_files, 'big64')), 'segments'],
        [has_texts, { '#file': /big endian/ }]);
    const heads = await each_of('#panel [role=columnheader]', '[item.textContent, item.title]');
    assert.deepEqual(heads.slice(3, 7),
        [['Offset', 'p_offset'], ['File size', 'p_filesz'], ['Address', 'p_vaddr'], ['Memory size', 'p_memsz']]);
});

check_program('A cut cell has its whole text as a tooltip, and cells of segments are not cut', async () => {
    const cut = () => evaluate(`[...document.querySelectorAll('#panel .body .cell')].filter((cell) => {
        const [a, b] = [cell, document.querySelector('#panel .grid')].map((box) => box.getBoundingClientRect());
        return cell.scrollWidth > cell.clientWidth || a.left < b.left - 1 || a.right > b.right + 1;
    }).map((cell) => cell.title)`);
    const aligned = segments_of(program_file).map(({ align }) => align), named = (...texts) =>
        symbols_file(texts.map((text) => ({ text }))), name = 'a_name_that_has_no_room_in_any_list_'.repeat(9);
    assert.ok(aligned.includes('0x1000'));
    await take([resize, 1280, 900], [open_tab, 'segments'], [is, () => cells(8), aligned], [is, cut, []],
        [open_tab, 'sections'], [is, async () => (await cells(1)).includes('.note.gnu.property'), true], [is, cut, []],
        [pick_written, 'long', named(name), 'symbols'], [is, cut, [name]],
        // (a name takes what the other columns do not need)
        [pick_written, 'fits', named('_Z'.padEnd(30, 'x'), '_Z1fv'), 'symbols'], [is, cut, []]);
});

check_program('Beside the summary and the sizes is no side that says nothing of them', async () => {
    await resize(1280, 900);
    for (const [tab, panel, is_alone] of [['header', '.fields', false], ['summary', '.summary', true],
        ['sections', '.grid', false], ['sizes', '.areas', true]])
        await take([set_place, tab],
            [until, `${one(`#tab-${tab}`)}.ariaSelected === 'true' && ${one(`#panel ${panel}`)} !== null`],
            [until, `(${one('#panel')}.offsetWidth > 1000) === ${is_alone}`],
            [is, () => is_visible('.side'), !is_alone, tab]);
    await take([go, 'sizes', 'ELF header'], [go, 'offset/0x10', 'offset 0x10'], [is, () => is_visible('.side'), true]);
});

// Returns the number of sheets of a document, whose objects may be compressed.
function sheets_of(pdf) {
    const text = pdf.toString('latin1'), inflated = [...text.matchAll(/stream\r?\n/g)].map(({ index, 0: word }) => {
        try { return inflateSync(pdf.subarray(index + word.length)).toString('latin1'); } catch { return ''; }
    });
    return [text, ...inflated].join('').match(/\/Type *\/Page\b(?!s)/g).length;
}

check('Paper has the summary, and all rows of the open list, over as many sheets as these take', async () => {
    const rows = 1500, names = times(rows, (i) => `name_${i}`), printing = (when) =>
        evaluate(`void dispatchEvent(new Event('${when}print'))`);
    await pick_written('printed', symbols_file(names.map((text) => ({ text }))), 'symbols');
    const sheets = async () => sheets_of(await browser.print()), shown = async () => {
        await take([printing, 'before'], [printing, 'before']);
        assert.equal((await each_of('.paper', 'item.id')).length, 1);
        const found = [await each_of('#paper .rows td:nth-child(2)', 'item.textContent'),
            await text_of('#paper h2'), await each_of('#paper h3', 'item.textContent'),
            await each_of('#paper th.right', 'item.textContent')];
        await printing('after');
        return found;
    };
    const until_rows = (count) => waited('the texts', async () => (await shown())[0].length === count);
    await until_rows(rows + 1);
    const [texts, title, blocks, right] = await shown(), all = await sheets();
    assert.deepEqual([texts, title, right], [['', ...names], 'Symbols 1,501, .symtab (1,501)', ['#', 'Value', 'Size']]);
    assert.ok(blocks.includes('What it is') && all > rows / 100 && all < rows / 20, `${all} sheets`);
    // (what is said of the table is printed, too)
    const packed = elf_file({ sections: [{ name: '.relr.dyn', type: 19, bytes: longs(0x1000) }] });
    await take([pick_written, 'relr', packed, 'relocations'], [until_rows, 1], [printing, 'before'],
        [has_texts, { '#paper .notice': /outside of what is proved/ }], [printing, 'after'],
        [pick, join(folder, 'printed')], [open_tab, 'symbols'], [search, 'name_14', '111 of 1,501'], [until_rows, 111],
        [is, async () => (await shown())[1], /111 of 1,501, with “name_14”$/], [go, 'header', 'ELF header']);
    assert.ok(await sheets() < 3 && await text_of('#paper') === null);
});

check_program('Whatever is pressed is at least 24 pixels high', async () => {
    for (const size of [[1280, 900], [800, 900], [400, 800], [800, 400]]) {
        await resize(...size);
        for (const [place, title = 'ELF header'] of [['header/e_type', 'e_type'], ['summary'],
            ['section=.text', '.text'], ['sections'], [main_place, 'main'], [symtab], ['offset/0x10', 'offset 0x10'],
            ['sizes']]) {
            await go(place, title);
            const heights = (await each_of('button, .button, select, input:not(.unseen)', `item.offsetParent !== null
                && [item.textContent || item.id, item.getBoundingClientRect().height]`)).filter(Boolean);
            assert.deepEqual(heights.filter(([, high]) => high < 24), [], `${place}, ${size}`);
            assert.ok(heights.length > 4, `${place}, ${size}: ${heights.length} buttons`);
        }
    }
});

check_program('In low and narrow windows the first result and the first bytes are in view', async () => {
    const is_seen = (place) => `(({ top, bottom }) => top >= 0 && bottom <= innerHeight)(
        document.querySelector('${place}').getBoundingClientRect())`;
    const number = symbols.filter(({ name }) => name.includes('main')).length, to_text = [go, 'section=.text', '.text'];
    for (const size of [[1280, 560], [800, 360], [640, 450], [400, 800]]) {
        const is_so = (expression) => is(() => evaluate(expression), true, `${size}`);
        await take([resize, ...size], [go, symtab, 'ELF header'], [click, '#back'],
            [search, 'main', `${number} of ${decimal(symbols.length)}`], [is_so, is_seen('#panel .body .row')],
            to_text, [until, bytes_drawn], [is_so, is_seen('#chosen .hex .row')],
            [is_so, `${one('#chosen .fields')}.clientWidth > 200`],
            // (a list that is opened anew begins with its first row)
            [open_tab, 'sections'], to_text, [set_place, 'summary'], [until_there, '#panel .summary'],
            [open_tab, 'sections'], [is, async () => (await cells(0))[0], '0', `${size}`]);
    }
    // (on a small laptop several lines of bytes are, beside the fields)
    for (const size of [[1366, 640], [1024, 640], [1280, 720]]) {
        await take([resize, ...size], to_text, [until, bytes_drawn]);
        const seen = await each_of('#chosen .hex .row', `item.getBoundingClientRect().bottom
            <= item.closest('.grid').getBoundingClientRect().bottom`);
        assert.ok(seen.filter(Boolean).length >= 8, `${size}: ${seen}`);
    }
    // (on a small phone, and where all is magnified four times, one can scroll to some of them)
    const until_reached = (list) => until(`(() => {
        let box = ${one(list)}, is_there = box?.clientHeight > 60;
        while ((box = box?.parentElement)) is_there &&= getComputedStyle(box).overflowY !== 'hidden'
            || box.scrollHeight <= box.clientHeight + 1;
        return is_there;
    })()`);
    for (const size of [[360, 640], [320, 256]])
        await take([resize, ...size], [go, symtab, 'ELF header'], [until_reached, '#panel .grid'], to_text,
            [until_reached, '#chosen .hex .grid']);
});

// In windows of four widths.
check_program('At most a third is the map, no word is broken, and only the list has a scroll bar', async () => {
    for (const [width, height] of [[1280, 900], [800, 900], [640, 450], [400, 800]]) {
        await take([resize, width, height], [until,
            `innerWidth === ${width} && document.querySelector('section.map').offsetHeight <= innerHeight / 3`],
        [click, '#tab-header'], [until_there, '[data-field=ei_data]'], [click, '#back']);
        const words = await evaluate(`[...document.querySelectorAll('.fields.header span, .fields.header .words')]
            .flatMap((cell) => [...cell.textContent.matchAll(/\\S+/g)].map(({ 0: word, index }) => {
                const range = new Range();
                range.setStart(cell.firstChild, index);
                range.setEnd(cell.firstChild, index + word.length);
                return [word, range.getClientRects().length];
            }))`);
        assert.deepEqual(words.filter(([, lines]) => lines > 1), [], `${width}`);
        assert.ok(words.filter(([, lines]) => lines === 1).length > 40, `${width}: ${words.join(' ')}`);
        for (const [name, widest] of [['sections', 'Name'], ['relocations', 'Symbol'], ['symbols', 'Name']]) {
            await open_tab(name);
            const heads = await each_of('#panel [role=columnheader]', '[item.offsetWidth, item.textContent]');
            assert.equal(heads.sort(([a], [b]) => b - a)[0][1], widest, `${name}, ${width}`);
        }
        const bars = await evaluate(`[
            ...document.querySelectorAll('html, body, main, #shown, .columns, .lists, #panel, .grid')]
            .filter((box) => box.offsetParent !== null || box.matches('html, body'))
            .filter((box) => box.scrollHeight > box.clientHeight + 1
                && !['visible', 'hidden'].includes(getComputedStyle(box).overflowY))
            .map((box) => box.className || box.tagName)`);
        assert.ok(bars.length <= 1 && bars.every((name) => name === 'grid'), `${width}: ${bars}`);
        assert.ok(await evaluate(`document.documentElement.scrollWidth <= innerWidth`), `${width}`);
        // The side is beside the list, or replaces it until the user goes back.
        const { 1: title } = await cells(1);
        await take([click_row, 1], [until_chosen, title], [is, () => is_visible('#chosen'), true],
            [is, () => is_visible('#panel'), width > 1000], [click, '#back']);
        // (with the arrow keys one walks through the list, which has the focus, too, once one is back there)
        if (width <= 1000) await until_active('#panel .grid');
        await press('#panel .grid', 'ArrowDown');
        await take([until_chosen, (await cells(1))[2]], [is, () => is_visible('#panel'), true],
            [evaluate, 'history.back()'], [until, `document.getElementById('panel').offsetParent !== null`]);
    }
});

// A file of 65,300 sections, whose number is the size of section 0, and one whose other parts are large.
check('What is narrower than a pixel is drawn as a pixel', async () => {
    const bytes = Buffer.alloc(8), count = 65300,
        content = elf_file({ sections: Array(count).fill({ name: '', type: 1, flags: 2, bytes }) });
    const first = header_at(content, 0);
    await pick_written('many', patched(content, [0x3c, 0, 2], [0x3e, 0xffff, 2], [first + 0x20, count + 2],
        [first + 0x28, count + 1, 4]));
    const [[largest, name], second] = await facts('', 'Largest sections');
    assert.deepEqual([largest.startsWith('65,311 bytes, '), name, ...second.slice(0, 2)],
        [true, '.shstrtab', '8 bytes, 0.0 %', 'section 1']);
    await take([go, 'header/e_shnum', 'e_shnum', { value: '0, sh_size of section 0 has it' }],
        [go, 'header/e_shstrndx', 'e_shstrndx', { value: '65535, sh_link of section 0 has it, .shstrtab' }],
        [click, '#tab-sections']);
    const wanted = await bar_of(content.length) * count * 8 / await each_row(), many = await pixels_of('constants', 12);
    assert.ok(wanted > 500 && Math.abs(many - wanted) < 5, `${many} pixels, not ${wanted}`);
    const noted = { name: '.note', type: 7, bytes: note('GNU', 3, bytes) },
        debug = elf_file({ sections: [data('.debug_info', Buffer.alloc(1 << 20)), noted] });
    await take([pick_written, 'large', elf_file({ sections: [code(Buffer.alloc(1 << 22))] })],
        [is, () => pixels_of('header', 12), 1], [is, async () => await pixels_of('code', 12) > 500, true],
        [pick_written, 'debug', debug], [is, shares, { 'debug information': 100 }], [has_texts,
            { '#legend': /each below 0.05 %: ELF header, header tables, symbols and names, notes, padding/ }]);
});

// The bytes of a row of the map, the map's place, the width of a row's bar, and a wait for the line above the map.
const each_row = async () =>
    Number(/each row has ([\d,]+) bytes/.exec(await text_of('#readout'))[1].replaceAll(',', ''));
const canvas_box = () => evaluate(`document.getElementById('canvas').getBoundingClientRect().toJSON()`);
const bar_of = async (size) => (await canvas_box()).width - 42 - 7 * hex(size).length;
const readout = (pattern) => until(`${pattern}.test(document.getElementById('readout').textContent)`);

// Returns the map, and functions that return the bytes of a colour, and of one of the page's by its name.
const PIXELS = `(() => {
    const canvas = document.getElementById('canvas'), pen = canvas.getContext('2d');
    const probe = (colour) => {
        const one = new OffscreenCanvas(1, 1).getContext('2d');
        one.fillStyle = colour;
        one.fillRect(0, 0, 1, 1);
        return [...one.getImageData(0, 0, 1, 1).data].slice(0, 3);
    };
    const style = (name) => probe(getComputedStyle(document.documentElement).getPropertyValue('--' + name));
    return { pen, canvas, probe, style };
})()`;

// Returns of a row of pixels which have the colour of a kind.
const row_of = (kind, y) => evaluate(`(() => {
    const { pen, canvas, style } = ${PIXELS}, wanted = style('${kind}').join(),
        { data } = pen.getImageData(0, ${y}, canvas.width, 1);
    return Array.from({ length: canvas.width }, (_, i) => data.slice(4 * i, 4 * i + 3).join() === wanted);
})()`);

// Returns how many pixels have the colour of a kind, in a line of each row.
async function pixels_of(kind, line) {
    const lines = Array.from({ length: Math.floor(((await canvas_box()).height - 12) / 24) },
        (_, row) => row_of(kind, line + 24 * row));
    return (await Promise.all(lines)).flat().filter((is_it) => is_it).length;
}

check_program('A segment is outlined in each of its rows on the map', async () => {
    const all = segments_of(program_file),
        index = all.findIndex(({ type, flags }) => type === 'LOAD' && flags === 'R E');
    const { offset: start, size } = all[index], rows = [];
    const each = await each_row(), high = (await canvas_box()).height - 28;
    await go(`segments/${index}`, `segment ${index}, LOAD`);
    for (let y = 7; y < high; y += 24)
        if ((await row_of('ink', y)).filter((is_it) => is_it).length > 20) rows.push((y - 7) / 24);
    const first = Math.floor(start / each), last = Math.floor((start + size - 1) / each);
    assert.ok(last > first);
    assert.deepEqual(rows, Array.from({ length: last - first + 1 }, (_, i) => first + i));
});

// Points at the map, whose line above says what is below the pointer. Returns the line, and the offset in it.
async function pointed(x, y) {
    await browser.point(5, 5);
    await readout(/^\d+ parts, drawn to scale/);
    await browser.point(x, y);
    await readout(/ · 0x[0-9a-f]+ to 0x.* at 0x[0-9a-f]+$/);
    const text = await text_of('#readout');
    return { text, byte: Number(text.split(' ').at(-1)) };
}

// Returns where the map of a whole file has some of its bytes.
async function spots_of(path, ...offsets) {
    const { left, top, width } = await canvas_box(), bar = await bar_of(readFileSync(path).length),
        each = await each_row();
    return offsets.map((at) =>
        [left + width - 7 - bar + bar * (at % each) / each, top + 15 + 24 * Math.floor(at / each)]);
}

// Zooming shows functions, which are links, then bytes.
check_program('The wheel zooms to what is below the pointer, dragging moves it, and keys do both', async () => {
    const [spot] = await spots_of(program_file, main_at), bar = await bar_of(program_bytes.length),
        whole = await each_row();
    const { left, top } = await canvas_box(), [x, y] = [left + 500, top + 40], { byte } = await pointed(x, y);
    const zoomed = (each) => readout(new RegExp(`each row has ${decimal(each)} bytes`));
    const is_near = async (at) => assert.ok(Math.abs((await pointed(at, y)).byte - byte) < whole / 400);
    await browser.wheel(x, y, -120);
    await take([zoomed, whole / 2], [is_near, x]);
    await browser.drag([x, y], [x + 90, y]);
    await take([is_near, x + 90], [press, '#canvas', 'PageDown']);
    assert.ok((await pointed(x, y)).byte > byte + whole / 2);
    await take([press, '#canvas', '0'], [zoomed, whole], [go, main_place, 'main']);
    let each = whole;
    for (; each > main.size; await zoomed(each)) { each /= 2; await press('#canvas', '+'); }
    // (the start of what is chosen stays where it was, and functions have other colours than their section)
    assert.match((await pointed(...spot)).text, /^main · \.text · code · /);
    assert.ok(await pixels_of('code', 12) < bar && await pixels_of('in-3', 24) > bar);
    await go('header', 'ELF header');
    await browser.drag(spot, spot);
    const [next] = functions.filter(({ size, value }) => size > 8 && value > main.value)
        .sort((a, b) => a.value - b.value);
    await take([until_chosen, 'main'], [press, '#canvas', 'ArrowRight'], [until_chosen, next.name]);
    for (; each > 16; await zoomed(each)) { each = Math.max(each / 2, 16); await press('#canvas', '+'); }
    await pointed(x, y); // (then the worker has sent the bytes, too)
    assert.ok(await pixels_of('in-3', 12) > bar && await pixels_of('code', 12) === 0);
    // (the last byte of a function is in it, and the next one is not)
    const bytes = Buffer.alloc(16, 1),
        file = symbols_file([{ text: 'a', info: 2, shndx: 3, size: 8 }], data('.text', bytes));
    const at = file.indexOf(bytes),
        [last, after] = await pick_written('function', file).then((path) => spots_of(path, at + 7, at + 8));
    assert.match((await pointed(...last)).text, new RegExp(`^a · \\.text · .* at ${hex(at + 7)}$`));
    assert.match((await pointed(...after)).text, new RegExp(`^\\.text · .* at ${hex(at + 8)}$`));
});

check('The strip below a row says what the bytes are like', async () => {
    const size = 8192, code = program_bytes.subarray(text.offset, text.offset + size);
    const numbers = Buffer.from(Uint32Array.from({ length: size / 4 }, (_, i) => i).buffer),
        words = Buffer.alloc(size, 'What is below a row? ');
    const all = [Buffer.alloc(size), words, numbers, code, randomBytes(size)]
        .map((bytes) => ({ name: '.bytes', type: 1, bytes }));
    const path = await pick_written('classes', elf_file({ sections: all })),
        bar = await bar_of(readFileSync(path).length);
    const { left, top } = await canvas_box(), each = await each_row();
    await pointed(left + 500, top + 20);
    for (const i of all.keys()) {
        const bytes = await pixels_of(`in-${i}`, 24) * each / bar;
        assert.ok(Math.abs(bytes - size) < 0.12 * size, `class ${i}: ${bytes}`);
    }
});

// A click on a function leads to its symbol.
check_program('An area is as large as the share of its section in the file, and leads to it', async () => {
    const [largest] = functions, whole = program_bytes.length;
    const section = (name) => ({ name, ...sections[name], place: `sections/${sections[name].index}` });
    for (const { name, size, place } of [...['.text', '.rodata', '.symtab'].map(section),
        { ...largest, place: `${symtab}/${largest.index}` }]) {
        await open_sizes();
        const areas = await each_of('.areas a', `({ hash: item.hash, title: item.ariaLabel,
            is_inside: item.className === 'inside',
            area: parseFloat(item.style.width) * parseFloat(item.style.height) / 100 })`);
        const { area, hash, is_inside } =
            areas.find(({ title }) => title.startsWith(`${name}: ${decimal(size)} bytes, `));
        // (what is inside another area has what its title and edges leave)
        const part = area / (100 * size / whole);
        assert.ok(is_inside ? part > 0.5 && part < 1 : Math.abs(area - 100 * size / whole) < 0.1, `${name}: ${area} %`);
        assert.deepEqual([hash, is_inside], [`#${place}`, name === largest.name]);
        assert.ok(Math.abs(areas.reduce((all, item) => all + (item.is_inside ? 0 : item.area), 0) - 100) < 0.1);
        await click(`.areas [href='${hash}']`);
        await until_chosen(name);
    }
    // (names are cut after whole lines; a box without a name is named by the keyboard and below the pointer)
    await open_sizes();
    const lines = await each_of('.areas span', 'item.clientHeight / 14');
    assert.ok(lines.length > 20 && lines.every(Number.isInteger), lines.join(' '));
    // (on paper they are on one sheet)
    assert.equal(await evaluate(`getComputedStyle(${one('.areas')}).breakInside`), 'avoid');
    const [steps, place, x, y] = await evaluate(`(() => {
        const boxes = [...document.querySelectorAll('.areas a')], at = boxes.findIndex((box) => box.textContent === ''
            && box.hash.startsWith('#${symtab}/') && box.clientWidth > 5 && box.clientHeight > 5);
        const { left, top, width, height } = boxes[at].getBoundingClientRect();
        return [at, boxes[at].hash, left + width / 2, top + height / 2];
    })()`);
    const { name, size } = symbols[place.split('/')[2]], words = `${name}: ${decimal(size)} byte`;
    const tip = `${one('.tip')}.offsetParent ? ${one('.tip')}.textContent : ''`;
    const is_said = `(${tip}).startsWith(${quoted(words)})`;
    await browser.point(x, y);
    await until(is_said);
    await browser.point(5, 5);
    await until(`(${tip}) === ''`);
    await press('.areas a', ...Array(steps).fill('ArrowRight'));
    await until(is_said);
});

const linear = (colour) =>
    colour.map((part) => (part <= 10.31475 ? part / 255 / 12.92 : ((part / 255 + 0.055) / 1.055) ** 2.4));
const product = (matrix, vector) => matrix.map((row) => row.reduce((all, value, i) => all + value * vector[i], 0));

// Returns the contrast of two colours: how many times as light the lighter one is, as the WCAG count it.
function contrast(...colours) {
    const [more, less] = colours.map((colour) => product([[0.2126, 0.7152, 0.0722]], linear(colour))[0] + 0.05)
        .sort((a, b) => b - a);
    return more / less;
}

// Returns a colour as an eye without green sees it, by Machado, Oliveira and Fernandes, in OKLab.
const without_green = (colour) => [
    [[0.367322, 0.860646, -0.227968], [0.280085, 0.672501, 0.047413], [-0.01182, 0.04294, 0.968881]],
    [[0.4122215, 0.5363325, 0.0514460], [0.2119035, 0.6806995, 0.1073970], [0.0883025, 0.2817188, 0.6299787]],
    [[0.2104543, 0.7936178, -0.0040720], [1.9779985, -2.4285922, 0.4505937], [0.0259040, 0.7827718, -0.8086758]],
].reduce((seen, matrix, i) => product(matrix, i === 2 ? seen.map(Math.cbrt) : seen), linear(colour));

// An eye without green sees that kinds differ. (The test can set the theme of Chromium alone.)
check('Edges and gaps have a contrast of at least 3 to 1, and names on the map and the sizes of 4.5', async () => {
    const edges = ['#goto', '.bar .button', '#out', '#canvas', '#legend i', '#panel input', '#panel .saving button'];
    const kinds = ['header', 'tables', 'code', 'data', 'constants', 'names', 'relocations', 'notes', 'debug', 'other'];
    for (const theme of browser.theme ? ['dark', 'light'] : ['light']) {
        await browser.theme?.(theme);
        await until(`matchMedia('(prefers-color-scheme: ${theme})').matches`);
        await pick(program_file);
        assert.ok(await pixels_of('gap', 14) > 100);
        await open_tab('sections');
        const [edge, ground, kind] = await evaluate(`(() => {
            const { probe, style } = ${PIXELS},
                edge = (selector) => {
                    const { borderTopWidth, borderTopColor } = getComputedStyle(document.querySelector(selector));
                    return parseFloat(borderTopWidth) > 0 && probe(borderTopColor);
                };
            return [[...${quoted(edges)}.map(edge), style('gap')], ['paper', 'raised'].map(style),
                ${quoted(kinds)}.map(style)];
        })()`);
        await open_sizes();
        const text = await evaluate(`(() => {
            const { probe } = ${PIXELS}, area = ${one('.areas a')};
            return ${quoted(kinds)}.map((kind) => {
                area.style.setProperty('--tint', 'var(--' + kind + ')');
                return probe(getComputedStyle(area).color);
            });
        })()`);
        const differs = (a, b, name, least = 3) =>
            assert.ok(a && contrast(a, b) >= least, `${name}: ${a && contrast(a, b)}`);
        edge.forEach((colour, i) => ground.forEach((other) => differs(colour, other, edges[i])));
        kind.forEach((colour, i) => differs(colour, text[i], kinds[i], 4.5));
        for (const [a, b] of [[2, 5], [3, 6]])
            assert.ok(contrast(kind[a], kind[b]) >= 1.4, `${kinds[a]} and ${kinds[b]}`);
        const seen = kind.map(without_green),
            apart = (i, j) => Math.hypot(...seen[i].map((value, k) => value - seen[j][k]));
        kinds.forEach((name, i) => kinds.slice(0, i)
            .forEach((other, j) => assert.ok(apart(i, j) >= 0.07, `${name} and ${other}: ${apart(i, j)}`)));
    }
});

// Returns the made file with other bytes instead of a name.
function renamed(content, name, bytes) {
    const at = content.indexOf(`\0${name}\0`) + 1;
    assert.ok(at > 0 && bytes.length === Buffer.byteLength(name), name);
    return Buffer.concat([content.subarray(0, at), bytes, content.subarray(at + bytes.length)]);
}

check('No name is markup', async () => {
    const markup = '<img src onerror=a>', others = { weak_undefined_data: markup, zeros: '\x80\u2028',
        weak_function: '<img src=abc>', data: [0xff, 0x41, 0x1b, 0x0a] };
    const named = Object.entries(others)
        .reduce((all, [name, other]) => renamed(all, name, Buffer.from(other)), content);
    await pick_written('<img src=a>', named, 'symbols');
    const names = await cells(1);
    for (const name of [markup, 'U+0080U+2028', '\\xffAU+001BU+000A', 'été'])
        assert.ok(names.includes(name), names.join(' '));
    assert.equal((await each_of('#panel .esc', 'item.title')).length, 5);
    await take([search, 'ONERROR', '1 of 21'], [is, () => cells(1), [markup]], [go_by_field, 'onerror', markup],
        [open_sizes, '[aria-label^="<img"]'], [has_texts, { img: null }]);
});

check('A name from right to left turns no number around that stands after it', async () => {
    const left_of = (sign) => evaluate(`(() => {
        const texts = document.createTreeWalker(${one('#chosen td a')}, NodeFilter.SHOW_TEXT), range = new Range();
        while (!texts.nextNode().data.includes(${quoted(sign)}));
        range.selectNodeContents(texts.currentNode);
        range.setStart(texts.currentNode, texts.currentNode.data.indexOf(${quoted(sign)}));
        return range.getClientRects()[0].left;
    })()`);
    const name = '\u05d0\u05d1 \u05d2', file = elf_file({ sections: [code(Buffer.alloc(64), { name })] }),
        place = hex(Number(file.readBigUInt64LE(header_at(file, 1) + 0x18)) + 16);
    await take([pick_written, 'leftward', file], [go, `offset/${place}`, `offset ${place}`, { in: `${name} + 0x10` }]);
    assert.ok(await left_of('0x10') > await left_of('\u05d0'));
    // (nor in a tooltip)
    await pick_written('cut', patched(file, [header_at(file, 1) + 0x20, 1n << 40n]), 'layout');
    const titles = await each_of('#panel .body .cell', 'item.title');
    assert.ok(titles.some((title) => title.startsWith(`\u2068${name}\u2069 (cut: `)), titles.join());
});

check('The keyboard reaches the described parts of the map, a row of a list, and the next tab', async () => {
    const active = `document.activeElement.getAttribute('aria-activedescendant')`;
    await take([pick, made], [open_tab, 'sections'], [press, '#canvas', 'ArrowRight'],
        [until_there, '#canvas[aria-valuetext^="ELF header: "]'],
        [press, '#panel .grid', 'ArrowDown', 'ArrowDown', 'ArrowDown', 'ArrowUp'], [until_chosen, '.text'],
        [is, () => evaluate(`document.getElementById(${active}).children[1].textContent`), '.text'],
        [press, '#panel .grid', 'ArrowRight'], [until, `document.getElementById(${active}).textContent === '.text'`],
        [click, '#tab-header'], [until_there, '#canvas[aria-valuetext="nothing is chosen"][aria-valuenow="0"]'],
        [click, '[popovertarget]'], [until_there, 'body:has(#keys:popover-open) .fields.header[role=grid]'],
        [evaluate, `${one('#keys')}.hidePopover()`], [open_tab, 'sections'],
        [press, '#tab-sections', 'ArrowRight'], [until_active, '#tab-segments[aria-selected=true]']);
    // (with Alt keys are the browser's, which goes back)
    const pressed = `new KeyboardEvent('keydown', { key: 'ArrowLeft', altKey: true, bubbles: true, cancelable: true })`;
    for (const place of ['#panel .grid', '[role=tab]', '#canvas'])
        await is(() => evaluate(`${one(place)}.dispatchEvent(${pressed})`), true, place);
    // (what replaces a link that has the focus gets it)
    await take([go, 'sections/1', '.text'],
        [evaluate, `(() => { const link = ${one('#chosen td a')}; link.focus(); link.click(); })()`],
        [until_active, '#chosen h2']);
});

check('If the engine lacks what the library needs, the page says so, and reads no file', async () => {
    const shows = async (part, wanted) => is(() => is_hidden(part), !wanted, part);
    for (const hidden of ['WebAssembly.validate = () => false;', 'delete globalThis.WebAssembly;']) {
        const show = await browser.before_pages(hidden);
        await browser.open(`${url}?${hidden.length}`);
        await take([until_there, '#unsupported:not([hidden])'],
            [has_texts, { '#unsupported': /no 64-bit WebAssembly memories/ }], [shows, 'drop', false]);
        await show();
    }
    await browser.open(url);
    await take([shows, 'unsupported', false], [shows, 'drop', true]);
});

check('A page has memories for as many files at once as goblin.js says', async () => {
    const comments = readFileSync(new URL('../web/goblin.js', import.meta.url), 'utf8');
    const [, number] = /can hold at least (\d+) files at once/.exec(comments);
    await evaluate(`void (globalThis.held = Array.from({ length: ${number} }, () => new WebAssembly.Instance(
        new WebAssembly.Module(new Uint8Array([0, 97, 115, 109, 1, 0, 0, 0, 5, 3, 1, 4, 0])))))`);
    await browser.open(url); // (which lets go of them)
});

// Tests that the test sees the requests of an empty page. Else it would miss the page's.
async function check_hearing() {
    const asked = 'http://127.0.0.1:4999/heard';
    await evaluate(`fetch(${quoted(asked)}, { mode: 'no-cors' }).catch(() => null).then(() => null)`);
    assert.ok(browser.requests.includes(asked), browser.requests.join(' '));
    browser.requests.length = browser.refusals.length = 0;
}

check('The page asks for nothing, and no script fails', async () => {
    const blocked = await evaluate(`new Promise((resolve) => {
        document.addEventListener('securitypolicyviolation', ({ blockedURI }) => resolve(blockedURI));
        fetch('http://127.0.0.1:9/asked').catch(() => setTimeout(() => resolve('not refused by the policy'), 500));
    })`);
    assert.match(blocked, /^http:\/\/127\.0\.0\.1:9\//);
    await waited('a refusal', () => browser.refusals.length > 0);
    const is_asked = (text) => text.includes('http://127.0.0.1:9/asked') && /Content.Security.Policy/.test(text);
    assert.ok(browser.refusals.every(is_asked), browser.refusals.join('\n'));
    const others = browser.requests.filter((request) => request.split(/[?#]/)[0] !== url
        && !/^(blob:|data:|about:blank$)/.test(request));
    assert.deepEqual([others, browser.faults], [[], []]);
});

async function run_checks() {
    await check_hearing();
    if (!await evaluate(`WebAssembly.validate(new Uint8Array([0, 97, 115, 109, 1, 0, 0, 0, 5, 3, 1, 4, 0]))`)) {
        console.log(`${browser.constructor.title} has no 64-bit memories, so the page is not tested in it`);
        return;
    }
    await browser.open(url);
    await until(`document.getElementById('unmade')?.hidden`);
    for (current of checks) {
        await resize(1400, 1600);
        await current.run();
    }
    console.log(`${browser.constructor.title}: the page passes ${checks.length} checks over ${stored_files.length}`
        + ' files, and over those that they write, and asks for nothing');
}

let current = { title: 'The test sees requests' };
try {
    await browser.start(program);
    await run_checks();
} catch (error) {
    console.log(`${browser.constructor.title}: ${current.title}`);
    throw error;
} finally {
    await browser.end();
    // (processes of the browser may still end, and write before they do)
    await waited('an empty folder', () => {
        try { rmSync(folder, { recursive: true, force: true }); return true; } catch { return false; }
    });
}
