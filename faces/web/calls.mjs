// Tests the calls of goblin.js against its comments: calls.mjs FOLDER FILE..
// The files are read whole, cut and damaged. The call that makes a list must throw, or each way to iterate over it
// must have all items. The constants must be the library's, and the package and the declarations must be complete.
import assert from 'node:assert/strict';
import { spawnSync } from 'node:child_process';
import { existsSync, mkdtempSync, readdirSync, readFileSync, rmSync, writeFileSync } from 'node:fs';
import { tmpdir } from 'node:os';
import { join, resolve } from 'node:path';
import { pathToFileURL } from 'node:url';
import { inspect } from 'node:util';
import { runInNewContext } from 'node:vm';
import { data, dynamic_file, elf_file, longs, note, noted_file, packed, patched, symbol, times } from './elves.mjs';
import { import_goblin } from './tested.mjs';

const [, , web, ...paths] = process.argv;
const goblin = await import_goblin(web);
const { Elf, GoblinError, Kind } = goblin;
const stored = new URL('../../', import.meta.url), files = paths.map((path) => readFileSync(path));
const own = files.at(-1); // (a program for this machine, with relocations and both symbol tables)
// Two notes, and a file that has them in a section and in a segment.
const NOTES = [['GNU', 3, 'abcd'], ['goblin', 0x1234, 'hello']];
const note_bytes = Buffer.concat(NOTES.map(([name, type, desc]) => note(name, type, Buffer.from(desc))));
const noted =
    elf_file({ sections: [{ name: '.note', type: 7, bytes: note_bytes }], segments: [{ type: 4, bytes: note_bytes }] });
files.push(noted);

const END = (1n << 64n) - 1n, WITHOUT_EXPORTS = Uint8Array.of(0, 0x61, 0x73, 0x6d, 1, 0, 0, 0);

// Adds a check, which may return what it counts.
const checks = [], check = (title, run) => checks.push({ title, run });

// Returns what reading returns or throws. And what an error is expected to be.
const error_of = (read) => { try { return read(); } catch (error) { return error; } };
const is_refusal = (kind, offset) => (error) => error instanceof GoblinError
    && (kind === undefined || error.kind === kind) && (offset === undefined || error.offset === offset);
const type_error = (expected) => ({ name: 'TypeError', message: new RegExp(`^${expected} `) });
// Asserts that each of some calls throws what is expected.
const throw_all = (wanted, ...calls) => calls.flat().forEach((call) => assert.throws(call, wanted));

// Returns the sum of what a function counts in each file, and asserts that this is much.
function sum_over(contents, least, count) {
    const sum = contents.reduce((all, content) => all + count(Elf.parse(content), content), 0);
    assert.ok(sum >= least, `${sum}`);
    return sum;
}

check('Without 64-bit memories an error says which engines have them', async () => {
    throw_all(/not ready/, () => Elf.parse(own), () => goblin.et_to_str(1));
    // (in some browsers a person can turn WebAssembly off)
    const { WebAssembly } = globalThis,
        words = ['memory64', '--experimental-wasm-memory64', 'Chromium 133', 'Firefox 134', 'Node.js 24'];
    for (globalThis.WebAssembly of [{ validate: () => false }, undefined])
        await assert.rejects(goblin.default(), ({ message }) => words.every((word) => message.includes(word)));
    globalThis.WebAssembly = WebAssembly;
});

// Returns a module in which an export has another name. (Such names, after their lengths, come before all others.)
function without(module, name) {
    const copy = Buffer.from(module), at = copy.indexOf(Buffer.from([name.length, ...Buffer.from(name)]));
    assert.ok(at > 0, name);
    copy[at + 1] = 0x78;
    return copy;
}

check('A module of another interface or without an export is refused, and replaces none', async () => {
    const module = readFileSync(join(web, 'goblin_c.wasm')), { VERSION } = goblin,
        exported = WebAssembly.Module.exports(new WebAssembly.Module(module));
    // (a function that returns a number, with the name goblin_version)
    const version = (number) => Uint8Array.of(...WITHOUT_EXPORTS, 1, 5, 1, 0x60, 0, 1, 0x7f, 3, 2, 1, 0, 7,
        18, 1, 14, ...Buffer.from('goblin_version'), 0, 0, 10, 6, 1, 4, 0, 0x41, number, 0x0b);
    for (const [source, words] of [...exported.map(({ name }) =>
        [without(module, name), name === 'goblin_version' ? 'none' : `no ${name}:`]), [WITHOUT_EXPORTS, 'none'],
    [version(VERSION + 1), `for interface ${VERSION}, but the module has ${VERSION + 1}:`],
    [version(VERSION), 'no memory, __heap_base, goblin_layout,']]) {
        await assert.rejects(goblin.default(source), ({ message }) => message.includes(words));
        assert.throws(() => Elf.parse(own), /not ready/);
    }
    await goblin.default(new WebAssembly.Module(module));
    await assert.rejects(goblin.default(WITHOUT_EXPORTS));
    // (as of a bundler that gives the address as a text)
    for (const source of ['/goblin_c.wasm', null, 5])
        await assert.rejects(goblin.default(source), type_error('a module, its bytes or its URL is expected, not'));
    assert.equal(Elf.parse(own).section_headers().length, own.readUInt16LE(60));
    await goblin.default();
    return `${exported.length} exports`;
});

check('A file may be in bytes of each kind, and nothing else', () => {
    const length = own.length + 8 - own.length % 8, whole = new ArrayBuffer(length + 16),
        shared = new SharedArrayBuffer(length), within = new Uint8Array(whole, 16, length);
    within.set(own);
    new Uint8Array(shared).set(own);
    const buffer = within.slice().buffer, other = runInNewContext('new ArrayBuffer(length)', { length });
    new Uint8Array(other).set(within);
    const given = {
        ArrayBuffer: buffer, SharedArrayBuffer: shared, 'one of another realm': other,
        DataView: new DataView(whole, 16, length), Uint8Array: new Uint8Array(buffer),
        'of shared ones': new Uint8Array(shared), 'a part': within, Buffer: Buffer.from(within),
        'a part of a Buffer': Buffer.from(whole).subarray(16), Int8Array: new Int8Array(buffer),
        Uint8ClampedArray: new Uint8ClampedArray(buffer), Uint16Array: new Uint16Array(whole, 16),
        Uint32Array: new Uint32Array(buffer), Float64Array: new Float64Array(whole, 16),
        BigInt64Array: new BigInt64Array(buffer),
    };
    const names = (elf) => elf.section_headers().map((section) => elf.section_name(section)), wanted = Elf.parse(own);
    assert.ok(names(wanted).includes('.text'));
    for (const [what, bytes] of Object.entries(given)) {
        const elf = Elf.parse(bytes);
        assert.deepEqual([elf.header, names(elf)], [wanted.header, names(wanted)], what);
    }
    structuredClone(buffer, { transfer: [buffer] });
    const wrong = [undefined, null, 'ELF', 5, 5n, true, [...own.subarray(0, 64)], {}, { length: 64 }, new Map(),
        new Blob([own]), Promise.resolve(own), () => own, Symbol('ELF'), { [Symbol.toStringTag]: 'ArrayBuffer' },
        buffer, given.Uint8Array];
    throw_all(TypeError, wrong.map((bytes) => () => Elf.parse(bytes)));
    throw_all(/ArrayBuffer.* string/, () => Elf.parse('ELF'));
    throw_all({ name: 'TypeError', message: /by Elf\.parse/ }, () => new Elf(own));
    throw_all(is_refusal(Kind.TOO_SMALL), () => Elf.parse(new ArrayBuffer(0)));
    // A file that is read part by part is not copied. If the memory grows, its bytes are in another array.
    const parts = goblin.array_for(own.length);
    for (let at = 0; at < own.length; at += 1000) parts.set(own.subarray(at, at + 1000), at);
    const elf = Elf.parse(parts);
    assert.deepEqual([names(elf), elf.bytes.buffer === parts.buffer, own.equals(elf.bytes)],
        [names(wanted), true, true]);
    assert.equal(elf.section_by_name('x'.repeat(1 << 20)), undefined);
    assert.deepEqual([parts.length, own.equals(elf.bytes), own.equals(wanted.bytes), names(Elf.parse(parts))],
        [0, true, true, names(wanted)]);
    // (a header of HTTP has a size as a text)
    throw_all(type_error('a number is expected, not'),
        ['5', null, [5], true].map((size) => () => goblin.array_for(size)));
    return `${Object.keys(given).length} kinds of bytes`;
});

// Returns the items that a function returns for the indices of a list, or for all up to the first without an item.
const of_each = ({ length }, by_index) => times(length, by_index);
function each(by_index) {
    const items = [];
    for (let item; (item = by_index(items.length)) !== undefined;) items.push(item);
    return items;
}
// Returns the items that a function is given with their indices.
function placed(give) {
    const items = [];
    give((item, index) => { items[index] = item; });
    return items;
}

// Ways to iterate over a list: each returns the items.
const WAYS = {
    spread: (list) => [...list],
    destructuring: (list) => { const [...items] = list; return items; },
    'destructuring but the first': (list) => {
        const [first, ...items] = list;
        return list.length ? [first, ...items] : items;
    },
    'for-of': (list) => { const items = []; for (const item of list) items.push(item); return items; },
    'Array.from': (list) => Array.from(list),
    'Array.from, mapped': (list) => Array.from(list, (item) => item),
    'as arguments': (list) => ((...items) => items)(...list),
    Set: (list) => [...new Set(list)],
    'next by next': (list) => {
        const items = list[Symbol.iterator](), item_of = ({ done, value }) => (done ? undefined : value);
        return each(() => item_of(items.next()));
    },
    'a generator over it': (list) => [...(function* go() { yield* list; }())],
    map: (list) => list.map((item) => item),
    'map by indices': (list) => list.map((_, index) => list.at(index)),
    forEach: (list) => placed((put) => list.forEach(put)),
    filter: (list) => list.filter(() => true),
    'filter by indices': (list) => of_each(list, (wanted) => list.filter((_, index) => index === wanted)).flat(),
    find: (list) => of_each(list, (wanted) => list.find((_, index) => index === wanted)),
    some: (list) => of_each(list, (wanted) => {
        let found;
        return list.some((item, index) => { found = item; return index === wanted; }) && found;
    }),
    reduce: (list) => list.reduce((items, item, index) => { items[index] = item; return items; }, []),
    'reduce without a start': (list) => (list.length ? [list.reduce((first) => first), ...[...list].slice(1)] : []),
    slice: (list) => [...list.slice(0, 1), ...list.slice(1)],
    'an index in brackets': (list) => of_each(list, (index) => list[index]),
    entries: (list) => [...list.entries()].map(([, item]) => item),
    'entries by indices': (list) => placed((put) => { for (const [index, item] of list.entries()) put(item, index); }),
    'at and length': (list) => of_each(list, (index) => list.at(index)),
    'at from the end': (list) => of_each(list, (index) => list.at(index - list.length)),
    'at until there is none': (list) => each((index) => list.at(index)),
};
const WAYS_OF_LISTS = {
    get: (list) => of_each(list, (index) => list.get(index)),
    'get until there is none': (list) => each((index) => list.get(BigInt(index))),
    from: (list) => [...list.from(0, 1), ...list.from(1, 2), ...list.from(3)],
    toJSON: (list) => list.toJSON(),
};

// Asserts that each way returns these items.
function has_each(list, items, what) {
    const ways = Object.entries(list instanceof goblin.List ? { ...WAYS, ...WAYS_OF_LISTS } : WAYS);
    for (const [name, way] of ways) assert.deepEqual(way(list), items, `${what}, by ${name}`);
    assert.equal(list.length, items.length, what);
    for (const index of [0, 1, -1, items.length, -items.length - 1, 1.9, -0.5, NaN, Infinity, -Infinity, undefined,
        '1'])
        assert.deepEqual(list.at(index), items.at(index), `${what}, at ${index}`);
    for (const [start, end] of [[], [1], [-1], [0, -1], [1, 2], [2, 1], [-3, -1], [0.5, 1.5], [-Infinity, Infinity],
        [NaN, 1]])
        assert.deepEqual(list.slice(start, end), items.slice(start, end), `${what}, from ${start} to ${end}`);
    for (const name of [items.length, -1, 1.5, '01']) assert.equal(list[name], undefined);
    if (list instanceof goblin.List) assert.throws(() => { list[0] = items[0]; }, TypeError);
    if (items.length === 0) assert.throws(() => list.reduce(() => 0), TypeError);
    assert.deepEqual([list.some(() => false), list.find(() => false)], [false, undefined]);
    assert.equal(JSON.stringify(list), JSON.stringify(items), what);
}

// Returns the lists of a file: a title, the call that makes it, how many of the first bytes it needs, and the items.
function lists_of(whole) {
    const { e_phoff, e_phnum, e_shoff, e_shnum } = whole.header,
        [of_segment, of_section] = whole.is_64() ? [56n, 64n] : [32n, 40n];
    const segments = each((i) => whole.program_header(i)), sections = each((i) => whole.section_header(i));
    assert.deepEqual([segments.length, sections.length], [e_phnum, e_shnum]);
    const of_segments = e_phnum ? e_phoff + of_segment * BigInt(e_phnum) : 0n,
        of_sections = e_shoff + of_section * BigInt(e_shnum);
    const end = ({ sh_offset, sh_size }) => sh_offset + sh_size,
        latest = (...ends) => ends.reduce((a, b) => (a > b ? a : b), 0n);
    const made = [], add = (...list) => made.push(list);
    add('program headers', (elf) => elf.program_headers(), of_segments, segments);
    add('section headers', (elf) => elf.section_headers(), of_sections, sections);
    for (const segment of segments) add('sections of a segment', (elf) => elf.segment_sections(segment), of_sections,
        sections.slice(1).filter((section) => goblin.segment_holds(segment, section)));
    const of_type = (...types) => sections.filter(({ sh_type }) => types.includes(sh_type)),
        items_of = (list) => each((i) => list.get(i));
    for (const section of of_type(goblin.SHT_SYMTAB, goblin.SHT_DYNSYM)) {
        const items = items_of(whole.symtab(section)), needed = latest(of_sections, end(section));
        const first = section.sh_type === goblin.SHT_SYMTAB ? 'syms' : 'dynsyms';
        add('symbols', (elf) => elf.symtab(section), needed, items);
        add(first, (elf) => elf[first](), needed, items);
    }
    const of_relocs = of_type(goblin.SHT_REL, goblin.SHT_RELA),
        relocs = of_relocs.map((of) => [sections.indexOf(of), items_of(whole.relocs(of))]);
    of_relocs.forEach((of, i) => add('relocations', (elf) => elf.relocs(of), end(of), relocs[i][1]));
    add('sections of relocations', (elf) => elf.shdr_relocs().map(([index, list]) => [index, [...list]]),
        latest(of_sections, ...of_relocs.map(end)), relocs);
    // (the padding of the last descriptor isn't needed)
    const end_of_notes = (notes) => latest(...notes.map(({ desc_range: { offset, size } }) => offset + size));
    const plain = (items) => JSON.parse(JSON.stringify(items)),
        as_bytes = (notes) => plain(notes).map(({ name_bytes, ...others }) => ({ ...others, name: name_bytes }));
    for (const [all_of, headers, holders] of [['iter_note_sections', of_sections, of_type(goblin.SHT_NOTE)],
        ['iter_note_headers', of_segments, segments.filter(({ p_type }) => p_type === goblin.PT_NOTE)]]) {
        const each_one = holders.map((holder) => [holder, whole.notes(holder)]),
            all = holders.flatMap((holder) => whole.notes_bytes(holder));
        for (const [holder, notes] of each_one) add('notes', (elf) => elf.notes(holder), end_of_notes(notes), notes);
        add(all_of, (elf) => as_bytes(elf[all_of]()), latest(headers, end_of_notes(all)), plain(all));
    }
    return made;
}

check('The call that makes a list of a cut file throws, or the list has all items', () => {
    let refused = 0, made = 0;
    for (const content of files) {
        const lists = lists_of(Elf.parse(content)), step = Math.ceil(content.length / 2000),
            ends = new Set([...lists.flatMap(([, , needed]) => [-1, 0, 1].map((more) => Number(needed) + more)),
                content.length, ...times(2000, (i) => 64 + i * step)]);
        for (const end of [...ends].filter((end) => end >= 64 && end <= content.length)) {
            const elf = Elf.parse(content.subarray(0, end));
            for (const [what, make, needed, items] of lists) {
                if (end < Number(needed)) {
                    assert.throws(() => make(elf), is_refusal(), `${what} of the first ${end} bytes`);
                    refused++;
                    continue;
                }
                const list = make(elf), is_near = end - Number(needed) < 2 || end === content.length;
                if (is_near && items.length < 200) has_each(list, items, what);
                else assert.deepEqual([...list].length, items.length);
                made++;
            }
        }
    }
    assert.ok(refused > 10000 && made > 10000, `${refused} lists are refused, and ${made} are made`);
    return `${made} lists that have each item, ${refused} that are refused where they are made`;
});

check('The headers that are inside a file are all that `whole` has', () => {
    const cut = sum_over(files, 100, (elf, content) => {
        const { e_shoff, e_phoff } = elf.header, [of_segment, of_section] = elf.is_64() ? [56, 64] : [32, 40];
        let cut = 0;
        assert.deepEqual(elf.whole().header, elf.header);
        for (const [name, start, size] of [['section_header', Number(e_shoff), of_section],
            ['program_header', Number(e_phoff), of_segment]]) {
            const all = [...elf[`${name}s`]()];
            const ends = all.slice(0, 40).flatMap((_, index) => [-1, 0, 1].map((more) => start + index * size + more));
            for (const end of [...ends, start + all.length * size, content.length]
                .filter((end) => end >= 64 && end <= content.length)) {
                const part = Elf.parse(content.subarray(0, end)), whole = part.whole(), list = whole[`${name}s`]();
                const inside = Math.min(all.length, Math.max(0, Math.floor((end - start) / size)));
                has_each(list, all.slice(0, inside), `whole ${name}s of the first ${end} bytes`);
                assert.deepEqual([list.get(inside), whole[name](inside), whole.whole().header],
                    [undefined, undefined, whole.header]);
                const found = error_of(() => part[`${name}s`]());
                assert.ok(inside < all.length ? is_refusal()(found) : found.length === inside);
                cut += Number(inside < all.length);
            }
        }
        return cut;
    });
    // the first section header has the number of headers, and is not inside the file
    const { e_shoff } = Elf.parse(own).header,
        whole = Elf.parse(patched(own, [60, 0, 2]).subarray(0, Number(e_shoff) + 63)).whole();
    assert.deepEqual([whole.section_headers().length, whole.header.e_shoff, whole.section('.text')],
        [0, 0n, undefined]);
    return `${cut} lists that are cut`;
});

check('If e_phnum is 0xffff, the first section has the number of segments', () => {
    const bytes = new Uint8Array(own), elf = Elf.parse(bytes), segments = [...elf.program_headers()],
        first = elf.section_header(0), writer = elf.writer(bytes);
    writer.put_section_header(0, { ...first, sh_info: 70000 });
    writer.put_header({ ...elf.header, e_phnum: 0xffff });
    throw_all(({ kind, numbers }) => kind === Kind.BUFFER_TOO_SHORT && numbers[0] === 70000n,
        () => Elf.parse(bytes).program_headers());
    writer.put_section_header(0, { ...first, sh_info: segments.length - 1 });
    assert.deepEqual([...Elf.parse(bytes).program_headers()], segments.slice(0, -1));
    const cut = Elf.parse(bytes.subarray(0, Number(elf.header.e_shoff)));
    throw_all(is_refusal(Kind.BAD_OFFSET, elf.header.e_shoff), () => cut.program_headers());
    const room = Math.floor((Number(elf.header.e_shoff) - 64) / 56);
    assert.deepEqual([cut.whole().program_headers().length, cut.whole().header.e_phnum], [room, room]);
    // a core of 70,000 segments
    const core = new Uint8Array(128 + 56 * 70000);
    core.set(elf_file({ type: 4 }));
    const { header } = Elf.parse(core), of_core = Elf.parse(core).writer(core);
    of_core.put_header({ ...header, e_phnum: 0xffff, e_phoff: 128n, e_shoff: 64n, e_shnum: 1 });
    of_core.put_number(64 + 44, 4, 70000);
    const list = Elf.parse(core).program_headers();
    assert.deepEqual([list.length, list.get(69999)?.p_type, list.get(70000)], [70000, 0, undefined]);
});

// (test.mjs compares what is written with what C writes.)
check('What is refused of a writer says why, also past the end of a list, and changes no bytes', () => {
    const { BAD_OFFSET, DATA, INTEGER_FIT, INVALID_CLASS, NO_ITEM, NUMBER_WIDTH, SECTION_TYPE } = Kind;
    const written = sum_over(files.slice(0, -1), 50, (elf, content) => {
        const bytes = new Uint8Array(content), writer = elf.writer(bytes), { header } = elf;
        const section_of = (type) => elf.section_by_type(type).section, text = elf.section('.text');
        const table = section_of(goblin.SHT_SYMTAB), rela = section_of(goblin.SHT_RELA);
        const symbol = elf.symtab(table).get(0), section = elf.section_header(1), reloc = elf.relocs(rela).get(1),
            wide = { ...reloc, r_sym: 1n << 40n }, rel = { ...rela, sh_type: goblin.SHT_REL }, [low] = elf.relocs(rel);
        const [of_section, of_rela, of_info, of_symbol, of_index] =
            elf.is_64() ? [64n, 24n, 8n, 24n, 6n] : [40n, 12n, 4n, 16n, 14n];
        const puts = { header: (item) => writer.put_header(item),
            section: (item, index = 1) => writer.put_section_header(index, item),
            segment: (item, index) => writer.put_program_header(index, item),
            symbol: (item, index = 0) => writer.put_symbol(table, index, item),
            reloc: (item, index = 1) => writer.put_reloc(rela, index, item),
            rel: (item) => writer.put_reloc(rel, 0, item) };
        let written = 0;
        for (const [name, list_of, start, change] of [
            ['section', (read) => read.section_headers(), header.e_shoff, { sh_info: 0x55, sh_addr: 0x99n }],
            ['segment', (read) => read.program_headers(), header.e_phoff, { p_flags: 0x55 }],
            ['symbol', (read) => read.symtab(table), table.sh_offset, { st_size: 7n, st_other: 2 }],
            ['reloc', (read) => read.relocs(rela), rela.sh_offset, { r_addend: -3n, r_type: 4 }],
        ]) {
            const items = [...list_of(elf)], { length } = items, put = puts[name];
            for (const [index, item] of items.entries()) {
                assert.equal(put({ ...item, ...change }, index), undefined);
                assert.deepEqual({ ...list_of(Elf.parse(bytes)).get(index) }, { ...item, ...change });
                put(item, index);
            }
            const error = error_of(() => put(items[0] ?? Elf.parse(noted).program_header(0), length));
            assert.deepEqual([error.kind, error.numbers[0], error.offset, error.message],
                [NO_ITEM, BigInt(length), start, `There is no item ${length} to write`]);
            written += length;
        }
        assert.deepEqual([writer.put_header(header), writer.put_number(16, 2, header.e_type),
            writer.put_number_in(text, 2, 2, elf.number_in(text, 2, 2))], [undefined, undefined, undefined]);
        const in_rela = rela.sh_offset + of_rela, in_symbol = table.sh_offset + of_symbol;
        for (const [put, kind, offset] of [[() => writer.put_symbol({ ...table, sh_type: 1 }, 0, symbol), SECTION_TYPE],
            [() => writer.put_reloc({ ...rela, sh_type: 1 }, 1, reloc), SECTION_TYPE],
            [() => puts.reloc({ ...reloc, r_addend: undefined }), INTEGER_FIT, in_rela + 2n * of_info],
            [() => puts.rel({ ...low, r_addend: 0n }), INTEGER_FIT, rel.sh_offset + 2n * of_info],
            [() => puts.rel({ ...low, r_addend: -3n }), INTEGER_FIT, rel.sh_offset + 2n * of_info],
            [() => puts.symbol({ ...symbol, st_name: 0x100000003n }, 1), INTEGER_FIT, in_symbol],
            [() => puts.symbol({ ...symbol, st_shndx: 0x10003n }, 1), INTEGER_FIT, in_symbol + of_index],
            [() => puts.reloc(wide), INTEGER_FIT, in_rela + of_info],
            [() => puts.section({ ...section, sh_name: 1n << 32n }), INTEGER_FIT, header.e_shoff + of_section],
            [() => puts.section({ ...section, sh_name: 1n << 32n }, header.e_shnum), NO_ITEM],
            [() => puts.symbol({ ...symbol, st_shndx: 0x10003n }, elf.symtab(table).length), NO_ITEM],
            [() => puts.reloc({ ...reloc, r_addend: undefined }, elf.relocs(rela).length), NO_ITEM],
            [() => puts.header({ ...header, ei_class: 3 }), INVALID_CLASS, 0n],
            [() => puts.header({ ...header, ei_data: 0 }), DATA, 0n],
            [() => writer.put_number(3, 1, 256), INTEGER_FIT, 3n],
            [() => writer.put_number_in(text, 3, 1, 256), INTEGER_FIT, text.sh_offset + 3n],
            [() => writer.put_number_in(text, text.sh_size, 1, 0), BAD_OFFSET, text.sh_offset + text.sh_size],
            [() => writer.put_number(content.length, 1, 0), BAD_OFFSET],
            [() => writer.put_number(5, 3, 0), NUMBER_WIDTH, 5n],
            [() => writer.put_number_in(text, 5, 16, 0), NUMBER_WIDTH, text.sh_offset + 5n],
        ]) assert.throws(put, is_refusal(kind, offset));
        assert.equal(error_of(() => puts.reloc(wide)).numbers[0], 1n << 40n);
        for (const r_addend of [0n, -3n]) {
            const { item, numbers } = error_of(() => puts.rel({ ...low, r_addend }));
            assert.deepEqual([item, numbers[0]], [goblin.Item.ADDEND, BigInt.asUintN(64, r_addend)]);
        }
        // (nor is a number cut that fits no field)
        for (const [name, item, field, ...wrong] of [['header', header, 'e_phnum', 70000, -1, 1.5, NaN],
            ['section', section, 'sh_type', 2 ** 32 + 1, -1], ['section', section, 'sh_size', -1n, 1n << 64n],
            ['symbol', symbol, 'st_info', 256], ['symbol', symbol, 'st_shndx', -1n, 1n << 64n],
            ['reloc', reloc, 'r_addend', 1n << 63n]])
            throw_all(RangeError, wrong.map((number) => () => puts[name]({ ...item, [field]: number })));
        throw_all(RangeError, () => elf.strtab({ ...text, sh_type: 3, sh_offset: 1n << 64n }).get(0));
        throw_all(TypeError, [undefined, content.buffer, [...content], new DataView(content.buffer)]
            .map((wrong) => () => elf.writer(wrong)));
        assert.doesNotThrow(() => elf.writer(runInNewContext('new Uint8Array(64)')));
        assert.deepEqual(bytes, new Uint8Array(content));
        // (a number in a section is written where it is read)
        writer.put_number_in(text, 2, 2, 0x1234);
        const changed = bytes.filter((byte, at) => byte !== content[at]).length;
        assert.deepEqual([Elf.parse(bytes).number_in(text, 2, 2), changed < 3], [0x1234n, true]);
        return written;
    });
    return `${written} records that are written`;
});

check('A section links to the one at sh_link, unless that is 0, past the end or without bytes', () => {
    let linked = 0;
    for (const content of files) {
        const elf = Elf.parse(content), sections = [...elf.section_headers()];
        for (const section of sections) {
            const found = elf.linked_section(section), wanted = section.sh_link ? sections[section.sh_link] : undefined;
            assert.deepEqual(found, wanted?.sh_type === goblin.SHT_NOBITS ? undefined : wanted);
            if (found) linked++;
        }
        const without_bytes = sections.findIndex(({ sh_type }) => sh_type === goblin.SHT_NOBITS);
        for (const sh_link of [0, sections.length, Math.max(without_bytes, 0)])
            assert.equal(elf.linked_section({ ...sections[0], sh_link }), undefined);
        assert.equal(elf.strtab(elf.linked_section(sections[0])).get(0), undefined);
    }
    assert.ok(linked > files.length, `${linked} sections`);
    return `${linked} linked sections`;
});

check('A section past the end is refused, with each list that includes it, and others are not', () => {
    const calls = { 2: ['symtab', 'syms'], 11: ['symtab', 'dynsyms'], 4: ['relocs', 'shdr_relocs'],
        9: ['relocs', 'shdr_relocs'], 7: ['notes', 'iter_note_sections'] };
    const moved = sum_over(files, 10, (whole, content) => {
        const lists = [...whole.section_headers().entries()].filter(([, { sh_type }]) => calls[sh_type]);
        for (const [index, section] of lists) {
            const copy = new Uint8Array(content), [of_one, of_all] = calls[section.sh_type];
            whole.writer(copy).put_section_header(index, { ...section, sh_offset: BigInt(content.length - 1) });
            const elf = Elf.parse(copy);
            throw_all(is_refusal(), () => elf[of_one](elf.section_header(index)), () => elf[of_all]());
            for (const [at, other] of lists) assert.ok(at === index || elf[calls[other.sh_type][0]](other).length > 0);
        }
        return lists.length;
    });
    return `${moved} sections that pass the end`;
});

check('Sections of other types hold no symbols or relocations', () => {
    const found = sum_over(files, 1, (elf) => {
        const sections = elf.section_headers();
        for (const section of sections) {
            const { sh_type } = section,
                of = `A section of type 0x${sh_type.toString(16)} (${goblin.sht_to_str(sh_type)}) holds no `;
            for (const [call, types, expected] of [['symtab', [2, 11], 'symbols'], ['relocs', [4, 9], 'relocations']])
                if (!types.includes(sh_type)) throw_all(({ kind, numbers, message }) => kind === Kind.SECTION_TYPE
                    && numbers[0] === BigInt(sh_type) && message === of + expected, () => elf[call](section));
        }
        return sections.length;
    });
    return `${found} sections by their types`;
});

// Returns the name, the type and the descriptor of each note, whose name is a text or bytes.
const texts_of = (notes) =>
    notes.map(({ name, n_type, desc }) => [Buffer.from(name).toString(), n_type, Buffer.from(desc).toString()]);

check('Notes are those of a section and a segment, up to one that is refused', () => {
    const elf = Elf.parse(noted);
    for (const [holder, of_all] of [[elf.section('.note'), 'iter_note_sections'],
        [elf.program_header(0), 'iter_note_headers']]) {
        const notes = elf.notes(holder);
        assert.deepEqual([texts_of(notes), texts_of(elf[of_all]())], [NOTES, NOTES]);
        assert.deepEqual(notes.map((item) => goblin.note_type_to_str(item)), ['NT_GNU_BUILD_ID', 'NT_UNKNOWN']);
        assert.deepEqual([elf.readable_notes(holder), elf.readable_notes(holder, 1)],
            [{ notes, refusal: undefined }, { notes: notes.slice(0, 1), refusal: undefined }]);
        notes.forEach(({ name_range }, before) => {
            // (0xff is not UTF-8)
            const damaged = Elf.parse(patched(noted, [Number(name_range.offset), 0xff, 1])),
                found = damaged.readable_notes(holder);
            assert.deepEqual([texts_of(found.notes), found.refusal.kind], [NOTES.slice(0, before), Kind.BAD_INPUT]);
            throw_all(is_refusal(Kind.BAD_INPUT), () => damaged.notes(holder));
            assert.equal(damaged[of_all]()[before].name, undefined);
        });
    }
    assert.equal(goblin.note_type_to_str({ name: 'GNU', n_type: 99 }), 'NT_UNKNOWN');
    return `${2 * NOTES.length} notes`;
});

check('Notes as bytes have whole names, need not be UTF-8, and must be inside their range', () => {
    const elf = Elf.parse(noted), section = elf.section('.note'), segment = elf.program_header(0),
        start = Number(section.sh_offset);
    const wanted = NOTES.map(([name, n_type, desc]) => [`${name}\0`, n_type, desc]);
    assert.deepEqual([texts_of(elf.notes_bytes(section)), texts_of(elf.notes_bytes(segment))], [wanted, wanted]);
    const not_utf8 = Elf.parse(patched(noted, [start + 32, 0xff, 1])).notes_bytes(section);
    assert.deepEqual(not_utf8.map(({ name }) => name[0]), [0x47, 0xff]);
    // the range ends in the first note's header, name and descriptor, and then in those of the second
    const { NOTE_HEADER, NOTE_NAME, NOTE_DESC } = goblin.Item;
    for (const [size, before, item] of [[11, 0, NOTE_HEADER], [15, 0, NOTE_NAME], [19, 0, NOTE_DESC],
        [31, 1, NOTE_HEADER], [38, 1, NOTE_NAME], [44, 1, NOTE_DESC]]) {
        const refused = (error) => is_refusal(Kind.TOO_BIG, BigInt(start + 20 * before))(error) && error.item === item;
        for (const cut of [{ ...section, sh_size: BigInt(size) },
            { ...segment, p_offset: BigInt(start), p_filesz: BigInt(size) }]) {
            const { notes, refusal } = elf.readable_notes_bytes(cut);
            assert.deepEqual([texts_of(notes), refused(refusal)], [wanted.slice(0, before), true]);
            throw_all(refused, () => elf.notes_bytes(cut));
        }
    }
    assert.equal(elf.readable_notes_bytes(section, 1).notes.length, 1);
    // (names whose last byte is not zero, and one without bytes)
    for (const name of ['AB', 'x', '', '\0']) {
        const bytes = Buffer.concat([packed([name.length, 4], [0, 4], [1, 4]), Buffer.from(name.padEnd(4, 'p'))])
            .subarray(0, name ? 16 : 12);
        const [found] = Elf.parse(elf_file({ sections: [{ name: '.note', type: 7, bytes }] })).iter_note_sections();
        assert.deepEqual([String.fromCharCode(...found.name_bytes), found.name_range.size],
            [name, BigInt(name.length)]);
    }
    throw_all(({ kind, item }) => kind === Kind.NOTE_ALIGN && item === 0,
        () => elf.notes_bytes({ ...section, sh_addralign: 16n }));
});

check('All notes have names of any bytes, and a build ID may be in a section alone', () => {
    // (as annobin and a program in Go have them: readelf -n names the owners GA*FORTIFY:0xff, \xff, Go and GNU)
    const any = [note('GA*FORTIFY\0\xff', 0x100, Buffer.from('at')), note('\xff', 3, Buffer.alloc(0))],
        go = note('Go\0', 4, Buffer.from('of Go')), id = note('GNU', 3, Buffer.from('of ld')),
        sections = [['.gnu.build.attributes', Buffer.concat(any)], ['.note.go.buildid', go], ['.note', id]]
            .map(([name, bytes]) => ({ name, type: 7, bytes }));
    const content = elf_file({ sections, segments: [{ type: 4, bytes: go }] }), elf = Elf.parse(content);
    const words = (notes) => notes.map((item) => [item.name, Buffer.from(item.name_bytes).toString('latin1'),
        item.n_type, Buffer.from(item.desc).toString(), goblin.note_type_to_str(item)]);
    const of_go = ['Go', 'Go\0\0', 4, 'of Go', 'NT_GNU_GOLD_VERSION'];
    assert.deepEqual([words(elf.iter_note_headers()), words(elf.iter_note_sections())], [[of_go], [
        [undefined, 'GA*FORTIFY\0\xff\0', 0x100, 'at', 'NT_UNKNOWN'],
        [undefined, '\xff\0', 3, '', 'NT_GNU_BUILD_ID'], of_go, ['GNU', 'GNU\0', 3, 'of ld', 'NT_GNU_BUILD_ID']]]);
    const build_id = (of) => Buffer.from(Elf.parse(of).build_id() ?? []).toString();
    assert.deepEqual([content, noted, elf_file({ sections: sections.slice(0, 2) })].map(build_id),
        ['of ld', 'abcd', '']);
    // (a name or descriptor past the end of its section is damage, whatever the name)
    const { sh_offset } = elf.section('.gnu.build.attributes'), size_at = Number(sh_offset) + any[0].length;
    for (const [at, kind] of [[size_at, Kind.TOO_BIG], [size_at + 4, Kind.BAD_OFFSET]]) {
        const damaged = Elf.parse(patched(content, [at, 64, 4]));
        throw_all(is_refusal(kind, BigInt(size_at)), () => damaged.iter_note_sections(), () => damaged.build_id());
    }
    // the first 65,536 notes are read
    const before = note('ABC', 1, Buffer.alloc(0));
    assert.deepEqual([65535, 65536].map((count) => build_id(noted_file([...times(count, () => before), id]))),
        ['of ld', '']);
});

check('Node.js prints the items of a list, as those of an array, and the fields of notes', () => {
    const elf = Elf.parse(noted), [holder] = elf.program_headers();
    for (const notes of [elf.notes(holder), elf.notes_bytes(holder), elf.iter_note_headers()])
        assert.equal(inspect(notes), inspect(notes.map((item) => Object.fromEntries(Object.entries(item)))));
    assert.match(inspect(elf.notes(holder)), /name: 'goblin',/);
    for (const [name, list] of [['List', Elf.parse(own).section_headers()], ['Symtab', Elf.parse(own).syms()]]) {
        const of_array = inspect([...list]);
        assert.ok(list.length > 10 && of_array.includes(' more items') === list.length > 100);
        for (const options of [{}, ...[0, 3, null].map((maxArrayLength) => ({ maxArrayLength }))])
            assert.equal(inspect(list, options), `${name}(${list.length}) ${inspect([...list], options)}`);
        assert.equal(inspect({ of: [[list]] }), `{ of: [ [ [${name}] ] ] }`);
        assert.match(inspect(Object.create(list)), new RegExp(`^${name} {}`));
    }
    assert.equal(inspect(Elf.parse(elf_file({})).program_headers()), 'List(0) []');
});

// Returns an item as JSON has it, by the type of each of its fields.
const as_json = (item) => Object.fromEntries(Object.entries(item).filter(([, value]) => value !== undefined)
    .map(([name, value]) => [name, typeof value === 'bigint' ? value.toString()
        : value instanceof Uint8Array ? Buffer.from(value).toString('hex')
            : typeof value === 'object' ? as_json(value) : value]));

// Returns one item of each type, by the name of its type.
function some_items() {
    const elf = Elf.parse(own), sections = elf.section_headers(), [[, relocs]] = elf.shdr_relocs(),
        of_notes = Elf.parse(noted), holder = of_notes.program_header(0);
    return {
        Header: elf.header, SectionHeader: sections.at(1), ProgramHeader: elf.program_headers().at(0),
        Sym: elf.syms().at(-1), Reloc: relocs.at(0), AnyNote: of_notes.iter_note_headers()[0],
        Note: of_notes.notes(holder)[0], NoteBytes: of_notes.notes_bytes(holder)[0],
        Range: elf.range(sections.at(1)), Dyn: elf.dynamic_section()[0],
    };
}

check('Items are plain objects, and JSON has all their numbers', () => {
    const items = Object.values(some_items());
    for (const item of items) {
        assert.equal(Object.getPrototypeOf(item), Object.prototype);
        assert.deepEqual([item, structuredClone(item)], [Object.fromEntries(Object.entries(item)), item]);
        const texts = [JSON.stringify(item), JSON.stringify({ more: 1n, ...item }, goblin.json)];
        assert.deepEqual(texts.map((text) => JSON.parse(text)), [as_json(item), { more: '1', ...as_json(item) }]);
    }
    // a field of 64 bits is exact for every value
    const elf = Elf.parse(own), at = Number(elf.header.e_shoff) + 64 + 16;
    const section = Elf.parse(patched(own, [at, END])).section_header(1);
    assert.deepEqual([section.sh_addr, BigInt(JSON.parse(JSON.stringify(section)).sh_addr)], [END, END]);
    assert.equal(JSON.parse(JSON.stringify(elf.section_header(0))).sh_addr, '0');
    const refused = error_of(() => Elf.parse(own.subarray(0, 20)));
    const { name, message, kind, numbers } = JSON.parse(JSON.stringify(refused));
    assert.deepEqual([name, message, kind, numbers],
        ['GoblinError', refused.message, Kind.TOO_BIG, ['64', '20', '0', '0']]);
    return `${items.length} items as JSON`;
});

check('Arguments of other types and ranges are refused', () => {
    const elf = Elf.parse(own), text = elf.section('.text'), segment = elf.program_header(0), symbols = elf.syms(),
        strtab = elf.shdr_strtab(), bytes = new Uint8Array(own), writer = elf.writer(bytes);
    for (const width of [0, 3, 5, 7, 9, 16, -1, 1.5, 4n, 8n, '4', '8', undefined, null, NaN, Symbol('8')]) {
        throw_all(RangeError, () => elf.number(0, width), () => elf.number(own.length, width),
            () => elf.number_in(text, 0, width), () => elf.number_in(segment, 0, width));
        const is_whole = Number.isInteger(width) && width >= 0, refused = ({ kind, numbers, message }) =>
            kind === Kind.NUMBER_WIDTH && numbers[0] === BigInt(width)
            && message === `A number has 1, 2, 4 or 8 bytes, and not ${width}`;
        throw_all(is_whole ? refused : RangeError, () => writer.put_number(0, width, 0),
            () => writer.put_number_in(text, 0, width, 0));
    }
    assert.deepEqual(bytes, new Uint8Array(own));
    for (const [width, word] of [[4n, 'bigint'], ['4', 'string'], [3, '3']])
        throw_all(new RegExp(` the Number 1, 2, 4 or 8, not ${word}$`), () => elf.number(0, width));
    // (at most two and a half items are at most two)
    const [of_notes] = Elf.parse(noted).program_headers();
    for (const [most, count] of [[0.5, 0], [1.5, 1], [2.5, 2]]) {
        const all = [symbols.from(1, most), elf.dynamic_section(most), strtab.get_start(1, most),
            Elf.parse(noted).readable_notes(of_notes, most).notes];
        assert.deepEqual(all.map((found) => [...found].length), [count, count, count, count]);
    }
    // (as of a section that is not there, or of its index)
    const expected = (what, word) => new TypeError(`${what} is expected, not ${word}`);
    for (const [wrong, word] of [[undefined, 'undefined'], [null, 'null'], [5, 'number'], [5n, 'bigint'],
        ['.text', 'string'], [NaN, 'number'], [{}, 'Object'], [elf.section_headers(), 'List']]) {
        throw_all(expected('a section header', word), ...['symtab', 'relocs', 'section_name', 'linked_section']
            .map((call) => () => elf[call](wrong)), () => writer.put_symbol(wrong, 0, {}),
        () => writer.put_reloc(wrong, 0, {}), () => goblin.segment_holds(segment, wrong));
        throw_all(expected('a section header or a program header', word), ...['range', 'section_data', 'segment_data',
            'readable_data', 'notes', 'notes_bytes'].map((call) => () => elf[call](wrong)),
        () => elf.number_in(wrong, 0, 1), () => writer.put_number_in(wrong, 0, 1, 0));
        throw_all(expected('a program header', word), () => elf.segment_sections(wrong));
        throw_all(expected('a symbol', word), () => symbols.name(wrong), () => symbols.name_bytes(wrong));
    }
    const [rela, symtab] = [goblin.SHT_RELA, goblin.SHT_SYMTAB].map((type) => elf.section_by_type(type).section);
    for (const [put, what] of [[(item) => writer.put_header(item), 'a header'],
        [(item) => writer.put_section_header(1, item), 'a section header'],
        [(item) => writer.put_program_header(0, item), 'a program header'],
        [(item) => writer.put_symbol(symtab, 0, item), 'a symbol'],
        [(item) => writer.put_reloc(rela, 0, item), 'a relocation']])
        for (const [wrong, word] of [[undefined, 'undefined'], [null, 'null'], [5, 'number'], ['.text', 'string']])
            throw_all(expected(what, word), () => put(wrong));
    for (const none of [undefined, null]) assert.equal(elf.strtab(none).get(0), undefined);
    for (const [put, what] of [[() => writer.put_section_header(1, { ...text, sh_size: 5 }), 'a bigint as sh_size'],
        [() => writer.put_section_header(1, { ...text, sh_link: 5n }), 'a number as sh_link'],
        [() => elf.range({ ...text, sh_addr: undefined }), 'a bigint as sh_addr'],
        [() => elf.number_in({ ...text, sh_size: '5' }, 0, 1), 'a bigint as size']])
        throw_all(type_error(`${what} is expected, not`), put);
    const no_text = type_error('a text is expected, not'),
        type_of = (name) => goblin.note_type_to_str({ name, n_type: 3 });
    for (const call of [(name) => elf.section(name), (name) => elf.section_by_name(name),
        (name) => symbols.symbol_by_name(name), type_of])
        throw_all(no_text, [undefined, null, 5, ['.text']].map((name) => () => call(name)));
    throw_all(no_text, () => type_of(Buffer.from('GNU')));
    throw_all(RangeError, () => elf.section_by_type(1n << 32n), () => goblin.machine_to_str(0x10000));
    assert.equal(elf.number(1, 1), 0x45n);
    throw_all(is_refusal(Kind.BAD_OFFSET), () => elf.number(own.length, 1));
    for (const get of [(at) => elf.section_header(at), (at) => elf.section_headers().get(at),
        (at) => elf.program_headers().get(at)]) {
        throw_all(RangeError, [-1, 1.5, NaN, 1n << 64n].map((wrong) => () => get(wrong)));
        throw_all(TypeError, [undefined, null, '1', '', true, {}].map((wrong) => () => get(wrong)));
    }
    assert.deepEqual([goblin.SHF_ALLOC, goblin.SHF_ALLOC | 1n << 32n].map(goblin.shf_to_str),
        ['SHF_ALLOC', 'SHF_UNKNOWN']);
    assert.deepEqual(text, elf.section_header(elf.section_by_name('.text').index));
    assert.deepEqual([elf.section_name(text), elf.section('.none')], ['.text', undefined]);
    const { st_value } = symbols.symbol_by_name('main').symbol;
    assert.equal(symbols.name(symbols.symbol_by_address(st_value).symbol), 'main');
});

// (The rules of these lines are those of checks/files/goblin.py.)
check('Fields and calls with goblin\'s names return what goblin returns of stored files', () => {
    const READ = {
        class: (elf) => (elf.is_64() ? 64 : 32), order: (elf) => (elf.little_endian() ? 'little' : 'big'),
        object: (elf) => Number(elf.header.e_type === goblin.ET_REL), entry: (elf) => elf.entry().toString(16),
        segments: (elf) => elf.program_headers().length, sections: (elf) => elf.section_headers().length,
        syms: (elf) => elf.syms()?.length ?? '-', dynsyms: (elf) => elf.dynsyms()?.length ?? '-',
        shdr: (elf) => elf.shdr_relocs().map(([index, { length }]) => `${index}:${length}`),
        lib: (elf) => Number(elf.is_lib()), interpreter: (elf) => elf.interpreter(), soname: (elf) => elf.soname(),
        libraries: (elf) => elf.libraries(), rpaths: (elf) => elf.rpaths(), runpaths: (elf) => elf.runpaths(),
    };
    const lines = readFileSync(new URL('checks/files/goblin', stored), 'utf8').trim().split('\n');
    const shown = (found) => (found instanceof GoblinError ? '!' : `${found ?? ''}`);
    for (const [path, ...fields] of lines.map((line) => line.split(' '))) {
        const elf = Elf.parse(readFileSync(new URL(`checks/files/${path}`, stored)));
        for (const [, name, wanted] of fields.map((field) => /^(\w+)=(.*)$/.exec(field)))
            if (READ[name]) assert.equal(shown(error_of(() => READ[name](elf))), wanted, `${path}: ${name}`);
    }
    assert.ok(lines.length > 40);
    return `${lines.length} stored files as goblin reads them`;
});

check('Readable data ends with the file', () => {
    const elf = Elf.parse(own), length = BigInt(own.length), text = elf.section('.text'), code = elf.program_header(0);
    for (const section of elf.section_headers())
        assert.deepEqual(elf.readable_data(section), elf.section_data(section));
    for (const segment of elf.program_headers())
        assert.deepEqual(elf.readable_data(segment), elf.segment_data(segment));
    for (const [offset, size, left] of [[length - 3n, 4n, 3], [length, 1n, 0], [length + 1n, 5n, 0], [END, 1n, 0]]) {
        const section = { ...text, sh_offset: offset, sh_size: size },
            segment = { ...code, p_offset: offset, p_filesz: size };
        const wanted = new Uint8Array(own.subarray(own.length - left));
        assert.throws(() => elf.section_data(section), is_refusal());
        assert.deepEqual([elf.readable_data(section), elf.readable_data(segment)], [wanted, wanted]);
        assert.equal(elf.readable_data({ ...section, sh_type: goblin.SHT_NOBITS }), undefined);
        assert.equal(elf.readable_data({ ...segment, p_filesz: 0n }), undefined);
    }
});

check('Numbers in a section or a segment are inside it', () => {
    const elf = Elf.parse(own), text = elf.section('.text'),
        code = elf.program_headers().find(({ p_offset }) => p_offset > 0n);
    const little = (at, size) => BigInt(own.readUIntLE(Number(at), size));
    assert.throws(() => elf.number_in({ ...text, sh_type: goblin.SHT_NOBITS }, 0, 1), is_refusal(Kind.BAD_OFFSET));
    for (const [holder, start, size] of [[text, text.sh_offset, text.sh_size], [code, code.p_offset, code.p_filesz]]) {
        assert.deepEqual([elf.number_in(holder, 3, 4), elf.number_in(holder, 2, 2)],
            [little(start + 3n, 4), little(start + 2n, 2)]);
        assert.throws(() => elf.number_in(holder, size, 1), is_refusal(Kind.BAD_OFFSET));
        assert.throws(() => elf.number_in(holder, size - 3n, 4), is_refusal(Kind.TOO_BIG));
    }
});

check('Addresses have offsets in the file', () => {
    const elf = Elf.parse(own), text = elf.section('.text');
    for (const { p_offset, p_vaddr, p_filesz } of elf.program_headers()
        .filter(({ p_type }) => p_type === goblin.PT_LOAD)) {
        for (const before of [0n, p_filesz - 1n])
            assert.equal(elf.address_to_offset(p_vaddr + before), p_offset + before);
    }
    assert.equal(elf.address_to_offset(elf.header.e_entry), elf.header.e_entry - text.sh_addr + text.sh_offset);
    assert.equal(elf.address_to_offset(END), undefined);
    assert.throws(() => Elf.parse(own.subarray(0, 64)).address_to_offset(0), is_refusal(Kind.BUFFER_TOO_SHORT));
});

check('A library is no position-independent program, and a header can\'t be changed', () => {
    const { DF_1_PIE, DT_FLAGS_1, DT_SYMTAB } = goblin, with_entries = (type, ...entries) =>
        Elf.parse(patched(dynamic_file(Buffer.alloc(8), entries, { type }), [24, END])); // (the address of its entry)
    for (const [is_lib, type, ...values] of [[false, 1], [false, 2], [true, 3], [false, 4], [false, 0x300],
        [true, 3, 1n], [false, 3, DF_1_PIE], [true, 3, DF_1_PIE, 1n], [false, 2, 1n]]) {
        const elf = with_entries(type, ...values.map((value) => [DT_FLAGS_1, value])), { header } = elf;
        assert.deepEqual([elf.is_lib(), elf.entry()], [is_lib, END]);
        // (the lists would still be those of the file's header)
        throw_all(TypeError, () => { elf.header = { ...header, e_type: 0 }; }, () => { header.e_type = 0; });
        assert.deepEqual([elf.header, elf.is_lib()], [header, is_lib]);
    }
    throw_all(is_refusal(Kind.BUFFER_TOO_SHORT), () => Elf.parse(own.subarray(0, 64)).is_lib());
    throw_all(({ kind, numbers, message }) => kind === Kind.NOT_COUNTED && numbers[0] === 0x1234n
        && message === 'No section has the number of symbols at 0x1234',
    () => with_entries(3, [DT_SYMTAB, 0x1234]).dynsyms());
});

check('Names of the dynamic section are texts, also those that end as another one does', () => {
    const { DT_NEEDED, DT_RPATH, DT_RUNPATH, DT_SONAME, DT_STRSZ, DT_STRTAB } = goblin,
        text = Buffer.from('\0liba\0léb\0');
    const read = (text, ...entries) =>
        Elf.parse(dynamic_file(text, [[DT_STRTAB, 0x400000], [DT_STRSZ, text.length], ...entries]));
    const elf = read(text, [DT_NEEDED, 6], [DT_RUNPATH, 9], [DT_NEEDED, 1], [DT_SONAME, 2], [DT_NEEDED, 3],
        [DT_NEEDED, 1], [DT_NEEDED, 9], [DT_RPATH, 6], [DT_SONAME, 1]);
    assert.deepEqual([elf.libraries(), elf.rpaths(), elf.runpaths(), elf.soname(), elf.interpreter()],
        [['léb', 'liba', 'ba', 'liba', 'b'], ['léb'], ['b'], 'liba', undefined]);
    // (5 is a name's zero byte, 8 is within a character, and 11 is past the end)
    assert.deepEqual([read(text, [DT_NEEDED, 5]).libraries(), read(text, [DT_SONAME, 0]).soname()], [[''], undefined]);
    throw_all(is_refusal(Kind.BAD_INPUT), () => read(text, [DT_NEEDED, 6], [DT_NEEDED, 8]).libraries());
    throw_all(({ kind, numbers, message }) => kind === Kind.NO_STRING && `${numbers}` === `${DT_NEEDED},11,0,0`
        && message === 'The value 0xb of tag 0x1 has no string', () => read(text, [DT_NEEDED, 11]).libraries());
    // (a hostile file has very many names that end as one of a megabyte does: here of some gigabytes in all)
    const long = Buffer.concat([Buffer.alloc((1 << 20) - 2, 'é'), Buffer.alloc(2)]),
        hostile = read(long, ...times(9999, (i) => [DT_NEEDED, 2 * i]));
    assert.ok(hostile.libraries().every((name, i) => name.length === (1 << 19) - 1 - i));
});

check('Sections and symbols are found by names, from an index on', () => {
    const content = elf_file({ sections: ['a', 'b', 'a', 'a'].map((name, index) => data(name, Buffer.from([index]))) });
    const elf = Elf.parse(content), found = (name, first) => elf.section_by_name(name, first)?.index;
    assert.deepEqual([0, 1, 2, 3, 4, 5, 99].map((first) => found('a', first)), [1, 1, 3, 3, 4, undefined, undefined]);
    assert.deepEqual([found('a'), found('b'), found('c'), found(''), elf.section('')], [1, 2, undefined, 0, undefined]);
    for (const index of [1, 3, 4])
        assert.deepEqual(elf.section_by_name('a', index), { index, section: elf.section_header(index) });
    assert.deepEqual(elf.section_by_type(1, 2), { index: 2, section: elf.section_header(2) });
    assert.deepEqual([elf.section_by_type(3)?.index, elf.section_by_type(3, 6)], [5, undefined]);
    const symbols = Elf.parse(own).syms();
    for (const name of ['main', '', 'no such name']) {
        const named = [...symbols.entries()].filter(([, symbol]) => symbols.name(symbol) === name), all = [];
        for (let at = symbols.symbol_by_name(name); at; at = symbols.symbol_by_name(name, at.index + 1))
            all.push([at.index, at.symbol]);
        assert.deepEqual([all, all.length > 0], [named, name !== 'no such name']);
    }
    // (a name need not be UTF-8)
    const name = Buffer.from('caf\xe9', 'latin1'), changed = Buffer.from(own),
        { index } = symbols.symbol_by_name('main');
    name.copy(changed, Number(symbols.strtab.range.offset + symbols.get(index).st_name));
    assert.deepEqual([name, 'main'].map((wanted) => Elf.parse(changed).syms().symbol_by_name(wanted)?.index),
        [index, undefined]);
    const named = patched(content, [Number(elf.shdr_strtab().range.offset + elf.section('b').sh_name), 0xe9, 1]);
    assert.equal(Elf.parse(named).section_by_name(name.subarray(3)).index, 2);
    throw_all(RangeError, () => symbols.symbol_by_name('main', -1), () => elf.section_by_name('a', -1));
    throw_all(is_refusal(Kind.TOO_BIG), () => Elf.parse(content.subarray(0, content.length - 1)).section_by_name('a'));
});

check('Strings are compared, closed by a zero byte, and found many at once', () => {
    const text = Buffer.from('\0main\0\xff\xfe\0end', 'latin1'), high = Uint8Array.of(0xff, 0xfe);
    const elf = Elf.parse(Buffer.concat([own, text])), sh_offset = BigInt(own.length);
    const table = (sh_size) => elf.strtab({ sh_type: 3, sh_offset, sh_size }), names = table(12n), past = table(13n);
    for (const [call, is_so, ...cases] of [['is_at', true, [1, 'main'], [2n, 'ain'], [9, 'end'], [6, high]],
        ['is_at', false, [6, high.subarray(0, 1)], [1, 'mai'], [1, 'main\0'], [0, 'm'], [12, ''], [END, '']],
        ['starts_at', true, [1, 'ma'], [0, ''], [6, high.subarray(0, 1)]],
        ['starts_at', false, [1, 'ain'], [9, 'ends'], [5, '\0'], [12, '']]])
        for (const [offset, name] of cases) assert.equal(names[call](offset, name), is_so, `${call} ${offset} ${name}`);
    assert.deepEqual([[1, Infinity], [1, 3], [12, 3], [1, 0], [12, 0]].map((given) => names.get_start(...given)),
        [names.get_bytes(1), new Uint8Array(Buffer.from('mai')), undefined, new Uint8Array(), undefined]);
    // (a name may be bytes of the file, which a call may move: here the memory ends two bytes after the file)
    const whole = Elf.parse(own), { sh_name } = whole.section('.text'), at = whole.shdr_strtab().range.offset,
        more = Buffer.alloc(65534 - (whole.bytes.byteOffset + own.length) % 65536);
    const near = Elf.parse(Buffer.concat([own, more]));
    assert.ok(near.shdr_strtab().is_at(sh_name, near.bytes.subarray(Number(at + sh_name)).subarray(0, 5)));
    assert.deepEqual([0, 1, 9, 12].map((offset) => names.get_closed_bytes(offset)?.length),
        [0, 4, undefined, undefined]);
    const { offset: start, size } = names.range, closed = names.closed();
    assert.deepEqual([{ ...closed.range }, closed.closed().range], [{ offset: start, size: size - 3n }, closed.range]);
    const offsets = times(200, (i) => (i % 10 < 9 ? i % 10 : 12));
    assert.deepEqual(names.get_all_bytes(offsets), offsets.map((offset) => names.get_bytes(offset)));
    const refused = error_of(() => names.get_all_bytes([0, 12, 10]));
    assert.deepEqual([refused.kind, refused.numbers[0], refused.offset, refused.message],
        [Kind.OPEN_STRING, 10n, sh_offset + 10n, 'No zero byte closes the string at offset 10 of its table']);
    assert.deepEqual([names.get_all_bytes(new Set([6n])), past.get_all_bytes([])], [[high], []]);
    throw_all(is_refusal(Kind.STRTAB_RANGE), ...['is_at', 'starts_at', 'get_closed_bytes'].map((call) =>
        () => past[call](0, 'a')), () => past.get_all_bytes([0]), () => past.closed());
    throw_all(RangeError, [-1, 2n ** 64n].map((wrong) => () => names.get_all_bytes([wrong])));
    throw_all(type_error('bytes must be'), [undefined, 5, ['m']].map((wrong) => () => names.is_at(1, wrong)));
});

// Its entries, of which several are read at a time, end before DT_NULL.
check('The dynamic section is that of a segment, or without program headers a section', () => {
    const { DT_NULL, DT_NEEDED, DT_STRTAB, DT_SONAME, DT_STRSZ } = goblin, text = Buffer.from('\0liba\0libb\0');
    const with_segment = (entries) => dynamic_file(text, entries);
    const pairs = (elf, most) => elf.dynamic_section(most).map(({ d_tag, d_val }) => [d_tag, d_val]);
    const end = [[DT_NULL, 0n], [DT_SONAME, 1n]];
    for (const count of [1, 63, 64, 65, 128, 200]) {
        const all = times(count, (i) => [DT_NEEDED, BigInt(i)]);
        for (const elf of [all, [...all, ...end]].map((entries) => Elf.parse(with_segment(entries))))
            for (const most of [undefined, 0, 1, 64, 100]) assert.deepEqual(pairs(elf, most), all.slice(0, most));
    }
    const entries = [[DT_NEEDED, 6n], [DT_NEEDED, 1n], [DT_STRTAB, 0x400000n], [DT_STRSZ, 11n]],
        bytes = longs(...entries, ...end);
    const sections = [{ name: '.dynamic', type: 6, link: 2, bytes }, { name: '.dynstr', type: 3, bytes: text }];
    const whole = with_segment([...entries, ...end]), of_section = elf_file({ sections });
    for (const elf of [whole, of_section].map(Elf.parse)) {
        assert.deepEqual(pairs(elf), entries);
        assert.deepEqual(elf.dynamic_section().slice(0, 2).map(({ d_val }) => elf.dynamic_strings().get(d_val)),
            ['libb', 'liba']);
        assert.deepEqual([1, DT_STRSZ, DT_SONAME, DT_NULL, END].map((tag) => elf.dynamic_value(tag)),
            [6n, 11n, undefined, undefined, undefined]);
        throw_all(RangeError, () => elf.dynamic_value(-1));
    }
    // (goblin goes by segments alone)
    assert.deepEqual([whole, of_section].map((content) => Elf.parse(content).libraries()), [['libb', 'liba'], []]);
    const without = [elf_file({ segments: [{ bytes: text }], sections }), with_segment([[DT_NULL, 0n]]), noted];
    for (const elf of without.map(Elf.parse))
        assert.deepEqual([elf.dynamic_section(), elf.dynamic_value(1)], [[], undefined]);
    for (const content of [...without, with_segment(entries.slice(0, 3)), with_segment(entries.slice(1, 2))])
        assert.equal(Elf.parse(content).dynamic_strings().range.size, 0n);
    const long = new Uint8Array(of_section);
    Elf.parse(long).writer(long).put_section_header(1, { ...Elf.parse(long).section_header(1), sh_size: 1n << 40n });
    throw_all(is_refusal(Kind.TOO_BIG), ...[whole.subarray(0, -1), long].map(Elf.parse).flatMap((elf) =>
        ['dynamic_section', 'dynamic_value', 'dynamic_strings'].map((call) => () => elf[call](1))),
    () => Elf.parse(with_segment([[DT_STRTAB, 0x400000n], [DT_STRSZ, 999n]])).dynamic_strings());
});

check('Errors begin, and their numbers count from, where the comments of `offset` and `numbers` say', () => {
    const why = (read) => (({ kind, numbers, offset }) => [kind, ...numbers.slice(0, 2), offset])(error_of(read));
    const { TOO_BIG, BAD_OFFSET, NOTE_ALIGN } = Kind, whole = Elf.parse(own), list = whole.header.e_shoff,
        header_5 = list + 5n * 64n, text = whole.section('.text'), past = text.sh_size + 5n;
    for (const [length, ...refusal] of [[header_5 + 10n, TOO_BIG, 64n, 10n], [header_5, BAD_OFFSET, header_5, 0n]]) {
        const cut = Elf.parse(own.subarray(0, Number(length)));
        assert.deepEqual([why(() => cut.section_headers()), why(() => cut.section_name(whole.section_header(1)))],
            Array(2).fill([...refusal, list]));
        const names = cut.strtab(whole.section_header(whole.header.e_shstrndx));
        assert.deepEqual([cut.whole().section_headers().length, names.get(text.sh_name)], [5, '.text']);
    }
    assert.deepEqual(why(() => whole.number_in(text, past, 1)), [BAD_OFFSET, past, 0n, text.sh_offset + past]);
    // the second note begins 20 bytes after the first, its name 12 bytes after that, and its descriptor 8 bytes later
    const elf = Elf.parse(noted), section = elf.section('.note'), first = section.sh_offset, second = first + 20n;
    for (const [length, start, of_text, of_bytes = of_text] of [
        [first, first, [BAD_OFFSET, first, 0n], [BAD_OFFSET, 0n, 0n]], [first + 12n, first, [BAD_OFFSET, 12n, 0n]],
        [second, second, [BAD_OFFSET, second, 0n], [BAD_OFFSET, 0n, 0n]], [second + 11n, second, [TOO_BIG, 12n, 11n]],
        [second + 20n, second, [BAD_OFFSET, 20n, 0n]], [second + 24n, second, [TOO_BIG, 5n, 4n]],
    ]) {
        const cut = Elf.parse(noted.subarray(0, Number(length)));
        assert.deepEqual([why(() => cut.notes(section)), why(() => cut.notes_bytes(section))],
            [[...of_text, start], [...of_bytes, start]]);
    }
    const aligned = (sh_addralign) => elf.notes({ ...section, sh_addralign });
    assert.deepEqual([0n, 1n, 2n, 3n, 4n].map((alignment) => aligned(alignment).length), [2, 2, 2, 2, 2]);
    for (const alignment of [5n, 7n, 9n])
        assert.deepEqual(why(() => aligned(alignment)), [NOTE_ALIGN, alignment, 0n, first]);
});

check('Strings that no zero byte closes are not read for each offset', () => {
    // (of each all 2 MiB would be read, which is 4 GB)
    const size = 2 << 20, elf = Elf.parse(Buffer.concat([own, Buffer.alloc(size, 'a')])),
        strtab = elf.strtab({ sh_type: 3, sh_offset: BigInt(own.length), sh_size: BigInt(size) });
    throw_all(is_refusal(Kind.OPEN_STRING, BigInt(own.length)), () => strtab.get_all_bytes(times(2000, (i) => i)));
});

check('The example needed.mjs reads strings that no zero byte closes once, and not for each name', () => {
    const folder = mkdtempSync(join(tmpdir(), 'goblin-')), path = join(folder, 'open'), count = 20000,
        text = Buffer.alloc(1 << 24, 'x').fill('\0closed\0', 0, 8);
    writeFileSync(path, dynamic_file(text, [[1, 1], ...times(count, (i) => [1, 8 + i]), [5, 0x400000],
        [10, text.length], [0, 0]]));
    // (a gigabyte a second would take minutes)
    const args = [...process.execArgv, join(web, 'examples/needed.mjs'), path],
        { stdout, status } = spawnSync(process.execPath, args, { timeout: 90_000, maxBuffer: 1 << 24 }),
        lines = `${stdout}`.split('\n');
    rmSync(folder, { recursive: true });
    assert.deepEqual([status, lines.length, ...lines.slice(0, 2)], [0, count + 2, 'needed closed',
        'needed: no zero byte closes a string at offset 8']);
});

check('A map finds what `symbol_by_address` of a table finds', () => {
    let found = 0;
    const symbols_of = (made, type = 1, ...others) => Elf.parse(elf_file({ type,
        sections: [{ name: '.symtab', type: 2, bytes: Buffer.concat(made.map(symbol)) }, ...others] })).syms();
    const agrees = (symbols, addresses) => {
        const map = symbols.address_map();
        for (const address of addresses) {
            const wanted = symbols.symbol_by_address(address);
            assert.deepEqual(map.symbol_by_address(address), wanted);
            if (wanted) assert.deepEqual(wanted.symbol, symbols.get(wanted.index));
            found += Number(wanted !== undefined);
        }
        throw_all(RangeError, () => map.symbol_by_address(-1));
        throw_all(TypeError, () => map.symbol_by_address('1'));
        return map;
    };
    for (const elf of files.map(Elf.parse)) {
        const symbols = elf.syms() ?? elf.dynsyms(),
            values = [...symbols ?? []].slice(0, 300).map(({ st_value }) => st_value);
        if (symbols) agrees(symbols, values.flatMap((value) => [value, value + 1n, value + 0x40n]).concat(0, END));
    }
    const main = Elf.parse(own).syms(), { st_value } = main.symbol_by_name('main').symbol;
    assert.equal(main.name(main.address_map().symbol_by_address(st_value).symbol), 'main');
    // a symbol around others, one that ends before, two at one address, a label, and one that ends with the addresses
    const shndx = 1, info = 2, made = [{}, { value: 0x10, size: 0x40 }, { value: 0x20, size: 4 },
        { value: 0x30, size: 4 }, { value: 0x30, size: 8 }, { value: 0x60 }, { value: 0x70, size: 0x10 },
        { value: 0x70 }, { value: END - 3n, size: END }].map((fields) => ({ ...fields, shndx, info }));
    const map = agrees(symbols_of(made), [...Array(0x90).keys()].concat([END - 4n, END - 3n, END]));
    for (const [address, index] of [[0, 0], [0x10, 1], [0x22, 2], [0x24, 1], [0x33, 3], [0x34, 4], [0x38, 1],
        [0x50, undefined], [0x60, 5], [0x6f, 5], [0x7f, 6], [0x80, 7], [END, 8]])
        assert.equal(map.symbol_by_address(address)?.index, index, `address ${address}`);
    let state = 1;
    const any = (below) => { state = (Math.imul(state, 1103515245) + 12345) >>> 0; return (state >>> 8) % below; };
    for (let round = 0; round < 300; round++) {
        const some = times(any(28), () => ({ value: any(24), size: any(9) ? any(12) * any(2) : END,
            shndx: [1, 2, 2, 3, 3, 4, 4, 9, 0xffff, 0, 0xfff1][any(11)], info: [2, 2, 0, 1, 10, 3][any(6)] }));
        const others = ['.a', '.b', '.c'].map((name) => data(name, Buffer.alloc(any(24)),
            { flags: [2, 2, 6, 5][any(4)], addr: any(9) ? any(20) : END - BigInt(any(9)) }));
        agrees(symbols_of([...some, {}], any(4), ...others), [...Array(40).keys()].concat(END - 1n, END));
    }
    assert.ok(found > 5000, `${found} addresses`);
    return `${found} addresses in maps`;
});

check('A segment holds sections by their ranges, addresses, types and flags', () => {
    const { PT_DYNAMIC, PT_GNU_EH_FRAME, PT_GNU_RELRO, PT_GNU_STACK, PT_INTERP, PT_LOAD, PT_NOTE,
        PT_PHDR, PT_TLS } = goblin;
    const { SHF_ALLOC, SHF_TLS, SHT_NOBITS, SHT_NOTE, SHT_PROGBITS } = goblin;
    // the segment has 0x50 bytes at offset 0x100, and 0x80 addresses from 0x1100 on
    const holds = (p_type, sh_flags, sh_type, [before, size]) => goblin.segment_holds(
        { p_type, p_offset: 0x100n, p_filesz: 0x50n, p_vaddr: 0x1100n, p_memsz: 0x80n },
        { sh_type, sh_flags, sh_offset: BigInt.asUintN(64, 0x100n + BigInt(before)),
            sh_addr: BigInt.asUintN(64, 0x1100n + BigInt(before)), sh_size: BigInt.asUintN(64, BigInt(size)) });
    const loaded = (p_type, range) => holds(p_type, SHF_ALLOC, SHT_PROGBITS, range);
    const of_thread = (p_type, sh_type) => holds(p_type, SHF_ALLOC | SHF_TLS, sh_type, [1, 1]);
    const empty = (sh_offset, sh_size) => goblin.segment_holds(
        { p_type: PT_NOTE, p_offset: 0x100n, p_filesz: 0n, p_vaddr: 0n, p_memsz: 0n },
        { sh_type: SHT_NOTE, sh_flags: 0n, sh_offset, sh_addr: 0n, sh_size });
    for (const [wanted, found] of [
        ['11000010', [[0, 0x50], [0x4f, 1], [0, 0x51], [-1, 1], [0x50, 1], [1, -1], [0, 0], [0x50, 0]]
            .map((range) => loaded(PT_LOAD, range))],
        // without bytes in the file only the addresses count
        ['100', [[0x50, 0x30], [0x50, 0x31], [0x80, 0]].map((range) => holds(PT_LOAD, SHF_ALLOC, SHT_NOBITS, range))],
        // some segments hold only loaded sections
        ['000001', [PT_LOAD, PT_DYNAMIC, PT_GNU_EH_FRAME, PT_GNU_RELRO, PT_GNU_STACK, PT_INTERP]
            .map((p_type) => holds(p_type, 0n, SHT_PROGBITS, [1, 1]))],
        ['001', [PT_PHDR, PT_TLS, PT_DYNAMIC].map((p_type) => loaded(p_type, [1, 1]))],
        // thread-local storage
        ['11100', [PT_TLS, PT_LOAD, PT_GNU_RELRO, PT_NOTE, PT_GNU_STACK].map((type) => of_thread(type, SHT_PROGBITS))],
        ['100', [PT_TLS, PT_LOAD, PT_GNU_RELRO].map((p_type) => of_thread(p_type, SHT_NOBITS))],
        // an empty section at the start of a segment of notes is not held, unless the segment is empty, too
        ['001', [PT_NOTE, PT_DYNAMIC, PT_LOAD].map((p_type) => loaded(p_type, [0, 0]))],
        ['111', [PT_NOTE, PT_DYNAMIC, PT_LOAD].map((p_type) => loaded(p_type, [1, 0]))],
        ['100', [empty(0x100n, 0n), empty(0x101n, 0n), empty(0x100n, 1n)]],
    ]) assert.equal(found.map(Number).join(''), wanted);
});

// Returns lines of the constants of the library, which a proved program prints, and of others. Only the name
// of a constant of one class begins with its module.
function constants_of_library() {
    const read = (name) => readFileSync(new URL(name, stored), 'utf8');
    const of_library = Array.from(read('crates/goblin_names/stdout').matchAll(/^(\w+)::(\w+ .*)$/gm),
        ([, module, line]) => (/\d\d$/.test(module) ? `${module}.${line}` : line));
    const others = Array.from(read('faces/other_constants.rs').matchAll(/^pub const (\w+): \w+ = (\w+);$/gm),
        ([, name, value]) => `${name} ${Number(value.replaceAll('_', ''))}`);
    return [...of_library, ...others];
}

check('Constants are those that the library prints, in the types of the fields that hold them', async () => {
    const { VERSION, ...of_records } = await import(pathToFileURL(resolve(web, 'constants.js'))), found = [];
    assert.equal(goblin.VERSION, VERSION);
    for (const [name, value] of Object.entries(of_records)) {
        const is_object = typeof value === 'object';
        assert.equal(goblin[name], value);
        if (is_object) assert.ok(Object.isFrozen(value), name);
        if (is_object && !Array.isArray(value))
            found.push(...Object.entries(value).map(([field, number]) => `${name}.${field} ${number}`));
        else found.push(`${name} ${is_object ? `[${value.join(', ')}]` : value}`);
        // its type must be that of the field that holds it
        const is_big = /^(SH[FN]|D[TF])_/.test(name) && name !== 'SHF_NUM_REGULAR_FLAGS';
        if (!is_object) assert.equal(typeof value, is_big ? 'bigint' : 'number', name);
    }
    const wanted = constants_of_library();
    assert.ok(wanted.length >= 374);
    assert.deepEqual(found.sort(), wanted.sort());
    return `${wanted.length} constants`;
});

// Returns the declarations for TypeScript: for each type the names and types of its members.
function declared_members(declared, word) {
    const found = {}, form = `^export ${word} (\\w+)(?: extends Omit<(\\w+), '(\\w+)'>)?[^\\n]* {\\n(.*?)^}`;
    for (const [, name, base, without, body] of declared.matchAll(new RegExp(form, 'gms'))) {
        const { [without]: _, ...others } = found[base] ?? {};
        found[name] = { ...others, ...Object.fromEntries(Array.from(body.matchAll(
            /^ {4}(?:static |readonly )?(\w+|\[Symbol\.iterator\])(?:<\w+>)?(?:: |(?=\())(.*);$/gm),
            ([, member, type]) => [member, type])) };
    }
    return found;
}

check('The declarations have all that goblin.js exports', () => {
    const declared = readFileSync(join(web, 'goblin.d.ts'), 'utf8');
    const names = [...declared.matchAll(/^export (?:const|function|class) (\w+)/gm)].map(([, name]) => name);
    assert.deepEqual(names.sort(), Object.keys(goblin).filter((name) => name !== 'default').sort());
    assert.match(declared, /^export default function init\(source\?: /m);
    for (const [, name, type] of declared.matchAll(/^export const (\w+): (.*);$/gm)) {
        const value = goblin[name], [, list] = /^readonly (\w+)\[\]$/.exec(type) ?? [];
        const is_object = type.startsWith('{'),
            fields = Array.from(type.matchAll(/readonly (\w+): number;/g), ([, field]) => field);
        const found = is_object ? Object.keys(value) : [...new Set([value].flat().map((item) => typeof item))];
        assert.deepEqual(found, is_object ? fields : [list ?? type], name);
    }
    const items = some_items(), interfaces = declared_members(declared, 'interface');
    assert.deepEqual(Object.keys(interfaces).sort(), Object.keys(items).sort());
    for (const [name, fields] of Object.entries(interfaces)) {
        assert.deepEqual(Object.keys(fields).sort(), Object.keys(items[name]).sort());
        for (const [field, type] of Object.entries(fields)) {
            const found = typeof items[name][field];
            assert.ok(type.split(' | ').includes(found) || (found === 'object' && /^[A-Z]/.test(type)),
                `${name}.${field}: ${type}`);
        }
    }
    const elf = Elf.parse(own), refused = error_of(() => elf.number(own.length, 1));
    const made = { GoblinError: refused, Elf: elf, List: elf.section_headers(), Symtab: elf.syms(),
        Strtab: elf.shdr_strtab(), AddressMap: elf.syms().address_map(), Writer: elf.writer(new Uint8Array(own)) };
    const classes = declared_members(declared, 'class');
    assert.deepEqual(Object.keys(classes).sort(), Object.keys(made).sort());
    for (const [name, members] of Object.entries(classes)) {
        const { prototype } = goblin[name],
            symbols = Object.getOwnPropertySymbols(prototype).map((symbol) => `[${symbol.description}]`);
        const there = [...Object.getOwnPropertyNames(prototype), ...symbols, ...Object.keys(made[name]),
            ...(name === 'Elf' ? ['parse'] : [])];
        const undeclared = ['constructor', 'name', '[nodejs.util.inspect.custom]'];
        const wanted = there.filter((member) => !undeclared.includes(member)
            || (member === 'name' && name === 'Symtab'));
        assert.deepEqual(Object.keys(members).filter((member) => member !== 'constructor').sort(), wanted.sort(), name);
    }
    return `${names.length} declared names`;
});

check('The package lists all of its files', () => {
    const { types, exports, engines, files: listed } = JSON.parse(readFileSync(join(web, 'package.json')));
    assert.deepEqual(exports['.'], { types, default: './goblin.js' });
    const passed_on = Object.entries(exports).filter(([name]) => name !== '.');
    for (const [name, path] of passed_on) assert.equal(name, path);
    for (const name of [types, exports['.'].default, ...passed_on.map(([, path]) => path), ...listed])
        assert.ok(existsSync(join(web, name)), name);
    assert.deepEqual(readdirSync(web).filter((name) => !['LICENSE', 'package.json'].includes(name)).sort(),
        listed.sort());
    // (a bundler takes an import of anything else for an error)
    const imports = readFileSync(join(web, 'goblin.js'), 'utf8').matchAll(/\b(?:from |import\()'([^']*)'/g);
    for (const [, name] of imports) assert.ok(listed.some((file) => name === `./${file}`), name);
    const [least] = /\d+/.exec(engines.node);
    // (an earlier node needs a flag)
    const has_flag = process.execArgv.includes('--experimental-wasm-memory64');
    assert.ok(has_flag || Number(process.versions.node.split('.')[0]) >= Number(least));
});

const said = [];
for (const { title, run } of checks) {
    try {
        said.push(await run());
    } catch (error) {
        console.log(`calls.mjs: ${title}`);
        throw error;
    }
}
console.log(`goblin.js does what its comments say: ${said.filter(Boolean).join(', ')}`);
