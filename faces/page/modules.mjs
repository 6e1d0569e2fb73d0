// Tests the page's modules in Node.js: modules.mjs FOLDER PART. FOLDER has goblin_c.wasm, and PART is `facts` or
// `times`. (browser.mjs tests the page.)
import assert from 'node:assert/strict';
import { readFileSync } from 'node:fs';
import { join } from 'node:path';
import { setFlagsFromString } from 'node:v8';
import { runInNewContext } from 'node:vm';
import {
    code, data, dynamic_file, elf_file, longs, note, noted_file, packed, patched, relocations, symbol, symbols_file,
    times,
} from '../web/elves.mjs';
import * as goblin from '../web/goblin.js';
import { registers_of } from './core.js';
import { csv_line } from './csv.js';
import { demangled, may_hold } from './demangle.js';
import { versions } from './dynamic.js';
import { facts } from './facts.js';
import { file, sections } from './file.js';
import { relocation_type } from './names.js';
import { parts } from './pieces.js';
import { name_of_symbol, named_symbols } from './resolve.js';
import { all_facts, summary } from './summary.js';

const { Elf } = goblin;
globalThis.postMessage ??= () => {};
// (Node.js has it from 21 on)
Map.groupBy ??= (items, key_of) => items.reduce((all, item) =>
    all.set(key_of(item), [...(all.get(key_of(item)) ?? []), item]), new Map());

const stored = (name) => readFileSync(new URL(`../../checks/files/${name}`, import.meta.url));
const of = (content) => JSON.parse(JSON.stringify(facts(Elf.parse(content)),
    (_, value) => (typeof value === 'bigint' ? Number(value) : value)));

// The facts that the page shows are those of the table of stored files, by which the Python package is tested, too.
function check_facts() {
    const table = Object.entries(JSON.parse(stored('facts.json')));
    for (const [name, wanted] of table) assert.deepEqual(of(stored(name)), wanted, name);
    assert.ok(table.length > 40);
    // (a call may take memory after the file's bytes, which moves them: here for the first name that is looked up)
    const program = stored('made/x86_64_program'), { bytes } = Elf.parse(program);
    const more = 65536 - (bytes.byteOffset + program.length) % 65536 - 4;
    assert.deepEqual(of(Buffer.concat([program, Buffer.alloc(more)])), of(program));
    console.log(`facts.js says of ${table.length} stored files what facts.json says`);
}

// A fact is known up to what is read, and unknown past it: one more byte, entry, note or name.
function check_bounds() {
    const of_segments = (...segments) => of(elf_file({ type: 3, segments })),
        of_notes = (...notes) => of(noted_file(notes, { type: 3 }));
    const repeat = (count, part) => Buffer.concat(times(count, () => part));
    const id = note('GNU', 3, Buffer.from('id..')), other = note('ABC', 1, Buffer.alloc(0));
    const marks = (size) => note('GNU', 5, Buffer.concat([packed([0xc0000002, 4], [4, 4], [1, 4]),
        Buffer.alloc(size - 12)]));
    const canaries = (count) => of(symbols_file([...Array.from({ length: count - 1 }, (_, i) =>
        ({ text: `x__stack_chk_guard@${i}` })), { text: '__stack_chk_fail' }]));
    const comment = (size) =>
        of(elf_file({ sections: [{ name: '.comment', type: 1, bytes: Buffer.alloc(size, 'a\0') }] }));
    const held = { type: 2, segments: [{ type: 0x6474e552, bytes: Buffer.alloc(16) }] };
    const table_of = (count) => ({ name: '.rel', type: 9, flags: 2, bytes: Buffer.alloc(16 * count) });
    const of_relocations = (count) => of(elf_file({ ...held, sections: [table_of(count)] })),
        of_tables = (count) => of(elf_file({ ...held, sections: Array(count).fill(table_of(0)) }));
    for (const [fact, read, most, known] of [
        ['interpreter', (size) => of_segments({ type: 3, bytes: Buffer.alloc(size + 1).fill('a', 0, size) }), 4095,
            'a'.repeat(4095)],
        ['build_id', (size) => of_notes(note('GNU', 3, Buffer.alloc(size, 171))), 64, 'ab'.repeat(64)],
        ['build_id', (count) => of_notes(repeat(count, other), id), 65534, '69642e2e'],
        ['control_flow', (size) => of_notes(marks(size)), 65536, ['IBT']],
        ['pie', (count) => of_segments({ type: 2, bytes: repeat(count, longs(21, 1)) }), 4096, true],
        ['compilers', comment, 65536, ['a']], ['canary', canaries, 64, true],
        ['relro', of_relocations, 1 << 22, 'full'], ['relro', of_tables, 4096, 'full'],
    ]) {
        const [last, past] = [most, most + 1].map(read);
        assert.deepEqual([last[fact], last.unknown.includes(fact)], [known, false], fact);
        assert.deepEqual([past[fact], past.unknown.includes(fact)], [null, true], fact);
    }
}

// Of versions a number is read in all, also where each of many libraries has all of them.
function check_versions() {
    const libraries = Array.from({ length: 100 }, (_, i) =>
        packed([1, 2], [0xffff, 2], [1, 4], [1600 - 16 * i, 4], [16, 4]));
    const names = times(5000, () => packed([0, 8], [1, 4], [16, 4])),
        bytes = Buffer.concat([...libraries, ...names, Buffer.from('\0a\0')]);
    file.elf = Elf.parse(dynamic_file(bytes, [[0x6ffffffe, 0x400000], [0x6fffffff, 100],
        [5, 0x400000 + bytes.length - 3], [10, 3], [0, 0]]));
    const [[name, all], ...others] = versions();
    assert.deepEqual([name, others], ['a', []]);
    assert.ok(all.length > 4000 && all.length <= 4096, `${all.length} versions`);
}

// Of a thread only the registers that are wanted are read: a core may have very many threads.
function check_registers() {
    const read = [];
    file.elf = Elf.parse(noted_file([note('CORE', 1, Buffer.alloc(336))]));
    file.elf.number = (at) => { read.push(at); return 7n; };
    const found = registers_of({ note: { desc_range: { offset: 64n, size: 336n } } }, (name) => name === 'rip');
    assert.deepEqual([found, read], [[['rip', 7n]], [64n + 112n + 8n * 16n]]);
}

// Of names that overlap in a damaged file, here 200,000 of 1,000 signs, only some are kept.
function check_names() {
    const count = 200000;
    setFlagsFromString('--expose-gc');
    const collect = runInNewContext('gc'), used = () => { collect(); return process.memoryUsage().heapUsed; };
    const named = symbol({ name: 1, info: 2, shndx: 1 });
    file.elf = Elf.parse(elf_file({ sections: [
        { name: '.symtab', type: 2, link: 2, entsize: 24, bytes: Buffer.alloc(count * named.length, named) },
        { name: '.strtab', type: 3, bytes: Buffer.from(`\0${'n'.repeat(1000)}\0`) }] }));
    const before = used();
    for (let times = 0; times < 2; times++) {
        let index = 0, signs = 0;
        for (const item of named_symbols(1)) signs += name_of_symbol(1, index++, item).length;
        assert.equal(signs, 1000 * count);
    }
    const kept = used() - before;
    assert.ok(kept < 1.4e8, `${kept} bytes are kept`);
}

// Slots that calls go through and that relocations write are held by PT_GNU_RELRO, or are not known.
function check_slots() {
    const held = { type: 0x6474e552, vaddr: 0x1000, bytes: Buffer.alloc(16) };
    const file = ({ machine, type = 37, offset = 0x1008, flags = 2, segments = [], ...given }) =>
        of(elf_file({ type: 2, machine, segments: [held, ...segments],
            sections: [{ ...relocations({ offset, type }), flags }], ...given }));
    const known = (given) => {
        const { relro, unknown } = file(given);
        return unknown.includes('relro') ? 'unknown' : relro;
    };
    for (const [wanted, given] of [['full', {}], ['full', { offset: 0x1000 }], ['partial', { offset: 0x1009 }],
        ['partial', { offset: 0xfff }], ['full', { offset: 0, type: 6 }], ['full', { offset: 0, flags: 0 }],
        ['unknown', { machine: 8 }], ['unknown', { sections: [] }],
        ['unknown', { segments: [{ type: 3, bytes: Buffer.from('/ld\0') }] }],
        ['partial', { segments: [{ type: 0x6474e552, bytes: Buffer.alloc(16) }] }]])
        assert.equal(known(given), wanted, JSON.stringify(given));
    // (the numbers of the machines' psABIs)
    for (const [machine, own] of
        [[3, 42], [21, 248], [22, 61], [40, 160], [43, 249], [183, 1032], [243, 58], [258, 12]]) {
        const found = [own, own + 1].map((type) => known({ machine, type, offset: 0 }));
        assert.deepEqual(found, ['partial', 'full'], `${machine}`);
    }
}

// What each entry, flag, name and note says alone, by the numbers of the standard.
function check_made_facts() {
    const with_entry = (...entry) => of(elf_file({ type: 3, segments: [{ type: 3, bytes: Buffer.from('/ld\0') },
        { type: 2, bytes: longs(...entry) }] }));
    for (const [tag, value, kind, is_now] of [[21, 0, 'program', false], [0x6ffffffb, 0x8000000, 'program', false],
        [24, 0, 'library', true], [30, 8, 'library', true], [0x6ffffffb, 1, 'library', true],
        [30, 0xfff7, 'library', false], [0x6ffffffb, 0xf7fffffe, 'library', false]]) {
        const found = with_entry(tag, value);
        assert.deepEqual([found.kind, found.pie, found.bind_now], [kind, kind === 'program', is_now]);
    }
    const canaries = ['fail', 'fail_local', 'guard', 'fail@GLIBC_2.4', 'guard@@X'],
        others = ['failed', 'fail_', 'x@fail'];
    const with_name = (end) => symbols_file([{ text: 'main' }, { text: `__stack_chk_${end}` }]);
    assert.deepEqual([...canaries, ...others].map((end) => of(with_name(end)).canary),
        [...canaries.map(() => true), ...others.map(() => false)]);
    const file = with_name('fail_'), size_of_names = Number(file.readBigUInt64LE(0x28)) + 2 * 64 + 0x20;
    const { canary, unknown, cut } = of(patched(file, [size_of_names, 1n << 40n]));
    assert.deepEqual([canary, unknown, cut], [null, ['canary'], true]);
    const stacks = (...all) => all.map((flags) => ({ type: 0x6474e551, flags, bytes: Buffer.alloc(0) }));
    assert.deepEqual([[6], [7, 6], [6, 7], []].map((flags) => of(elf_file({ type: 2, segments: stacks(...flags) })).nx),
        [true, false, false, false]);
    const [whole, part] = [undefined, -1].map((end) =>
        of(elf_file({ type: 2, segments: [{ type: 2, bytes: longs(1, 2) }] }).subarray(0, end)));
    assert.deepEqual([whole.kind, whole.unknown[0], part.kind, part.needed, part.unknown.includes('needed')],
        ['program', 'needed', 'program', null, true]);
    const { kind, nx, pie, bind_now } = of(elf_file({ type: 0xfe00, segments: stacks(6) }));
    assert.deepEqual([kind, nx, pie, bind_now], ['other', null, null, null]);
    const marks = packed([0xc0008002, 4], [4, 4], [1, 8], [0xc0000002, 4], [4, 4], [2, 8]);
    const notes = [note('GNX', 3, marks), note('x'.repeat(1 << 20), 3, marks), note('GNU', 3, Buffer.from('id..')),
        note('GNU', 5, marks)];
    const noted = of(noted_file(notes, { type: 2 }));
    assert.deepEqual([noted.build_id, noted.control_flow], ['69642e2e', ['SHSTK']]);
    const debug = elf_file({ type: 2, sections: [{ name: '.text', type: 8, flags: 6, bytes: marks }],
        segments: [{ bytes: marks }] });
    const of_debug = of(patched(debug, [64 + 0x20, 1n << 40n])); // (the size of its segment)
    assert.deepEqual([of_debug.kind, of_debug.cut], ['debug file', false]);
}

// Cells that a spreadsheet would run as formulas if it splits lines at commas or semicolons, and unseen characters.
function check_csv() {
    const cells = [
        ['=1+1', `"'=1+1"`], ['+1', `"'+1"`], ['-1+1', `"'-1+1"`], ['@a', `"'@a"`], ["'a", `"''a"`], [' =1', `"' =1"`],
        ['\uff1d1', `"'\uff1d1"`], ['1;=1+1', `"1;'=1+1"`], ['1; -1', `"1;' -1"`], ['1;"@a', `"1;'""@a"`],
        ['a,=1', `"a,'=1"`], ['a;,@b', `"a;,'@b"`], ['-0x10', '-0x10'], [';-0x10', `";'-0x10"`], ['a;b', '"a;b"'],
        ['a-b=c', 'a-b=c'], ['a,"b"', '"a,""b"""'], ['a\\x1b', 'a\\x5cx1b'],
        ['\x1b[1m', '\\x1b[1m'], ['\t=1\r\n', '\\x09=1\\x0d\\x0a'],
        ['a\u202eb\u2066', 'a\\xe2\\x80\\xaeb\\xe2\\x81\\xa6'],
        ['\u200f\udce9\u0085', '\\xe2\\x80\\x8f\\xe9\\xc2\\x85'], ['\u00e9t\u00e9', '\u00e9t\u00e9'],
    ];
    // (as a spreadsheet splits lines at commas, at semicolons, at both, or at tabs)
    const split = (line, at) => [...line.matchAll(new RegExp(`(?:^|[${at}])(?:"((?:[^"]|"")*)"|([^${at}]*))`, 'g'))];
    for (const [text, cell] of cells) {
        const line = csv_line([text, '0']);
        assert.equal(line, `${cell},0\r\n`);
        for (const [, inside, plain] of [',', ';', ',;', '\t'].flatMap((at) => split(line, at)))
            assert.doesNotMatch(inside ?? plain, /^[ "]*([=+@\t\r\uff1d]|-(?!0x10\b))/, line);
    }
}

// Names that are left alone: long ones, of which the first has 1.3 million signs, those of an old Rust, and some that
// no compiler makes (c++filt leaves some of them alone, too, and has its own ways to write others).
const VERY_LONG = `_Z1f1aIiiE${times(8, (i) => `S_IS${i}_S${i}_E`).join('')}${'S8_'.repeat(250)}`;
const LEFT_ALONE = [VERY_LONG, `_Z1fv${'.1'.repeat(60)}!`, `_Z1f${'F'.repeat(1019)}`, '_Z1fILi1EEvRAT__c',
    '_ZZ1fvENKUlvE_clEv', '_ZN4core3fmt17h0123456789abcdefE', '_Z', '_ZN', 'main', '_Z1fS9_', '_Z1fIiiEvT0A_',
    '_ZTVTh8_i', '_Z1fNK1bE', '_ZTSNKclE', '_ZTVNV1a1bE', '_ZNSsE', '_ZN1a1bENS_E', '_Z1fIiEvNT_E',
    '_Z1fFvvENS_1bE', '_ZN1a1bENS_D2E', '_ZN1aC1IiEIjEERKT_', '_ZNKrS1a1bEv', '_ZGVi', '_ZplKK1aS1_', '_Z1fROOi',
    '_Z1fPFFivEivE', '_Z1fv.a.01_'];

// What is demangled is what c++filt makes of it, and what a search skips, without reading it, holds no word of that.
function check_demangled() {
    const all = `${stored('mangled')}`.trim().split('\n').map((row) => row.split('\t')),
        rows = all.filter(([name]) => demangled(name));
    assert.ok(rows.length > 100 && rows.length > 0.95 * all.length, `${rows.length} of ${all.length} names`);
    for (const [name, text] of rows) {
        assert.equal(demangled(name), text);
        for (const [word] of text.toLowerCase().matchAll(/[\w:]+/g))
            assert.ok(may_hold(word)(name.toLowerCase()), `${word} in ${name}`);
    }
    assert.deepEqual([may_hold('std::vector')('_z3foov'), may_hold('foo(')('_z3foov')], [false, true]);
    for (const name of LEFT_ALONE) assert.equal(demangled(name), undefined, name);
    const { user } = process.cpuUsage(), long = `_Z1fv${'.a'.repeat(508)}!`; // (which is left alone)
    for (let i = 0; i < 500; i++) assert.equal(demangled(long), undefined);
    assert.ok(process.cpuUsage().user - user < 5e5, `${process.cpuUsage().user - user} microseconds`);
}

// The types of relocations of several machines have the names that readelf prints, but for some of another name there
// than in the ABI.
function check_relocation_names() {
    const others = { 40: [32, 33, 34, 35, 36, 37, 129, 135], 183: [1028, 1029, 1030] },
        rows = `${stored('relocation_names')}`.trim().split('\n').map((line) => line.split(' '));
    for (const [machine, least] of [[62, 43], [3, 42], [183, 117], [40, 117], [243, 53], [22, 66], [21, 130]]) {
        const own = rows.filter(([of, type]) => Number(of) === machine && !others[machine]?.includes(Number(type)))
            .map(([, type, name]) => [relocation_type(Number(type), machine, true), name]).filter(([name]) => name);
        for (const [name, wanted] of own) assert.equal(name, wanted, `machine ${machine}`);
        assert.ok(own.length >= least, `${own.length} names of machine ${machine}`);
    }
    // (in 64-bit files for MIPS a relocation has three types, one a byte)
    assert.equal(relocation_type(0x180507, goblin.EM_MIPS, true), 'R_MIPS_GPREL16 R_MIPS_HI16 R_MIPS_SUB');
}

// How long the page takes for a file of 60,000 sections that overlap: their pieces, and the summary but for the facts,
// take at most eight times as long as their headers, in one run.
async function check_times() {
    const count = 60000, most = 8, content = elf_file({ sections: Array.from({ length: count }, () =>
        code(Buffer.alloc(16))) }), headers = Number(content.readBigUInt64LE(40));
    const time_of = async (run) => {
        const before = process.cpuUsage();
        await run();
        return process.cpuUsage(before).user;
    };
    for (let i = 1; i <= count; i++) content.writeBigUInt64LE(BigInt(64 + i % 900), headers + 64 * i + 24);
    file.elf = Elf.parse(content);
    all_facts();
    const of_headers = await time_of(sections), of_pieces = await time_of(async () => {
        parts();
        const [{ tables: [{ rows: [, { also }] }] }] = await summary();
        assert.deepEqual(also.map(({ value, links }) => [value, links.length]), [['overlapping:', 9]]);
    });
    assert.equal(sections().length, count + 2);
    assert.ok(of_pieces < most * of_headers, `${of_pieces} microseconds for pieces, ${of_headers} for headers`);
    console.log(`the page takes ${(of_pieces / of_headers).toFixed(1)} times as long for the pieces of ${count}`
        + ' sections as for their headers');
}

await goblin.default(readFileSync(join(process.argv[2], 'goblin_c.wasm')));
// (the modules keep what they read of a file, of which the page has one in each worker)
const PARTS = { times: [check_times], facts: [check_facts, check_bounds, check_versions, check_registers, check_names,
    check_slots, check_made_facts, check_csv, check_demangled, check_relocation_names] };
for (const check of PARTS[process.argv[3]]) await check();
process.exit(); // (a channel to the page is still open)
