// Tests goblin.js against C: test.mjs FOLDER DUMP FILE.. What goblin.js in FOLDER reads of the files and of damaged
// copies must be what DUMP (faces/c/tests/dump.c) prints. The module must have no imports, and the structs and kinds
// of goblin.h.
import assert from 'node:assert/strict';
import { spawnSync } from 'node:child_process';
import { mkdtempSync, readFileSync, rmSync, writeFileSync } from 'node:fs';
import { tmpdir } from 'node:os';
import { join, resolve } from 'node:path';
import { pathToFileURL } from 'node:url';
import { import_goblin } from './tested.mjs';

const COPIES = 150, FEW = 3, WHOLE = 20, FIRST = 16;
const [, , web, dump, ...files] = process.argv;
const goblin = await import_goblin(web), { CALLS, STRUCTS } = await import(pathToFileURL(resolve(web, 'interface.js')));

const header = readFileSync(new URL('../c/goblin.h', import.meta.url), 'utf8'),
    module = new WebAssembly.Module(readFileSync(join(web, 'goblin_c.wasm')));

// The sizes of the structs are the library's, and each byte of a struct's first field is 1, of its second 2, and so on,
// as goblin_layout fills them.
function check_layout() {
    const { memory, __heap_base, goblin_layout } = new WebAssembly.Instance(module, {}).exports,
        start = Math.ceil(Number(__heap_base.value) / 8) * 8, kinds = Object.entries(STRUCTS);
    // (newer engines take a BigInt)
    try { memory.grow(1n); } catch { memory.grow(1); }
    const view = new DataView(memory.buffer), size = Number(goblin_layout(BigInt(start), 65536n));
    // (the last size is that of a goblin_file_t, which is no item)
    let at = start + 8 * (kinds.length + 1);
    for (const [i, [kind, { size, fields }]] of kinds.entries()) {
        assert.equal(BigInt(size), view.getBigUint64(start + 8 * i, true), kind);
        const bytes = Buffer.from(memory.buffer, at, size);
        for (const [number, [name, offset, width]] of fields.entries()) {
            const field = bytes.subarray(offset, offset + (width === 's' ? 8 : width));
            assert.ok(field.every((byte) => byte === number + 1), `${kind}.${name}`);
        }
        assert.equal(Math.max(...bytes), fields.length, kind);
        at += size;
    }
    assert.equal(at - start, size);
}

function check_module() {
    assert.deepEqual(WebAssembly.Module.imports(module), []);
    const exported = WebAssembly.Module.exports(module).map(({ name }) => name)
        .filter((name) => name.startsWith('goblin_'));
    const declared = [...header.matchAll(/^(?:\w+_t|void|bool) (goblin_\w+)\(/gm)].map(([, call]) => call);
    for (const names of [exported, CALLS]) assert.deepEqual([...names].sort(), declared.sort());
    console.log(`goblin_c.wasm has no imports, and exports the ${declared.length} calls of goblin.h`);
}

function check_kinds() {
    const numbers_after = (start) => Object.fromEntries(Array.from(header.split(start)[1].split('};')[0]
        .matchAll(/GOBLIN_(?:REFUSED_|ITEM_)?(\w+) = (\d+)/g), ([, name, number]) => [name, Number(number)]));
    const kinds = Object.entries(goblin.Kind).filter(([, number]) => number < 0xfffffff0);
    assert.equal(kinds.length, 16);
    assert.deepEqual(Object.fromEntries(kinds), numbers_after('GOBLIN_END = 1,\n'));
    assert.deepEqual({ ...goblin.Item }, numbers_after('0 for refusals that have none. */\n'));
    assert.equal(goblin.VERSION, Number(/GOBLIN_VERSION (\d+)/.exec(header)[1]));
}

// The names in goblin.h of the fields that have other names in goblin.js.
const IN_C = {
    sh_offset: 'file.offset', sh_size: 'file.size', p_offset: 'file.offset', p_filesz: 'file.size',
    name_offset: 'name.offset', name_size: 'name.size', desc_offset: 'desc.offset', desc_size: 'desc.size',
};
const length = ({ length }) => ` ${hex(length)}`;
// Returns a section with another type and the same bytes in the file.
const as_type = (section, sh_type) =>
    ({ ...section, ...(section.sh_type === goblin.SHT_NOBITS ? { sh_offset: 0n, sh_size: 0n } : {}), sh_type });
// Returns a number that does not fit in 32 bits for the item at index 1, else 0.
const any_high = (index) => (index === 1 ? 1n << 32n : 0n);
const hex = (number) => BigInt.asUintN(64, BigInt(number)).toString(16);
const fields = (item) => Object.entries(item).map(([name, value]) => ` ${IN_C[name] ?? name}=${hex(value)}`).join('');
const bytes = (array) => ` ${Buffer.from(array).toString('hex')}`;
const size_and_first = (array) => `${length(array)}${bytes(array.subarray(0, FIRST))}`;

// Returns all that goblin.js reads of a file, in the lines of dump.c.
class Dump {
    lines = [];

    // Adds the line of a call: its result, or none, or its refusal. Returns whether it has a result.
    ask(what, read, put = (item) => (typeof item === 'object' ? fields(item) : ` ${hex(item)}`)) {
        let item;
        try {
            item = read();
        } catch (error) {
            if (!(error instanceof goblin.GoblinError)) throw error;
            const { kind, item, numbers: [first, second, third, fourth], offset, message } = error;
            this.lines.push(`${what}${fields({ kind, item, first, second, third, fourth, offset })} ${message}`);
            return undefined;
        }
        this.lines.push(what + (item === undefined ? ' none' : put(item)));
        return item;
    }

    // Adds the lines of a call, one for each of some values.
    ask_each(what, values, read, put) { for (const value of values) this.ask(what, () => read(value), put); }

    // Adds the lines of the bytes of a section or a segment, and of some numbers in them.
    part(elf, kind, part, size) {
        const last = BigInt.asUintN(64, size - 1n);
        this.ask(`goblin_${kind}_range`, () => elf.range(part));
        this.ask('goblin_range_in_file', () => elf.readable_data(part), size_and_first);
        this.ask_each('goblin_number_in', [[0, 8], [size / 2n, 2], [last, 1]],
            ([offset, width]) => elf.number_in(part, offset, width));
    }

    string(strtab, offset) {
        const text = this.ask('goblin_string_utf8', () => strtab.get(offset), (string) => bytes(Buffer.from(string)));
        this.ask('goblin_string_closed', () => strtab.get_closed_bytes(offset), bytes);
        const own = this.ask('goblin_string', () => strtab.get_bytes(offset), bytes) ?? new Uint8Array();
        for (const name of [own, own.subarray(0, own.length / 2)]) {
            this.ask('goblin_string_is', () => strtab.is_at(offset, name) || undefined, () => '');
            this.ask('goblin_string_starts', () => strtab.starts_at(offset, name) || undefined, () => '');
        }
        return text;
    }

    // Adds the line of a call that writes into a copy of the file: a sum of its bytes.
    write(what, put) {
        const copy = new Uint8Array(this.content);
        this.ask(what, () => { put(this.elf.writer(copy)); return copy; }, (written) =>
            ` ${hex(written.reduce((sum, byte) => Math.imul(sum ^ byte, 0x1000193), 0x811c9dc5) >>> 0)}`);
    }

    symbol(section, symtab, index, read = () => symtab.get(index)) {
        const names = ({ st_info, st_other }) => ` ${goblin.bind_to_str(goblin.st_bind(st_info))} `
            + `${goblin.type_to_str(goblin.st_type(st_info))} `
            + `${goblin.visibility_to_str(goblin.st_visibility(st_other))}`;
        const symbol = this.ask('goblin_symbol', read, (item) => fields(item) + names(item));
        if (!symbol) return;
        const name = this.string(symtab.strtab, symbol.st_name);
        const found = ({ index: at, symbol: it }) => ` ${hex(at)}${fields(it)}`;
        const firsts = name === undefined ? [] : [0, index + 1];
        this.ask_each('goblin_symbol_by_name', firsts, (first) => symtab.symbol_by_name(name, first), found);
        const ends = [symbol.st_value, BigInt.asUintN(64, symbol.st_value + symbol.st_size)];
        this.ask_each('goblin_symbol_by_address', ends, (address) => symtab.symbol_by_address(address)?.index);
        if (index >= FEW) return;
        const changed = { ...symbol, st_value: symbol.st_value ^ 1n, st_size: symbol.st_size ^ any_high(index) };
        this.write('goblin_put_symbol', (writer) => writer.put_symbol(section, index, changed));
    }

    symbols(elf, section) {
        const is_table = section.sh_type === goblin.SHT_SYMTAB || section.sh_type === goblin.SHT_DYNSYM;
        const table = is_table ? section : as_type(section, goblin.SHT_SYMTAB);
        // (dump.c prints these names for a refused table, too)
        const without = { ...table, sh_offset: 0n, sh_size: 0n };
        if (!this.ask('goblin_linked_section', () => elf.symtab(without), ({ strtab }) => fields(strtab.range))) return;
        const symtab = this.ask('goblin_symbol_count', () => elf.symtab(table), length);
        if (!symtab) return;
        const count = symtab.length;
        let index = 0;
        for (const symbol of symtab.from(0, is_table ? count : FEW)) this.symbol(table, symtab, index++, () => symbol);
        this.symbol(table, symtab, Math.max(count - 1, 0));
        this.symbol(table, symtab, count);
    }

    relocs(elf, section) {
        const is_list = section.sh_type === goblin.SHT_RELA || section.sh_type === goblin.SHT_REL;
        const put = (reloc) => fields({ ...reloc, r_addend: reloc.r_addend ?? 0 }) + ` ${reloc.r_addend ?? 0}`;
        const table = is_list ? section : as_type(section, goblin.SHT_REL);
        const relocs = this.ask('goblin_reloc_count', () => elf.relocs(table), length);
        if (!relocs) return;
        let index = 0;
        for (const reloc of relocs.from(0, is_list ? relocs.length : FEW)) {
            this.ask('goblin_reloc', () => reloc, put);
            const at = index++,
                changed = { ...reloc, r_offset: reloc.r_offset ^ 1n, r_sym: reloc.r_sym ^ any_high(at) >> 8n };
            if (at < FEW) this.write('goblin_put_reloc', (writer) => writer.put_reloc(table, at, changed));
        }
        this.ask('goblin_reloc', () => relocs.get(relocs.length), put);
    }

    // Adds the lines of the notes of a section or segment, first with names that must be UTF-8, and then as bytes. (In
    // C a name has not its last byte.)
    notes(elf, holder) {
        for (const [call, { notes, refusal }] of [['goblin_note_utf8', elf.readable_notes(holder)],
            ['goblin_note_whole', elf.readable_notes_bytes(holder)]]) {
            const is_text = call === 'goblin_note_utf8';
            const put = ({ name_range, desc_range, next, n_type, name, desc }) => fields({
                name_offset: name_range.offset,
                name_size: is_text || name_range.size === 0n ? name_range.size : name_range.size - 1n,
                desc_offset: desc_range.offset, desc_size: desc_range.size, next, n_type,
            }) + (is_text ? ` ${goblin.note_type_to_str({ name, n_type })}` : '')
                + bytes(is_text ? name : name.slice(0, -1)) + bytes(desc);
            for (const note of notes) this.ask(call, () => note, put);
            this.ask(call, () => { if (refusal) throw refusal; });
        }
    }

    segments(elf) {
        const list = this.ask('goblin_segment_count', () => elf.program_headers(), length);
        if (!list) return;
        for (const [index, segment] of list.entries()) {
            const { p_vaddr, p_filesz } = segment, half = p_filesz / 2n;
            this.ask('goblin_segment', () => segment, (item) => `${fields(item)} ${goblin.pt_to_str(item.p_type)}`);
            this.part(elf, 'segment', segment, p_filesz);
            const addresses = [0n, half, 2n * half].map((before) => BigInt.asUintN(64, p_vaddr + before));
            this.ask_each('goblin_address_to_offset', addresses, (address) => elf.address_to_offset(address));
            this.notes(elf, segment);
            const changed = { ...segment, p_flags: segment.p_flags ^ goblin.PF_X,
                p_memsz: segment.p_memsz + any_high(index) };
            if (index >= FEW) continue;
            this.write('goblin_put_segment', (writer) => writer.put_program_header(index, changed));
            const last = BigInt.asUintN(64, p_filesz - 1n);
            for (const [offset, width, value] of [[0n, 8, 0x7f], [half, 2, 0x7f000], [last, 1, 0x7f]])
                this.write('goblin_put_number_in', (writer) => writer.put_number_in(segment, offset, width, value));
        }
        this.ask('goblin_segment', () => list.get(list.length));
    }

    sections(elf) {
        const list = this.ask('goblin_section_count', () => elf.section_headers(), length);
        if (!list) return;
        const names = this.ask('goblin_names_section', () => elf.shdr_strtab(), ({ range }) => fields(range));
        if (!names) return;
        for (const [index, section] of list.entries()) {
            const flags = Array.from({ length: 32 }, (_, bit) => 2 ** bit)
                .filter((flag) => section.sh_flags & BigInt(flag));
            this.ask('goblin_section', () => section,
                (item) => fields(item) + [goblin.sht_to_str(item.sh_type), ...flags.map(goblin.shf_to_str)]
                    .map((name) => ` ${name}`).join(''));
            const name = this.string(names, section.sh_name),
                found = ({ index: at, section: it }) => ` ${hex(at)}${fields(it)}`;
            const firsts = name === undefined ? [] : [0, index, 2 * index], { sh_type } = section;
            this.ask_each('goblin_section_by_name', firsts, (first) => elf.section_by_name(name, first), found);
            this.ask_each('goblin_section_by_type', [index >> 1, index + 1],
                (first) => elf.section_by_type(sh_type, first), found);
            this.part(elf, 'section', section, as_type(section, sh_type).sh_size);
            this.symbols(elf, section);
            this.relocs(elf, section);
            this.notes(elf, section);
            const changed = { ...section, sh_flags: section.sh_flags ^ goblin.SHF_WRITE,
                sh_size: section.sh_size ^ any_high(index) };
            if (index < FEW) this.write('goblin_put_section', (writer) => writer.put_section_header(index, changed));
        }
        this.ask('goblin_section', () => list.get(list.length));
    }

    dynamic(elf) {
        const put = (entries) => entries.map(fields).join('');
        if (!this.ask('goblin_dynamic_entries', () => elf.dynamic_section(), put)) return;
        const strings = this.ask('goblin_dynamic_strings', () => elf.dynamic_strings(), ({ range }) => fields(range));
        if (!strings) return;
        for (const tag of ['NULL', 'NEEDED', 'STRTAB', 'SONAME', 'FLAGS_1'].map((name) => goblin[`DT_${name}`])) {
            const value = this.ask('goblin_dynamic_value', () => elf.dynamic_value(tag));
            if (value !== undefined) this.string(strings, value);
        }
    }

    whole(elf) {
        const whole = elf.whole(), far = (1n << 64n) - 1n;
        this.lines.push(`goblin_whole_header${fields(whole.header)}`);
        const sections = this.ask('goblin_section_count', () => whole.section_headers(), length);
        if (!sections) return;
        for (const section of sections.from(0, WHOLE)) this.ask('goblin_section', () => section);
        this.ask_each('goblin_section', [sections.length, far], (index) => whole.section_header(index));
        this.ask('goblin_names_section', () => whole.shdr_strtab(), ({ range }) => fields(range));
        const segments = this.ask('goblin_segment_count', () => whole.program_headers(), length);
        if (!segments) return;
        for (const segment of segments.from(0, WHOLE)) this.ask('goblin_segment', () => segment);
        this.ask_each('goblin_segment', [segments.length, far], (index) => whole.program_header(index));
    }

    writing({ header }, length) {
        const { e_type, e_entry } = header, changed = { ...header, e_type: e_type ^ 1, e_entry: e_entry ^ 1n };
        const high = { ...changed, e_entry: BigInt.asUintN(64, changed.e_entry + any_high(1)) };
        for (const given of [changed, high, { ...high, ei_data: 3 }])
            this.write('goblin_put_header', (writer) => writer.put_header(given));
        for (const width of [1, 2, 4, 8]) {
            this.write('goblin_put_number', (writer) => writer.put_number(Math.floor(length / 2), width, 0x7f));
            this.write('goblin_put_number', (writer) => writer.put_number(length - 4, width, 0x7f00));
        }
    }

    numbers(elf, length) {
        const half = BigInt(Math.floor(length / 2));
        for (let width = 0; width <= 9; width++) {
            const number = (place) =>
                ([1, 2, 4, 8].includes(width) ? elf.number(BigInt.asUintN(64, place), width) : undefined);
            this.ask_each('goblin_number', [0n, half, 2n * half - 4n], number);
        }
    }

    file(content, number) {
        this.lines.push(`file ${number}`);
        const elf = this.ask('goblin_file', () => goblin.Elf.parse(content), ({ header }) => fields(header)
            + ` ${goblin.class_to_str(header.ei_class)} ${goblin.et_to_str(header.e_type)}`
            + ` ${goblin.machine_to_str(header.e_machine)}`);
        if (!elf) return;
        this.elf = elf;
        this.content = content;
        this.segments(elf);
        this.sections(elf);
        this.dynamic(elf);
        this.whole(elf);
        this.writing(elf, content.length);
        this.numbers(elf, content.length);
    }
}

// Returns the next number of a sequence that is the same in each run.
let state = 88172645463325252n;
function any(below) {
    for (const [by, left] of [[13n, true], [7n, false], [17n, true]])
        state ^= BigInt.asUintN(64, left ? state << by : state >> by);
    return Number(state % BigInt(below));
}

// Returns a copy with some bytes changed, most of them among those of offsets and sizes, or with the end cut off.
function damaged(content) {
    const copy = Buffer.from(any(4) ? content : content.subarray(0, any(content.length + 1)));
    for (let changes = any(9); changes > 0 && copy.length > 0; changes--) {
        const near = any(2) ? any(Math.min(64, copy.length)) : copy.length - 1 - any(Math.min(0x800, copy.length));
        copy[any(3) ? any(copy.length) : near] = any(2) ? [0, 1, 0x7f, 0x80, 0xff][any(5)] : any(256);
    }
    return copy;
}

// Compares what both print of files in a folder, several at a time.
function compare(paths) {
    const { stdout, status } = spawnSync(dump, paths, { maxBuffer: 1 << 30 });
    assert.equal(status, 0, 'dump.c');
    const own = new Dump();
    paths.forEach((path, i) => own.file(readFileSync(path), i + 1));
    const [wanted, found] = [stdout.toString().split('\n'), [...own.lines, '']];
    const differs = wanted.findIndex((line, i) => line !== found[i]);
    if (differs >= 0 || wanted.length !== found.length) {
        console.log(`line ${differs} differs:\n  C:  ${wanted[differs]}\n  JS: ${found[differs]}`);
        process.exit(1);
    }
    return found;
}

await goblin.default();
check_module();
check_layout();
check_kinds();
const folder = mkdtempSync(join(tmpdir(), 'goblin-'));
try {
    let lines = compare(files).length, refusals = 0, copies = 0;
    for (const file of files) {
        const content = readFileSync(file);
        const paths = Array.from({ length: content.length > 0x4000 ? COPIES / 10 : COPIES },
            (_, i) => join(folder, `${i}`));
        for (const path of paths) writeFileSync(path, damaged(content));
        const compared = compare(paths);
        copies += paths.length;
        lines += compared.length;
        refusals += compared.filter((line) => line.includes(' kind=')).length;
    }
    assert.ok(copies >= 4 * COPIES && refusals > copies && lines > 100 * copies, 'too little was compared');
    console.log(`goblin.js returns the same as C for ${files.length} files and ${copies} damaged copies: `
        + `${lines} lines, ${refusals} refusals`);
} finally {
    rmSync(folder, { recursive: true });
}
