// What a person asks first of a file, as plain data. The rules are those of checks/files/facts.py, whose table it is
// tested against, as the Python package is. The fields, entries and strings are those of proved calls. What they mean,
// and what the bytes of a note say, is not proved.
import * as goblin from '../web/goblin.js';
import { read_or } from './file.js';
import { once, text_of, two_digits } from './text.js';

const { DT_BIND_NOW, DT_DEBUG, DT_FLAGS, DT_FLAGS_1, DT_JMPREL, DT_REL, DT_RELA, ET_CORE, ET_DYN, ET_EXEC, ET_REL, PF_W,
    PF_X, PT_INTERP, SHT_NOBITS, SHT_NOTE, SHT_REL, SHT_RELA, SHT_SYMTAB } = goblin;
// The most that is read: sections, segments, entries or tables of relocations, notes, bytes of a text, of a build ID,
// of .comment or the marks of a note, and of strings, names of canaries, and relocations. A fact that needs more is
// unknown.
const MOST_SECTIONS = 1 << 20, MOST_SEGMENTS = 1 << 17, MOST_ENTRIES = 4096, MOST_NOTES = 1 << 16, MOST_TEXT = 4095,
    MOST_ID = 64, MOST_COMMENT = 1 << 16, MOST_STRINGS = 1 << 28, MOST_NAMES = 64, MOST_RELOCATIONS = 1 << 22;
const BUILD_ID = 3, PROPERTY = 5, LINKER = /^(Linker:|LLD|GNU ld|GNU gold|mold)/;
const CANARY = /__stack_chk_(?:fail_local|fail|guard)(?:@[^\0]{0,255})?/g;
// The property that marks control-flow enforcement, and the names of its bits.
const X86 = [0xc0000002n, ['IBT', 'SHSTK']], AARCH64 = [0xc0000000n, ['BTI', 'PAC']];
const MARKS = { [goblin.EM_386]: X86, [goblin.EM_X86_64]: X86, [goblin.EM_AARCH64]: AARCH64 };
// By machines the type of a relocation that writes what a function returns, R_.._IRELATIVE of their psABIs, as elf.h of
// glibc 2.36 has it.
const IRELATIVE = { [goblin.EM_SPARC]: [249], [goblin.EM_386]: [42], [goblin.EM_SPARC32PLUS]: [249],
    [goblin.EM_PPC]: [248], [goblin.EM_PPC64]: [248], [goblin.EM_S390]: [61], [goblin.EM_ARM]: [160],
    [goblin.EM_SPARCV9]: [249], [goblin.EM_X86_64]: [37], [goblin.EM_AARCH64]: [188, 1032], [goblin.EM_RISCV]: [58],
    [goblin.EM_LOONGARCH]: [12] };
// What some kinds of files do not have.
const LOADED = ['interpreter', 'pie', 'nx', 'relro', 'bind_now', 'writable_code'];
const LACKS = { object: LOADED, other: LOADED, core: [...LOADED, 'canary', 'control_flow', 'compilers', 'stripped'],
    'debug file': [...LOADED, 'soname', 'rpath', 'runpath', 'needed', 'canary', 'control_flow'] };

// Thrown where a fact needs more than is read.
class Unknown extends Error {}
function within(most, found) {
    if (found.length > most) throw new Unknown();
    return found;
}
// Returns the result of reading a part, or nothing if it is refused or needs more than is read.
function known(read) {
    try {
        return read_or(undefined, read);
    } catch (error) {
        if (!(error instanceof Unknown)) throw error;
        return undefined;
    }
}
const of_type = (file, type) => file.segments().filter(({ p_type }) => p_type === type);
const is_static = (file) => file.kind === 'program' && of_type(file, PT_INTERP).length === 0;
// (a call may have moved the bytes of the file)
const bytes_of = ({ elf: { bytes } }, { offset, size }) => bytes.subarray(Number(offset), Number(offset + size));

// Returns the entries of the dynamic section, unless its bytes are in another file.
function entries_of({ elf }) {
    const segment = elf.program_headers().find(({ p_type }) => p_type === goblin.PT_DYNAMIC);
    return segment?.p_filesz === 0n ? undefined : within(MOST_ENTRIES, elf.dynamic_section(MOST_ENTRIES + 1));
}
const values_of = (entries, tag) => entries.filter(({ d_tag }) => d_tag === tag).map(({ d_val }) => d_val);
const has_flag = (entries, tag, flag) => ((values_of(entries, tag)[0] ?? 0n) & flag) !== 0n;

function kind_of({ elf: { header: { e_type } }, sections, entries }) {
    if (![ET_EXEC, ET_DYN].includes(e_type)) return { [ET_REL]: 'object', [ET_CORE]: 'core' }[e_type] ?? 'other';
    const loaded = (known(sections) ?? []).slice(1).filter(({ sh_flags }) => sh_flags & goblin.SHF_ALLOC)
        .map(({ sh_type }) => sh_type);
    if (loaded.includes(SHT_NOBITS) && loaded.every((type) => type === SHT_NOBITS || type === SHT_NOTE))
        return 'debug file';
    const all = e_type === ET_EXEC ? [] : known(entries);
    if (!all) return 'program or library';
    return e_type === ET_EXEC || values_of(all, DT_DEBUG).length > 0 || has_flag(all, DT_FLAGS_1, goblin.DF_1_PIE)
        ? 'program' : 'library';
}

// Yields the segments of notes, and then the sections of notes.
function *holders_of(file) {
    yield* of_type(file, goblin.PT_NOTE);
    yield* file.sections().filter(({ sh_type }) => sh_type === SHT_NOTE);
}

// Returns the range of the first note GNU of a type.
function note_of(file, type) {
    let left = MOST_NOTES;
    for (const holder of holders_of(file)) {
        // (a segment or section counts as a note, which comes before its own)
        if (left-- === 0) throw new Unknown();
        const { notes, refusal } = file.elf.readable_notes_bytes(holder, left + 1);
        const found = notes.slice(0, left).find((note) => note.n_type === type && note.name_range.size === 4n
            && String.fromCharCode(...note.name) === 'GNU\0');
        if (found) return found.desc_range;
        left -= within(left, notes).length;
        if (refusal) throw refusal;
    }
    return null;
}

function build_id(file) {
    const range = note_of(file, BUILD_ID);
    return range && Array.from(within(MOST_ID, bytes_of(file, range)), two_digits).join('');
}

function control_flow(file) {
    const { elf } = file, [wanted, names] = MARKS[elf.header.e_machine] ?? [], width = elf.is_64() ? 8n : 4n;
    const { offset, size } = (names && note_of(file, PROPERTY)) ?? { size: 0n };
    within(MOST_COMMENT, { length: size });
    for (let at = 0n, length; at + 12n <= size; at += 8n + (length + width - 1n) / width * width) {
        const [type, bits] = [at, at + 8n].map((place) => elf.number(offset + place, 4));
        length = elf.number(offset + at + 4n, 4);
        if (type === wanted && length >= 4n) return names.filter((_, bit) => bits >> BigInt(bit) & 1n);
    }
    return names ? [] : null;
}

// Returns the text at an offset of a string table, or nothing past its end.
function text_at(strtab, offset) {
    const bytes = strtab.get_start(offset, MOST_TEXT + 1);
    return bytes && text_of(within(MOST_TEXT, bytes));
}

function interpreter(file) {
    const [segment] = of_type(file, PT_INTERP);
    return segment ? text_at(file.elf.strtab(segment), 0) : null;
}

// Returns the texts of the entries with a tag, at most a number, and the text of the first one.
function texts(file, tag, most) {
    const found = file.entries() && values_of(file.entries(), tag).slice(0, most)
        .map((offset) => text_at(file.strings(), offset));
    return found?.includes(undefined) ? undefined : found;
}
function text(file, tag) {
    const found = texts(file, tag, 1);
    return found && (found[0] ?? null);
}

function bind_now(file) {
    const all = is_static(file) ? [] : file.entries();
    return all && (all.length === 0 ? null : values_of(all, DT_BIND_NOW).length > 0
        || has_flag(all, DT_FLAGS, goblin.DF_BIND_NOW) || has_flag(all, DT_FLAGS_1, goblin.DF_1_NOW));
}

// Yields the tables of relocations that are loaded, as sections, each with whether calls go through all that it writes.
function *tables_of(file) {
    const all = file.entries(), value_of = (tag) => all && values_of(all, tag)[0];
    for (const [tag, size_tag, sh_type] of [[DT_RELA, goblin.DT_RELASZ, SHT_RELA], [DT_REL, goblin.DT_RELSZ, SHT_REL],
        [DT_JMPREL, goblin.DT_PLTRELSZ, value_of(goblin.DT_PLTREL) === DT_RELA ? SHT_RELA : SHT_REL]]) {
        const address = value_of(tag), sh_size = value_of(size_tag);
        if (address === undefined || !sh_size) continue;
        const sh_offset = file.elf.address_to_offset(address);
        if (sh_offset === undefined) throw new Unknown();
        yield [{ sh_type, sh_offset, sh_size }, tag === DT_JMPREL];
    }
    if (all?.length > 0) return;
    if (!all || of_type(file, PT_INTERP).length > 0 || file.sections().length === 0) throw new Unknown();
    const loaded = file.sections().slice(1).filter(({ sh_type, sh_flags }) =>
        [SHT_REL, SHT_RELA].includes(sh_type) && sh_flags & goblin.SHF_ALLOC);
    for (const section of within(MOST_ENTRIES, loaded)) yield [section, false];
}

// Reports whether a range holds each slot that calls go through and that relocations write, or nothing for a machine
// whose numbers are not here.
function holds_slots(file, start, end) {
    const types = IRELATIVE[file.elf.header.e_machine], width = file.elf.is_64() ? 8n : 4n;
    let left = MOST_RELOCATIONS;
    if (!types) return undefined;
    for (const [table, is_called] of tables_of(file)) {
        const relocs = within(left, file.elf.relocs(table));
        left -= relocs.length;
        for (const { r_offset, r_type } of relocs) {
            if ((is_called || types.includes(r_type)) && (r_offset < start || r_offset + width > end)) return false;
        }
    }
    return true;
}

// (loaders take the last segment of this type)
function relro(file) {
    const segment = of_type(file, goblin.PT_GNU_RELRO).at(-1), is_now = segment ? bind_now(file) : 'no';
    if (!segment || is_now === undefined) return is_now;
    const { p_vaddr, p_memsz } = segment,
        is_held = is_now !== false && holds_slots(file, p_vaddr, p_vaddr + p_memsz);
    return is_held === undefined ? undefined : is_held ? 'full' : 'partial';
}

// Returns the first symbol table of a type, if there is one.
function symtab_of({ elf }, type) {
    const found = elf.section_by_type(type);
    return found && elf.symtab(found.section);
}

// Reports whether a symbol of a table is one of a canary, with or without a version, or null if there is no table.
function has_canary(file, symtab) {
    if (!symtab) return null;
    symtab.strtab.get_start(0, 0); // (throws if the strings are not all in the file)
    const strings = within(MOST_STRINGS, bytes_of(file, symtab.strtab.range)), names = new Set();
    for (const [name] of new TextDecoder('latin1').decode(strings).matchAll(CANARY)) {
        if (names.has(name)) continue;
        within(MOST_NAMES, { length: names.add(name).size });
        if (symtab.symbol_by_name(name)) return true;
    }
    return false;
}

function canary(file) {
    const found = [SHT_SYMTAB, goblin.SHT_DYNSYM]
        .map((type) => known(() => has_canary(file, symtab_of(file, type))));
    if (found.includes(true)) return true;
    if (found.includes(undefined)) return undefined;
    return found[0] === false || (found[1] === false && !is_static(file)) ? false : undefined;
}

function compilers(file) {
    const section = file.elf.section('.comment'), found = new Set();
    const strtab = file.elf.strtab(section && file.elf.range(section) && section);
    within(MOST_COMMENT, { length: strtab.range.size });
    for (let at = 0, bytes; (bytes = strtab.get_bytes(at)); at += bytes.length + 1) found.add(text_of(bytes));
    return [...found].filter((string) => string && !LINKER.test(string));
}

function is_cut(file) {
    const parts = read_or(undefined, () => [file.sections(), file.segments()]);
    return !parts || parts[0].slice(1).concat(file.kind === 'debug file' ? [] : parts[1])
        .some((part) => known(() => [file.elf.range(part)]) === undefined);
}

function sizes({ sections }) {
    const found = { code: 0n, data: 0n, read_only: 0n, zeros: 0n, not_loaded: 0n };
    for (const { sh_type, sh_flags, sh_size } of sections().slice(1)) {
        const loaded = sh_flags & goblin.SHF_EXECINSTR ? 'code' : sh_flags & goblin.SHF_WRITE ? 'data' : 'read_only';
        found[sh_type === SHT_NOBITS ? 'zeros' : sh_flags & goblin.SHF_ALLOC ? loaded : 'not_loaded'] += sh_size;
    }
    return found;
}

// What reads each fact. It returns `undefined` for what is unknown, or throws a refusal.
const RULES = {
    kind: (file) => file.kind, build_id, interpreter, soname: (file) => text(file, goblin.DT_SONAME),
    rpath: (file) => text(file, goblin.DT_RPATH), runpath: (file) => text(file, goblin.DT_RUNPATH),
    needed: (file) => texts(file, goblin.DT_NEEDED),
    pie: ({ kind, elf: { header } }) => (kind === 'program or library' ? undefined
        : kind === 'program' && header.e_type === goblin.ET_DYN),
    nx: (file) => of_type(file, goblin.PT_GNU_STACK).length > 0
        && of_type(file, goblin.PT_GNU_STACK).every(({ p_flags }) => !(p_flags & PF_X)),
    relro, bind_now,
    writable_code: (file) => of_type(file, goblin.PT_LOAD).some(({ p_flags }) => p_flags & PF_W && p_flags & PF_X),
    canary, control_flow, compilers, stripped: ({ elf }) => !elf.section_by_type(SHT_SYMTAB), cut: is_cut,
    sections: ({ elf }) => elf.section_headers().length, segments: ({ elf }) => elf.program_headers().length,
    symbols: (file) => symtab_of(file, SHT_SYMTAB)?.length ?? 0,
    dynamic_symbols: (file) => symtab_of(file, goblin.SHT_DYNSYM)?.length ?? 0, sizes,
};

/** Returns the facts of a file. Those in `unknown` can't be read, since the file does not hold what says
 * them, and are null. So are those that such a file does not have. */
export function facts(elf) {
    const file = { elf, sections: once(() => [...within(MOST_SECTIONS, elf.section_headers())]),
        segments: once(() => [...within(MOST_SEGMENTS, elf.program_headers())]),
        strings: once(() => elf.dynamic_strings()) };
    file.entries = once(() => entries_of(file));
    file.kind = kind_of(file);
    const values = Object.entries(RULES).map(([name, rule]) =>
        [name, LACKS[file.kind]?.includes(name) ? null : known(() => rule(file))]);
    return { ...Object.fromEntries(values.map(([name, value]) => [name, value ?? null])),
        unknown: values.filter(([, value]) => value === undefined).map(([name]) => name) };
}
