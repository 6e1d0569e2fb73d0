/** ELF files in JavaScript, read by `goblin_c.wasm`: the library of a verified port of goblin's ELF layer, as one
 * WebAssembly module with a 64-bit memory and no imports.
 *
 * `Elf.parse` copies a file's bytes into a memory of its own and reads its header. Everything else is read on demand.
 * The library's results are proved, and this file passes them on.
 *
 * Names are goblin's for what goblin has, and else those of the crate `goblin_rs`, with these exceptions:
 * - The calls of a `Writer` are methods of `Header` in Rust, which take a `&mut [u8]`.
 * - `segment_holds(segment, section)` is `ProgramHeader::holds` in Rust, `note_type_to_str(note)` is
 *   `Note::type_to_str`, and `GoblinError` is `Error`.
 * - `find` of a list takes a function, and `at` an index that may be negative, as those of an array do.
 *
 * Numbers, items and errors:
 * - A number that has 64 bits in `goblin.h` is always a BigInt, whatever its value, and so are `sh_name`, `st_name`,
 *   `st_shndx` and `r_sym`. Every other number is a Number. Bytes are copies of the file's. The flags SHF_ and the
 *   indices SHN_ are BigInts, as `sh_flags` and `st_shndx` are, and so are the tags DT_ and the flags DF_. Other
 *   numbers among the constants are Numbers, so `e_shstrndx === SHN_XINDEX` is always false: write
 *   `e_shstrndx === Number(SHN_XINDEX)`.
 * - An index, an offset or an address that a call takes is a Number or a BigInt. It must be a whole number from 0 to
 *   2^64 - 1, or the call throws a `RangeError`. Only `at` of a list takes other Numbers, as that of an array does. The
 *   sum of two numbers of a file may be too large: `BigInt.asUintN(64, sum)` wraps it around, as a sum of two
 *   `uint64_t` in C does.
 * - A header that a call takes need not be one of the file: `{ ...section, sh_offset, sh_size }` is one, too.
 * - Items are plain objects. JSON has no BigInts and no bytes, so `JSON.stringify` writes a BigInt as a string of its
 *   decimal digits, which `BigInt` reads back, and bytes as a string of hexadecimal digits. For an object that is made
 *   from an item, such as `{ ...section }`, pass `json`, too: `JSON.stringify({ ...section }, json)`.
 * - The call that makes a list throws if the list can't be read. So a list has all of its items.
 *
 * ```js
 * import init, { Elf } from './goblin.js';
 * await init();
 * const elf = Elf.parse(bytes);
 * for (const section of elf.section_headers()) console.log(elf.section_name(section), section.sh_size);
 * ``` */
import {
    DF_1_PIE, DT_FLAGS_1, DT_NEEDED, DT_RPATH, DT_RUNPATH, DT_SONAME, DT_SYMTAB, ET_DYN, ET_REL,
    PT_DYNAMIC, PT_GNU_EH_FRAME, PT_GNU_RELRO, PT_GNU_STACK, PT_INTERP, PT_LOAD, PT_NOTE, PT_PHDR, PT_TLS, SHF_ALLOC,
    SHF_TLS, SHN_LORESERVE, SHN_UNDEF, SHN_XINDEX, SHT_DYNSYM, SHT_NOBITS, SHT_NOTE, SHT_REL, SHT_RELA, SHT_SYMTAB,
    STT_FUNC, STT_GNU_IFUNC, STT_NOTYPE, STT_OBJECT, VERSION,
} from './constants.js';
import { CALLS, Item, Kind, STRUCTS } from './interface.js';

export * from './constants.js';
export { Item, Kind };

/** An index, an offset or an address. @typedef {number | bigint} Unsigned */
/** A number of bytes. @typedef {1 | 2 | 4 | 8} Width */
/** A text, of which the UTF-8 is compared, or bytes. @typedef {string | Uint8Array} Name */
/** A header of a section or a segment. @typedef {SectionHeader | ProgramHeader} Part */
/** A function of an item and its index. @typedef {(item: T, index: number) => R} Each<T, R> */

/** A note.
 * @typedef {object} Note
 * @property {number} n_type its type, whose meaning depends on the name: see `note_type_to_str`
 * @property {Range} name_range the range of its name, without its last byte, zero in most files
 * @property {Range} desc_range the range of its descriptor
 * @property {bigint} next the offset to read the next note at
 * @property {string} name its name, decoded at each access
 * @property {Uint8Array} desc its descriptor, copied at each access */

/** A note as bytes. Its name need not be UTF-8. `name_range` is that of the whole name.
 * @typedef {object} NoteBytes
 * @extends {Omit<Note, 'name'>}
 * @property {Uint8Array} name its whole name, which ends with a zero byte in most files, copied at each access */

/** A note of all sections or segments. Its name need not be UTF-8. `name_range` is that of the whole name.
 * @typedef {object} AnyNote
 * @extends {Omit<Note, 'name'>}
 * @property {string | undefined} name its name without the zero bytes at its end, decoded at each access, or
 *   `undefined` if it is not UTF-8
 * @property {Uint8Array} name_bytes its whole name, copied at each access */

// ---- the structs of the library ----

// How a little-endian number is read and written, by its number of bytes.
const WIDTHS = {
    1: { get: (view, offset) => view.getUint8(offset), set: 'setUint8' },
    2: { get: (view, offset) => view.getUint16(offset, true), set: 'setUint16' },
    4: { get: (view, offset) => view.getUint32(offset, true), set: 'setUint32' },
    8: { get: (view, offset) => view.getBigUint64(offset, true), set: 'setBigUint64' },
    s: { get: (view, offset) => view.getBigInt64(offset, true), set: 'setBigInt64' },
};

// The structs of goblin.h. (Some fields are BigInts here and have fewer than 8 bytes there.)
const NUMBER = { size: 8, fields: [['value', 0, 8, 'bigint']] };
const records = Object.fromEntries(Object.entries({ ...STRUCTS, number: NUMBER })
    .map(([kind, { size, fields }]) => [kind, { size, fields: fields.map(([name, offset, width, type]) => {
        const { get, set } = WIDTHS[width], is_cut = type === 'bigint' && width < 8;
        return { name, offset, width, type, set, get: is_cut ? (view, at) => BigInt(get(view, at)) : get,
            pack: is_cut ? Number : (value) => value };
    }) }]));

// Reads a struct into an object. (It is faster to add toJSON before the fields, and to no object that only this file
// reads.)
function read(view, start, { fields }, item = plain({})) {
    for (const field of fields) item[field.name] = field.get(view, start + field.offset);
    return item;
}

// Writes an object into a struct. Each number must fit its field: else other bits would be written.
function write(view, start, { fields }, item) {
    for (const { name, offset, type, get, set, pack } of fields) {
        const value = item[name];
        if (typeof value !== type) refuse(`a ${type} as ${name}`, value);
        view[set](start + offset, pack(value), true);
        if (get(view, start + offset) !== value) throw new RangeError(`${value} is no number for the field ${name}`);
    }
}

// Returns an argument as the library takes it: an unsigned integer of a number of bits.
function unsigned(number, bits) {
    if (typeof number !== 'number' && typeof number !== 'bigint') refuse('a number', number);
    const big = BigInt(number);
    if (big < 0n || big >> BigInt(bits) !== 0n)
        throw new RangeError(`${number} is not an unsigned number of ${bits} bits`);
    return bits === 64 ? big : Number(big);
}

// Returns what a value is, for a message.
const describe = (value) => (value === null ? 'null'
    : typeof value !== 'object' ? typeof value : value.constructor?.name ?? 'object');
const refuse = (expected, value) => { throw new TypeError(`${expected} is expected, not ${describe(value)}`); };

// Returns a field of an argument, or throws if the argument is no item that has it.
const field_of = (item, field, expected) => item?.[field] ?? refuse(expected, item);

// Returns a name as UTF-8. (The encoder takes anything for a text, and nothing for an empty one.)
const utf8 = (name) => encoder.encode(typeof name === 'string' ? name : refuse('a text', name));

// Returns the bytes of a name to look for, which need not be UTF-8. (Those of the file itself are copied, as passing
// them may move the file.)
const name_bytes = (name) => (TYPE.call(name) === 'Uint8Array' ? name.slice() : utf8(name));

// ---- JSON ----

// Returns a value as JSON has it: BigInts and bytes are strings of digits.
function json_value(value) {
    if (typeof value === 'bigint') return `${value}`;
    if (value instanceof Uint8Array) return Array.from(value, (byte) => byte.toString(16).padStart(2, '0')).join('');
    return value;
}

/** Writes BigInts and bytes as strings of digits. It is for `JSON.stringify`, as the second argument, for objects that
 * are made from items.
 * @type {(key: string, value: unknown) => unknown} */
export const json = (key, value) => json_value(value);

// The toJSON of an item, which JSON.stringify calls. It is not enumerable, so that loops over the fields and copies
// don't have it.
const TO_JSON = {
    value() { return Object.fromEntries(Object.entries(this).map(([name, value]) => [name, json_value(value)])); },
};
const plain = (item) => Object.defineProperty(item, 'toJSON', TO_JSON);

// ---- the module ----

const PAGE = 0x10000;

// How many items are read at once. And the most segments, and notes, in which a build ID is looked for.
const BATCH = 64;

// The offsets of what this file puts after the library's own data: the goblin_file_t, one whose header counts what is
// whole, a refusal, a result, an argument, a second argument, an index, a buffer for items or a text, and the file.
const STRUCT = 0, WHOLE = 0x50, WHY = 0xa0, ITEM = 0x100, ARGUMENT = 0x180, NAMES = 0x1d0,
    INDEX = 0x1e0, BUFFER = 0x200;
// Where a goblin_file_t has its header, after the address and the length.
const HEADER = 16;
const BUFFER_SIZE = 0x1800;
const FILE = BUFFER + BUFFER_SIZE;

// A module with only a 64-bit memory, and the message if an engine can't compile it.
const WITH_MEMORY = new Uint8Array([0, 0x61, 0x73, 0x6d, 1, 0, 0, 0, 5, 3, 1, 4, 0]);
const WITHOUT_MEMORY = 'this engine has no 64-bit WebAssembly memories (memory64): use Chromium 133, Firefox 134,'
    + ' Node.js 24 or later, or Node.js from 20.16 or 22.3 on with the flag --experimental-wasm-memory64';

const decoder = new TextDecoder('utf-8', { fatal: true, ignoreBOM: true });
const encoder = new TextEncoder();

// The module, and an instance of it for what is of no file.
let compiled, shared;

// Returns what `init` has made.
function ready(made) {
    if (!made) throw new Error('goblin.js is not ready: await init() first');
    return made;
}

// What a module for this file has: its memory, where its own data ends, and the calls of `goblin.h`.
const EXPORTS = ['memory', '__heap_base', ...CALLS];

// Throws if a module is not one for this file.
function check(module) {
    const both = 'take goblin.js and goblin_c.wasm of one version';
    const version = new WebAssembly.Instance(module, {}).exports.goblin_version?.();
    if (version !== VERSION)
        throw new Error(`goblin.js is for interface ${VERSION}, but the module has ${version ?? 'none'}: ${both}`);
    const exported = new Set(WebAssembly.Module.exports(module).map(({ name }) => name));
    const missing = EXPORTS.filter((name) => !exported.has(name));
    if (missing.length > 0) throw new Error(`the module has no ${missing.join(', ')}: ${both}`);
}

/** Loads the library, which all calls of this file need. Rejects if the engine has no 64-bit memories, if the module
 * can't be loaded, or if it has another interface than this file or lacks a call. If it rejects, a module that was
 * loaded before stays in use.
 * The source is the module (a `WebAssembly.Module`), its bytes or its `URL`, by default in the folder of this file.
 * @type {(source?: object) => Promise<void>} */
export default async function init(source = new URL('goblin_c.wasm', import.meta.url)) {
    if (!globalThis.WebAssembly?.validate(WITH_MEMORY)) throw new Error(WITHOUT_MEMORY);
    if (source === null || typeof source !== 'object') refuse('a module, its bytes or its URL', source);
    const content = source instanceof URL ? await load(source) : source;
    const module = content instanceof WebAssembly.Module ? content : await WebAssembly.compile(content);
    check(module);
    compiled = module;
    shared = new Memory(0);
}

async function load(url) {
    // (what an import names must be there for bundlers, also for those that bundle for browsers)
    const files = url.protocol === 'file:' && globalThis.process?.getBuiltinModule?.('node:fs/promises');
    if (files) return files.readFile(url);
    const response = await fetch(url);
    if (!response.ok) throw new Error(`the module can't be loaded from ${url}: status ${response.status}`);
    return response.arrayBuffer();
}

// (newer engines take the number of pages as a BigInt, as the standard has it, and older ones as a Number)
function grow(memory, pages) {
    try {
        memory.grow(BigInt(pages));
    } catch (error) {
        if (!(error instanceof TypeError)) throw error;
        memory.grow(pages);
    }
}

// Reports whether a value is an ArrayBuffer or a SharedArrayBuffer. Unlike `instanceof`, it knows those of other
// realms, such as frames.
const BUFFERS = [ArrayBuffer, globalThis.SharedArrayBuffer].filter((type) => type)
    .map(({ prototype }) => Object.getOwnPropertyDescriptor(prototype, 'byteLength').get);
const is_buffer = (value) => BUFFERS.some((length) => {
    try {
        return length.call(value) >= 0;
    } catch {
        return false;
    }
});

// Returns the name of a typed array's type, also of one of another realm, or undefined.
const TYPE = Object.getOwnPropertyDescriptor(Object.getPrototypeOf(Uint8Array.prototype), Symbol.toStringTag).get;

// Returns the bytes of a buffer or a view.
function bytes_of(value) {
    if (ArrayBuffer.isView(value)) return new Uint8Array(value.buffer, value.byteOffset, value.byteLength);
    if (is_buffer(value)) return new Uint8Array(value);
    throw new TypeError(
        `bytes must be an ArrayBuffer or a view of one, such as a Uint8Array, not ${describe(value)}`);
}

// What structs are called in messages, if not as in `records`.
const WORDS = { section: 'section header', segment: 'program header', reloc: 'relocation' };

// An instance of the library, whose memory holds a file's bytes.
class Memory {
    constructor(size) {
        this.calls = new WebAssembly.Instance(ready(compiled), {}).exports;
        this.base = Math.ceil(Number(this.calls.__heap_base.value) / 16) * 16;
        this.reserve(FILE + size);
        // The first arguments of each call that writes: the file's address and its length. And the goblin_file_t with
        // these, which others take.
        this.file = [this.address(FILE), BigInt(size)];
        this.file.forEach((number, i) => this.view.setBigUint64(this.base + STRUCT + i * 8, number, true));
        this.struct = this.address(STRUCT);
        this.end = FILE + size;
    }

    // Returns a memory with a copy of some bytes.
    static of(bytes) {
        const memory = new Memory(bytes.length);
        memory.whole.set(bytes);
        return memory;
    }

    // (an array that is made for each use takes longer than most calls)
    get whole() {
        if (this.file_bytes?.buffer !== this.calls.memory.buffer) this.file_bytes = this.part(FILE, this.end - FILE);
        return this.file_bytes;
    }

    // Returns the same memory with another goblin_file_t.
    with_struct(offset) { return Object.create(this, { struct: { value: this.address(offset) } }); }

    // The address of the header, and the header.
    get header_address() { return this.struct + BigInt(HEADER); }

    get header() { return read(this.view, Number(this.header_address), records.header); }

    // Grows the memory if this file's part of it has fewer bytes.
    reserve(size) {
        const missing = this.base + size - this.calls.memory.buffer.byteLength;
        if (missing > 0) grow(this.calls.memory, Math.ceil(missing / PAGE));
    }

    get view() {
        const { buffer } = this.calls.memory;
        if (this.cached?.buffer !== buffer) this.cached = new DataView(buffer);
        return this.cached;
    }

    part(offset, size) { return new Uint8Array(this.calls.memory.buffer, this.base + offset, size); }

    address(offset) { return BigInt(this.base + offset); }

    // Writes a struct at an offset, and returns its address.
    pass(offset, kind, item) {
        if (Object(item) !== item) refuse(`a ${WORDS[kind] ?? kind}`, item);
        write(this.view, this.base + offset, records[kind], item);
        return this.address(offset);
    }

    // Writes bytes after the file, and returns their address and length.
    pass_bytes(bytes) {
        this.reserve(this.end + bytes.length);
        this.part(this.end, bytes.length).set(bytes);
        return [this.address(this.end), BigInt(bytes.length)];
    }

    // Calls the library, and reports whether it returned GOBLIN_OK and not GOBLIN_END.
    status(name, ...args) {
        const status = this.calls[name](...args, this.address(WHY)) >>> 0;
        if (status > 1) throw GoblinError.of(this);
        return status === 0;
    }

    // Calls the library with the file, as `status` does.
    test(name, ...args) { return this.status(name, this.struct, ...args); }

    // Calls the library, and returns an item of a kind, or `undefined` for GOBLIN_END.
    call(name, kind, ...args) {
        return this.test(name, ...args, this.address(ITEM))
            ? read(this.view, this.base + ITEM, records[kind]) : undefined;
    }

    // Calls the library to find an item of a kind, and returns its index and the item, or `undefined` for GOBLIN_END.
    find(name, kind, ...args) {
        if (!this.test(name, ...args, this.address(INDEX), this.address(ITEM))) return undefined;
        const [{ value }, item] = [read(this.view, this.base + INDEX, records.number),
            read(this.view, this.base + ITEM, records[kind])];
        return { index: Number(value), [kind]: item };
    }

    // Calls the library to fill an array with the items from an index on, at most `most`, and returns them.
    call_many(name, kind, most, first, ...args) {
        const array = [this.address(BUFFER), BigInt(Math.min(Math.trunc(most), BATCH))];
        const { value } = this.call(name, 'number', ...args, first, ...array) ?? { value: 0n };
        const { size } = records[kind];
        return Array.from({ length: Number(value) },
            (_, i) => read(this.view, this.base + BUFFER + i * size, records[kind]));
    }

    // Calls the library to find the strings at some offsets, at most BATCH, and returns their ranges, up to the first
    // offset past the end of the table.
    strings(table, offsets) {
        const { size } = records.range, count = BigInt(offsets.length), ranges = BUFFER + BATCH * 8;
        offsets.forEach((offset, i) => this.view.setBigUint64(this.base + BUFFER + i * 8, offset, true));
        this.test('goblin_strings', this.pass(NAMES, 'range', table), this.address(BUFFER), count, this.address(ranges),
            count, this.address(ITEM));
        const { value } = read(this.view, this.base + ITEM, records.number);
        return Array.from({ length: Number(value) },
            (_, i) => read(this.view, this.base + ranges + i * size, records.range, {}));
    }

    // Returns the text that a call writes.
    text(name, ...args) {
        const size = Number(this.calls[name](...args, this.address(BUFFER), BigInt(BUFFER_SIZE)));
        return decoder.decode(this.part(BUFFER, size));
    }

    // Returns the part of a range that is inside the file.
    in_file(range) {
        this.calls.goblin_range_in_file(this.struct, this.pass(ARGUMENT, 'range', range), this.address(ITEM));
        return read(this.view, this.base + ITEM, records.range);
    }

    bytes({ offset, size }) { return this.part(FILE + Number(offset), Number(size)).slice(); }

    string({ offset, size }) { return decoder.decode(this.part(FILE + Number(offset), Number(size))); }
}

/** Why a file or a part of it is refused. */
export class GoblinError extends Error {
    constructor(message, { kind, item, first, second, third, fourth, offset }) {
        super(message);
        this.name = 'GoblinError';
        /** @type {number} the kind of the refusal, a number of `Kind` */
        this.kind = kind;
        /** @type {number} what it is about, a number of `Item`, or 0 if its kind alone says it */
        this.item = item;
        /** @type {bigint[]} the four numbers that belong to it, in the order that `Kind` lists; those that it does not
         *   have are 0. Of a number in a section or a segment, and of a part of a note that is read as bytes, `TOO_BIG`
         *   and `BAD_OFFSET` may be about the end of these instead. Then the offset of `BAD_OFFSET` counts from their
         *   start, that of a part from the note's. Of a list of headers `TOO_BIG` is about one header. */
        this.numbers = [first, second, third, fourth];
        /** @type {bigint} where in the file the thing begins that is refused: 0 for the header; the offset of a list of
         *   headers, even if one header in it is refused; the offset of a table, of a string table, or of the string,
         *   the note or the bytes; or of the field of a number that does not fit */
        this.offset = offset;
    }

    /** Returns the object that `JSON.stringify` writes.
     * @type {() => { name: string, message: string, kind: number, item: number, numbers: string[], offset: string }} */
    toJSON() {
        const { name, message, kind, item, numbers, offset } = this;
        return { name, message, kind, item, numbers: numbers.map(String), offset: String(offset) };
    }

    // Returns the refusal that a call has just written, with the library's text.
    static of(memory) {
        const why = read(memory.view, memory.base + WHY, records.refusal);
        return new GoblinError(memory.text('goblin_refusal_to_str', memory.address(WHY)), why);
    }

    // Returns the refusal of a relocation with the addend 0 where its section has none, or without one where it has
    // some. It is a refusal of the library at the offset after the other fields.
    static of_addend(memory, offset) {
        const numbers = { first: 0n, second: 0n, third: 0n, fourth: 0n };
        memory.pass(WHY, 'refusal', { kind: Kind.INTEGER_FIT, item: Item.ADDEND, ...numbers, offset });
        return GoblinError.of(memory);
    }

    // Returns a refusal of this file's own.
    static own(kind, message, offset, first, second = 0n) {
        return new GoblinError(message, { kind, item: 0, first, second, third: 0n, fourth: 0n, offset });
    }

    // Returns the refusal of a section with another type than expected.
    static of_type({ sh_type, sh_offset }, expected) {
        const message = `A section of type 0x${sh_type.toString(16)} (${sht_to_str(sh_type)}) holds no ${expected}`;
        return GoblinError.own(Kind.SECTION_TYPE, message, sh_offset, BigInt(sh_type));
    }
}

// ---- files ----

/** @type {WeakMap<Uint8Array, Memory>} */
const made = new WeakMap();

/** Returns an array for a file that is read part by part. It is in the library's memory, so `Elf.parse` copies nothing
 * of it, and a large file takes its size in memory once. Use it for one file.
 *
 * ```js
 * const bytes = array_for(file.size);
 * for (let at = 0; at < file.size; at += 1 << 24)
 *     bytes.set(new Uint8Array(await file.slice(at, at + (1 << 24)).arrayBuffer()), at);
 * const elf = Elf.parse(bytes);
 * ```
 * @type {(size: number) => Uint8Array} */
export function array_for(size) {
    const memory = new Memory(unsigned(size, 53)), bytes = memory.part(FILE, memory.end - FILE);
    made.set(bytes, memory);
    return bytes;
}

/** A file, with its header. Everything else is read on demand. A call throws a `GoblinError` if it reads a
 * damaged part. */
export class Elf {
    #memory;

    /** Reads the header of a file. Of a view it takes the bytes, whatever the type of its items. Throws a `TypeError`
     * for anything but a buffer or a view.
     *
     * A file has a memory of its own until nothing refers to it, of which a browser may have few: a page in Chromium
     * can hold at least 50 files at once. Throws a `RangeError` if there is no memory for another one.
     * @type {(bytes: ArrayBufferLike | ArrayBufferView) => Elf} */
    static parse(bytes) {
        const memory = made.get(bytes) ?? Memory.of(bytes_of(bytes));
        memory.status('goblin_file', ...memory.file, memory.struct);
        return new Elf(memory, memory.header);
    }

    /** The file's bytes, in the memory of the library, so they may be read and not changed. A call with a long name may
     * enlarge that memory. Then the array is empty, and this is another one.
     * @type {Uint8Array} */
    get bytes() { return this.#memory.whole; }

    constructor(memory, header) {
        if (!(memory instanceof Memory)) throw new TypeError('a file is read by Elf.parse, not by new Elf');
        this.#memory = memory;
        /** @type {Readonly<Header>} the header */
        this.header = Object.freeze(header);
        Object.defineProperty(this, 'header', { writable: false });
    }

    /** Returns the same file with a header that counts only the headers that are whole inside it. With it no list of
     * headers is refused, of a file that is cut or damaged, and lists that were not refused are the same. In most files
     * the header of the section names is one of the last: if it is cut off, sections have no names.
     *
     * ```js
     * const left = Elf.parse(cut).whole();
     * console.log(`${left.section_headers().length} section headers are left`);
     * ```
     * @type {() => Elf} */
    whole() {
        const memory = this.#memory.with_struct(WHOLE);
        if (this.#memory.struct !== memory.struct)
            memory.calls.goblin_whole_header(this.#memory.struct, memory.struct);
        return new Elf(memory, memory.header);
    }

    /** Returns a writer of records of this file into its bytes. It reads the bytes once.
     * @type {(bytes: Uint8Array) => Writer} */
    writer(bytes) { return new Writer(this.header, bytes); }

    #call(name, kind, ...args) { return this.#memory.call(name, kind, ...args); }

    /** Reports whether the file is of the 64-bit class. @type {() => boolean} */
    is_64() { return this.header.ei_class === 2; }
    /** Reports whether the file is little endian. @type {() => boolean} */
    little_endian() { return this.header.ei_data !== 2; }
    /** Returns the address at which the program starts, or 0. @type {() => bigint} */
    entry() { return this.header.e_entry; }

    /** Reports whether the file is a shared library: its type is ET_DYN, and it is no position-independent program,
     * which linkers mark by DF_1_PIE in the value of DT_FLAGS_1. Throws if the type is ET_DYN, and the program headers
     * or the dynamic section are not inside the file.
     * @type {() => boolean} */
    is_lib() { return this.header.e_type === ET_DYN && !((this.#values(DT_FLAGS_1).at(-1) ?? 0n) & DF_1_PIE); }

    /** Returns the program header at an index, or `undefined` past the end. Throws if the program headers are not
     * inside the file.
     * @type {(index: Unsigned) => ProgramHeader | undefined} */
    program_header(index) { return this.#call('goblin_segment', 'segment', unsigned(index, 64)); }

    /** Returns all program headers. Throws if they are not inside the file, or if `e_phnum` is 0xffff and the first
     * section header, which has their number, is not. Those of `whole()` are inside it.
     * @type {() => List<ProgramHeader>} */
    program_headers() { return new List(this.#memory, 'segment', []); }

    /** Returns the section header at an index, or `undefined` past the end. Throws if the section headers are not
     * inside the file.
     * @type {(index: Unsigned) => SectionHeader | undefined} */
    section_header(index) { return this.#call('goblin_section', 'section', unsigned(index, 64)); }

    /** Returns all section headers. Throws if they are not inside the file. Those of `whole()` are inside it.
     * @type {() => List<SectionHeader>} */
    section_headers() { return new List(this.#memory, 'section', []); }

    /** Returns the first section with a name, if there is one. The section header at index 0, which means no section,
     * is left out. Throws if the section headers or their names are not inside the file.
     * @type {(name: Name) => SectionHeader | undefined} */
    section(name) { return this.section_by_name(name, 1)?.section; }

    /** Returns the index and the header of the first section with a name, from an index on, if there is one. Throws as
     * `section` does.
     *
     * ```js
     * for (let at = elf.section_by_name('.group'); at; at = elf.section_by_name('.group', at.index + 1))
     *     console.log(at.section.sh_size);
     * ```
     * @type {(name: Name, first?: Unsigned) => { index: number, section: SectionHeader } | undefined} */
    section_by_name(name, first = 0) {
        const bytes = this.#memory.pass_bytes(name_bytes(name)),
            names = this.#memory.pass(NAMES, 'range', this.shdr_strtab().range);
        return this.#memory.find('goblin_section_by_name', 'section', names, ...bytes, unsigned(first, 64));
    }

    /** Returns the index and the header of the first section of a type, an SHT_ number, from an index on, if there is
     * one. Throws if the section headers are not inside the file.
     * @type {(sh_type: number, first?: Unsigned) => { index: number, section: SectionHeader } | undefined} */
    section_by_type(sh_type, first = 0) {
        return this.#memory.find('goblin_section_by_type', 'section', unsigned(sh_type, 32), unsigned(first, 64));
    }

    /** Returns the name of a section, or `undefined` if its offset is past the end of the section names. Throws if the
     * section headers or their names are not inside the file, or the name is not UTF-8.
     * @type {(section: SectionHeader) => string | undefined} */
    section_name(section) { return this.shdr_strtab().get(field_of(section, 'sh_name', 'a section header')); }

    /** Returns the range of the bytes of a section or a segment, or `undefined` if it has none in the file: its type is
     * SHT_NULL, SHT_NOBITS or PT_NULL, or its size is 0. Throws if the bytes are not inside the file. It needs all
     * fields of a header that a program makes.
     * @type {(part: Part) => Range | undefined} */
    range(part) {
        const kind = is_segment(part) ? 'segment' : 'section';
        return this.#memory.call(`goblin_${kind}_range`, 'range', this.#memory.pass(ARGUMENT, kind, part));
    }

    /** Returns the bytes of a section, or `undefined` if it has none in the file: its type is SHT_NULL or SHT_NOBITS,
     * or its size is 0. Throws if they are not inside the file. It needs all fields of a header that a program makes.
     * @type {(section: SectionHeader) => Uint8Array | undefined} */
    section_data(section) {
        const range = this.range(section);
        return range && this.#memory.bytes(range);
    }

    /** Returns the bytes of a segment, or `undefined` if it has none in the file: its type is PT_NULL, or `p_filesz`
     * is 0. Throws if they are not inside the file. It needs all fields of a header that a program makes.
     * @type {(segment: ProgramHeader) => Uint8Array | undefined} */
    segment_data(segment) { return this.section_data(segment); }

    /** Returns those bytes of a section or a segment that are inside the file. Their number is 0 if they start at the
     * end of the file or past it. Returns `undefined` only where `range` does. If `range` throws a `GoblinError`, there
     * are fewer bytes than `sh_size` or `p_filesz`:
     *
     * ```js
     * const left = elf.readable_data(section);
     * if (left && BigInt(left.length) < section.sh_size) console.log(`only ${left.length} bytes are left`);
     * ```
     * @type {(part: Part) => Uint8Array | undefined} */
    readable_data(part) {
        const { item, refusal } = attempt(() => this.range(part)),
            range = refusal ? this.#memory.in_file(range_of(part)) : item;
        return range && this.#memory.bytes(range);
    }

    /** Returns the sections of a segment, in the sense of `segment_holds`. The section header at index 0, which means
     * no section, is left out. Throws if the section headers are not inside the file.
     * @type {(segment: ProgramHeader) => SectionHeader[]} */
    segment_sections(segment) {
        return [...this.section_headers().from(1)].filter((section) => segment_holds(segment, section));
    }

    /** Returns the number in `width` bytes at an offset of the file, in the file's byte order. Throws if the bytes are
     * not inside the file, and a `RangeError` if the width is not 1, 2, 4 or 8.
     * @type {(offset: Unsigned, width: Width) => bigint} */
    number(offset, width) { return this.#call('goblin_number', 'number', unsigned(offset, 64), as_width(width)).value; }

    /** Returns the number in `width` bytes at an offset of a section or of a segment's bytes in the file, in the file's
     * byte order. The offset counts from their start. Throws if they are not inside the file, or the number is not
     * inside them. A section of type SHT_NOBITS has no bytes in the file, so no number is inside it. Throws a
     * `RangeError` if the width is not 1, 2, 4 or 8. Of a section header only `sh_type`, `sh_offset` and `sh_size` are
     * read, and of a program header only `p_offset` and `p_filesz`.
     *
     * ```js
     * const first_word = elf.number_in(section, 0, 4);
     * ```
     * @type {(part: Part, offset: Unsigned, width: Width) => bigint} */
    number_in(part, offset, width) {
        const argument = this.#memory.pass(ARGUMENT, 'range', range_of(part));
        return this.#call('goblin_number_in', 'number', argument, unsigned(offset, 64), as_width(width)).value;
    }

    /** Returns the offset in the file of the byte that is loaded at an address, or `undefined` if no byte of the file
     * is loaded there. It is that of the first segment of type PT_LOAD for which
     * `p_vaddr <= address < p_vaddr + p_filesz`. Throws if the program headers are not inside the file, or the file has
     * no byte at that offset.
     *
     * ```js
     * const start = elf.address_to_offset(elf.header.e_entry);
     * ```
     * @type {(address: Unsigned) => bigint | undefined} */
    address_to_offset(address) {
        return this.#call('goblin_address_to_offset', 'number', unsigned(address, 64))?.value;
    }

    /** Returns the string table of the section names. It is empty if the file has none: the index of its section is 0
     * or past the end, or that section has no bytes in the file. Throws if the section headers are not inside the file.
     * @type {() => Strtab} */
    shdr_strtab() { return new Strtab(this.#memory, range_of(this.#call('goblin_names_section', 'section') ?? NONE)); }

    /** Returns a section, or a segment's bytes in the file, as a string table. It is empty if there is none, if the
     * section's type is SHT_NOBITS, or if the size is 0. Of a section header only `sh_type`, `sh_offset` and `sh_size`
     * are read, and of a program header only `p_offset` and `p_filesz`.
     * @type {(part: Part | undefined) => Strtab} */
    strtab(part) { return new Strtab(this.#memory, range_of(part ?? NONE)); }

    /** Returns the section that a section links to by its `sh_link`, such as the string table of a symbol table.
     * Returns `undefined` if `sh_link` is 0 or past the end, or that section has no bytes in the file (SHT_NOBITS).
     * Throws if the section headers are not inside the file.
     * @type {(section: SectionHeader) => SectionHeader | undefined} */
    linked_section(section) {
        const index = unsigned(field_of(section, 'sh_link', 'a section header'), 64);
        return this.#call('goblin_linked_section', 'section', index);
    }

    /** Returns the symbols of a section of type SHT_SYMTAB or SHT_DYNSYM. Their names are in the linked section
     * (`linked_section`). If there is none, the string table is empty. Throws if the section has another type, or the
     * section headers or the symbols are not inside the file.
     * @type {(section: SectionHeader) => Symtab} */
    symtab(section) {
        if (!holds_symbols(section)) throw GoblinError.of_type(section, 'symbols');
        return new Symtab(this.#memory, range_of(section), this.strtab(this.linked_section(section)));
    }

    /** Returns the last symbol table (SHT_SYMTAB), if there is one. Few files have several. Throws if the section
     * headers or the symbols are not inside the file.
     * @type {() => Symtab | undefined} */
    syms() {
        const section = this.section_headers().filter(({ sh_type }) => sh_type === SHT_SYMTAB).at(-1);
        return section && this.symtab(section);
    }

    /** Returns the first symbol table for dynamic linking (SHT_DYNSYM), if there is one. Throws if `syms` does, and if
     * there is none, but the dynamic section has the address of symbols (DT_SYMTAB) or is not inside the file: only
     * section headers have their number, and many stripped files have none.
     * @type {() => Symtab | undefined} */
    dynsyms() {
        const found = this.section_by_type(SHT_DYNSYM), address = found ? undefined : this.#values(DT_SYMTAB).at(-1);
        if (address === undefined) return found && this.symtab(found.section);
        throw GoblinError.own(Kind.NOT_COUNTED, `No section has the number of symbols at 0x${address.toString(16)}`,
            this.#dynamic_range().offset, address);
    }

    /** Returns the relocations of a section of type SHT_RELA or SHT_REL. Throws if the section has another type, or the
     * relocations are not inside the file.
     * @type {(section: SectionHeader) => List<Reloc>} */
    relocs(section) {
        if (!holds_relocs(section)) throw GoblinError.of_type(section, 'relocations');
        const is_rela = section.sh_type === SHT_RELA;
        return new List(this.#memory, 'reloc', [Number(is_rela)], { range: range_of(section),
            convert: is_rela ? (item) => item : (item) => Object.assign(item, { r_addend: undefined }) });
    }

    /** Returns all relocation sections, each with the index of its section. Throws if the section headers or the
     * relocations of any section are not inside the file. If one section is damaged, `relocs` reads the others.
     * @type {() => [number, List<Reloc>][]} */
    shdr_relocs() {
        const sections = [...this.section_headers().entries()].filter(([, section]) => holds_relocs(section));
        return sections.map(([index, section]) => [index, this.relocs(section)]);
    }

    /** Returns the entries of the dynamic section up to the first DT_NULL or the section's end, at most `most`. There
     * are none if the file has no dynamic section. The section is the first segment of type PT_DYNAMIC. In a file
     * without program headers it is the first section of type SHT_DYNAMIC. Throws if it is not inside the file.
     *
     * ```js
     * for (const { d_tag, d_val } of elf.dynamic_section())
     *     if (d_tag === DT_NEEDED) console.log(elf.dynamic_strings().get(d_val));
     * ```
     * @type {(most?: number) => Dyn[]} */
    dynamic_section(most = Infinity) {
        const range = this.#dynamic_range(), all = [];
        while (range && all.length < most) {
            const argument = this.#memory.pass(ARGUMENT, 'range', range), left = most - all.length;
            const entries = this.#memory.call_many('goblin_dynamic_entries', 'dyn', left, BigInt(all.length), argument);
            all.push(...entries);
            if (entries.length < BATCH) break;
        }
        return all;
    }

    /** Returns the value of the first entry of the dynamic section with a tag, a DT_ number, or `undefined` if no entry
     * before the first DT_NULL has it. Throws if `dynamic_section` does.
     * @type {(tag: Unsigned) => bigint | undefined} */
    dynamic_value(tag) {
        const wanted = unsigned(tag, 64), range = this.#dynamic_range();
        const argument = range && this.#memory.pass(ARGUMENT, 'range', range);
        return range && this.#memory.find('goblin_dynamic_value', 'number', argument, wanted, 0n)?.number.value;
    }

    /** Returns the strings of the dynamic section: DT_STRTAB is their address, and DT_STRSZ their size. In a file
     * without program headers they are the section that the dynamic section links to. The string table is empty if
     * there is no dynamic section, one of these entries or the linked section is missing, or no segment loads the
     * address. Throws if `dynamic_section` does, or if the strings are not inside the file.
     * @type {() => Strtab} */
    dynamic_strings() {
        const range = this.#dynamic_range();
        const strings = range
            && this.#call('goblin_dynamic_strings', 'range', this.#memory.pass(ARGUMENT, 'range', range));
        return new Strtab(this.#memory, strings ?? range_of(NONE));
    }

    #dynamic_range() { return this.#call('goblin_dynamic', 'range'); }

    // Returns the values of the entries with a tag in the segment of type PT_DYNAMIC, as goblin has them.
    #values(tag) {
        if (!this.program_headers().some(({ p_type }) => p_type === PT_DYNAMIC)) return [];
        return this.dynamic_section().filter(({ d_tag }) => d_tag === tag).map(({ d_val }) => d_val);
    }

    // Returns the strings at some offsets, the values of entries with a tag. One that ends together with another one is
    // taken of that one: a hostile file has thousands, each of megabytes, and no byte is read for each of them.
    #dynamic_texts(tag, offsets) {
        const strings = offsets.length > 0 && this.dynamic_strings(), texts = [];
        let start = 0n, rest = new Uint8Array(), text;
        for (const [index, offset] of [...offsets.entries()].sort(([, a], [, b]) => (a < b ? -1 : 1))) {
            const passed = Number(offset - start), before = passed < rest.length && text_of(rest.subarray(0, passed));
            const bytes = typeof before === 'string' ? rest.subarray(passed) : strings.get_bytes(offset);
            if (!bytes) throw GoblinError.own(Kind.NO_STRING,
                `The value 0x${offset.toString(16)} of tag 0x${tag.toString(16)} has no string`,
                this.#dynamic_range().offset, tag, offset);
            text = typeof before === 'string' ? text.slice(before.length) : strings.get(offset);
            [start, rest, texts[index]] = [offset, bytes, text];
        }
        return texts;
    }

    /** Returns the names of the libraries that are needed (DT_NEEDED), in order. Throws if the program headers, the
     * dynamic section or its strings are not inside the file, or a name is not in the strings or is not UTF-8. (goblin
     * leaves such a name out.) These and the following calls go by the segment of type PT_DYNAMIC.
     * @type {() => string[]} */
    libraries() { return this.#dynamic_texts(DT_NEEDED, this.#values(DT_NEEDED)); }

    /** Returns the search paths of the libraries in older files (DT_RPATH). Each may hold several folders, with colons
     * between them. Throws if `libraries` does.
     * @type {() => string[]} */
    rpaths() { return this.#dynamic_texts(DT_RPATH, this.#values(DT_RPATH)); }

    /** Returns the search paths of the libraries (DT_RUNPATH), as `rpaths`. @type {() => string[]} */
    runpaths() { return this.#dynamic_texts(DT_RUNPATH, this.#values(DT_RUNPATH)); }

    /** Returns the name by which other files need this library (DT_SONAME), if it has one. As in goblin, a value of 0
     * is no name. Throws if `libraries` does.
     * @type {() => string | undefined} */
    soname() { return this.#dynamic_texts(DT_SONAME, this.#values(DT_SONAME).slice(-1).filter(Boolean))[0]; }

    /** Returns the path of the program interpreter, if there is one: the text of the last segment of type PT_INTERP
     * that has bytes. Throws if the program headers or the text are not inside the file, or it is not UTF-8.
     * @type {() => string | undefined} */
    interpreter() {
        const all = this.program_headers().filter(({ p_type, p_filesz }) => p_type === PT_INTERP && p_filesz > 0n);
        return all.length > 0 ? this.strtab(all.at(-1)).get(0) : undefined;
    }

    /** Returns the notes of a section or a segment. Throws if the alignment is neither 4 nor 8, a note is not inside
     * the file, or a name is not UTF-8, which `notes_bytes` reads. An alignment below 4 counts as 4. If a note is
     * damaged, `readable_notes` returns those before it.
     * @type {(part: Part) => Note[]} */
    notes(part) { return all_notes(this.readable_notes(part)); }

    /** Returns the notes of a section or a segment up to the first damaged one, at most `most`, and the error
     * of that one.
     * @type {(part: Part, most?: number) => { notes: Note[], refusal: GoblinError | undefined }} */
    readable_notes(part, most = Infinity) { return this.#read_notes(part, most, 'goblin_note_utf8', note); }

    /** Returns the notes of a section or a segment as bytes, so that names need not be UTF-8. Throws if the alignment
     * is neither 4 nor 8, or a note is not inside the section or the segment and the file: `item` of the error is the
     * part of it that is not. An alignment below 4 counts as 4. If a note is damaged, `readable_notes_bytes` returns
     * those before it:
     *
     * ```js
     * const decoder = new TextDecoder('latin1');
     * for (const { name, desc } of elf.notes_bytes(section)) console.log(decoder.decode(name), desc.length);
     * ```
     * @type {(part: Part) => NoteBytes[]} */
    notes_bytes(part) { return all_notes(this.readable_notes_bytes(part)); }

    /** Returns the notes of a section or a segment as bytes up to the first damaged one, at most `most`, and the error
     * of that one.
     * @type {(part: Part, most?: number) => { notes: NoteBytes[], refusal: GoblinError | undefined }} */
    readable_notes_bytes(part, most = Infinity) {
        return this.#read_notes(part, most, 'goblin_note_whole', note_bytes);
    }

    #read_notes(part, most, call, convert) {
        const notes = [], range = range_of(part), alignment = is_segment(part) ? part.p_align : part.sh_addralign;
        const { refusal } = attempt(() => {
            for (let next = range.offset; notes.length + 1 <= most; next = notes.at(-1).next) {
                const argument = this.#memory.pass(ARGUMENT, 'range', range);
                const fields = this.#call(call, 'note', argument, unsigned(alignment, 64), next);
                if (!fields) break;
                if (call === 'goblin_note_whole') fields.name_size = this.#whole_size(next, fields);
                notes.push(convert(this.#memory, fields));
            }
        });
        return { notes, refusal };
    }

    // Returns the size of the whole name of a note at an offset, which begins with this size. (The range that the
    // library returns is without the last byte of the name, if it has one.)
    #whole_size(offset, { name_size }) { return name_size > 0n ? name_size + 1n : this.number(offset, 4); }

    /** Returns the notes of all segments of type PT_NOTE: those that are loaded, and all of a core file. Others are in
     * sections alone, as the GNU build ID of a program in Go may be. Throws if the program headers are not inside the
     * file, or a note of any of these segments is damaged.
     * @type {() => AnyNote[]} */
    iter_note_headers() { return this.#segments_of_notes().flatMap((segment) => this.#any_notes(segment)); }

    /** Returns the notes of all sections of type SHT_NOTE. A file whose section headers are stripped, and a core file,
     * has none of these. Throws if the section headers are not inside the file, or a note of any of these sections is
     * damaged.
     * @type {() => AnyNote[]} */
    iter_note_sections() { return this.#sections_of_notes().flatMap((section) => this.#any_notes(section)); }

    #any_notes(part) { return all_notes(this.#read_notes(part, Infinity, 'goblin_note_whole', any_note)); }

    #segments_of_notes() { return this.program_headers().filter(({ p_type }) => p_type === PT_NOTE); }

    #sections_of_notes() { return this.section_headers().filter(({ sh_type }) => sh_type === SHT_NOTE); }

    /** Returns the build ID: the descriptor of the first note `GNU` of type NT_GNU_BUILD_ID of the segments of notes
     * or, if they have none, of the sections of notes. Returns `undefined` if there is none. Throws if the headers are
     * not inside the file, and then at the first damaged note. Of all these notes the first 65,536 are read.
     *
     * ```js
     * console.log(Buffer.from(elf.build_id() ?? []).toString('hex'));
     * ```
     * @type {() => Uint8Array | undefined} */
    build_id() {
        const range = this.#call('goblin_build_id', 'range');
        return range && this.#memory.bytes(range);
    }
}

// Calls a function, and returns what it returns or the refusal that it throws.
function attempt(read) {
    try {
        return { item: read(), refusal: undefined };
    } catch (error) {
        if (!(error instanceof GoblinError)) throw error;
        return { item: undefined, refusal: error };
    }
}

// Returns a number of bytes as the library takes it, if it reads numbers of that width.
function as_width(width) {
    const given = typeof width === 'number' ? width : describe(width);
    if (![1, 2, 4, 8].includes(width)) throw new RangeError(`the width must be the Number 1, 2, 4 or 8, not ${given}`);
    return BigInt(width);
}

const type_of = (section) => field_of(section, 'sh_type', 'a section header');

const holds_symbols = (section) => [SHT_SYMTAB, SHT_DYNSYM].includes(type_of(section));

const holds_relocs = (section) => [SHT_RELA, SHT_REL].includes(type_of(section));

// Reports whether a header is a program header, and not a section header.
function is_segment(part) {
    const is_one = part?.p_offset !== undefined;
    field_of(part, is_one ? 'p_offset' : 'sh_offset', 'a section header or a program header');
    return is_one;
}

// What has no bytes, in place of a section.
const NONE = { sh_offset: 0n, sh_size: 0n };

// Returns the range of a section or a segment in the file, which is empty for SHT_NOBITS, whatever its size.
function range_of(part) {
    const segment = is_segment(part);
    if (part.sh_type === SHT_NOBITS) return plain({ offset: 0n, size: 0n });
    return plain(segment ? { offset: part.p_offset, size: part.p_filesz }
        : { offset: part.sh_offset, size: part.sh_size });
}

const ranges_of = ({ name_offset, name_size, desc_offset, desc_size }) =>
    [plain({ offset: name_offset, size: name_size }), plain({ offset: desc_offset, size: desc_size })];

// What Node.js calls to print an object.
const INSPECT = Symbol.for('nodejs.util.inspect.custom');
// Prints the fields that are read at each access, too.
const SHOW_FIELDS = { value() { return { ...this }; } };

// Returns a function that returns a note, whose name is what a function makes of its bytes.
const note_of = (read) => (memory, fields) => {
    const [name_range, desc_range] = ranges_of(fields), { n_type, next } = fields;
    return Object.defineProperty(plain({
        n_type, name_range, desc_range, next,
        get name() { return read(memory.bytes(name_range)); },
        get desc() { return memory.bytes(desc_range); },
    }), INSPECT, SHOW_FIELDS);
};
const note = note_of((bytes) => decoder.decode(bytes)), note_bytes = note_of((bytes) => bytes),
    note_with_text = note_of(text_of);

function any_note(memory, fields) {
    const item = note_with_text(memory, fields), get = () => memory.bytes(item.name_range);
    return Object.defineProperty(item, 'name_bytes', { get, enumerable: true });
}

// Returns the text of bytes without the zero bytes at their end, or `undefined` if it is not UTF-8.
function text_of(bytes) {
    let end = bytes.length;
    while (end > 0 && bytes[end - 1] === 0) end--;
    try {
        return decoder.decode(bytes.subarray(0, end));
    } catch {
        return undefined;
    }
}

function all_notes({ notes, refusal }) {
    if (refusal) throw refusal;
    return notes;
}

// The sizes of records of 32-bit and 64-bit files.
const SIZES = { header: [52, 64], section: [40, 64], segment: [32, 56], symbol: [16, 24],
    rel: [8, 16], rela: [12, 24] };
// Where a field that is a BigInt and has fewer than 8 bytes is in a record of them.
const PLACES = { sh_name: [0n, 0n], st_name: [0n, 0n], st_shndx: [14n, 6n], r_sym: [4n, 8n] };

/** Writes records of a file into its bytes, in the class and byte order of its header. Each call changes the bytes of
 * one record, and no others. What it writes is read as the same record, unless section 0 has the number of headers and
 * the call changes it. Each call throws if there is no such record, it is not inside the bytes, or it does not fit the
 * class (a `RangeError` where it fits no class), and then writes nothing.
 *
 * ```js
 * const elf = Elf.parse(bytes), { index, section } = elf.section_by_name('.text');
 * elf.writer(bytes).put_section_header(index, { ...section, sh_flags: section.sh_flags | SHF_WRITE });
 * ``` */
export class Writer {
    #memory; #bytes; #header;

    constructor(header, bytes) {
        if (TYPE.call(bytes) !== 'Uint8Array')
            throw new TypeError(`a writer needs a Uint8Array, not ${describe(bytes)}`);
        this.#memory = Memory.of(bytes);
        this.#memory.pass(STRUCT + HEADER, 'header', header);
        this.#header = header;
        this.#bytes = bytes;
    }

    #of_class(pair) { return pair[Number(this.#header.ei_class === 2)]; }

    // Calls the library to write a number of bytes at an offset, and copies them. Returns whether it has written.
    #put(name, offset, size, ...args) {
        if (!this.#memory.status(name, ...this.#memory.file, ...args)) return false;
        this.#bytes.set(this.#memory.part(FILE + Number(offset), size), Number(offset));
        return true;
    }

    // Writes an item at an index of a list of records at an offset, unless it is refused for its addend. A number with
    // more bits than its field is refused by the library as a number of so many bytes.
    #put_item(kind, record, list, index, item, args = [], is_refused = false) {
        const memory = this.#memory, at = unsigned(index, 64), size = this.#of_class(SIZES[record]);
        const offset = list + at * BigInt(size), is_wide = (value, width) =>
            typeof value === 'bigint' && value >> BigInt(8 * width) > 0n && value <= LAST;
        const wide = records[kind].fields.find(({ name, width, type }) =>
            type === 'bigint' && width < 8 && is_wide(item?.[name], width));
        const given = wide ?? memory.pass(ITEM, kind, item),
            is_there = wide || is_refused ? memory.test(`goblin_${kind}`, ...args, at, memory.address(BUFFER)) : true;
        if (is_there && wide)
            this.put_number(offset + this.#of_class(PLACES[wide.name]), wide.width, item[wide.name]);
        if (is_there && is_refused)
            throw GoblinError.of_addend(memory, offset + BigInt(this.#of_class(SIZES.rel)));
        if (!is_there || !this.#put(`goblin_put_${kind}`, offset, size, memory.header_address, ...args, at, given))
            throw GoblinError.own(Kind.NO_ITEM, `There is no item ${index} to write`, list, at);
    }

    #put_number(name, start, offset, width, value, ...args) {
        const at = unsigned(offset, 64), is_whole = Number.isInteger(width) && width >= 0;
        const bytes = is_whole ? BigInt(width) : as_width(width),
            given = [this.#memory.header_address, ...args, at, bytes, unsigned(value, 64)];
        if (!this.#put(name, start + at, width, ...given)) throw GoblinError.own(Kind.NUMBER_WIDTH,
            `A number has 1, 2, 4 or 8 bytes, and not ${width}`, BigInt.asUintN(64, start + at), bytes);
    }

    /** Writes a header at the start of the bytes, in the class and byte order that it names. Writes the magic number,
     * too, and leaves the padding, the bytes 9 to 15. The writer uses the header that it was made with as before.
     * @type {(header: Readonly<Header>) => void} */
    put_header(header) {
        const item = this.#memory.pass(ITEM, 'header', header);
        this.#put('goblin_put_header', 0, SIZES.header[Number(header.ei_class === 2)], item);
    }

    /** Writes the section header at an index. @type {(index: Unsigned, section: SectionHeader) => void} */
    put_section_header(index, section) {
        this.#put_item('section', 'section', this.#header.e_shoff, index, section);
    }

    /** Writes the program header at an index. @type {(index: Unsigned, segment: ProgramHeader) => void} */
    put_program_header(index, segment) {
        this.#put_item('segment', 'segment', this.#header.e_phoff, index, segment);
    }

    /** Writes the symbol at an index of a section of type SHT_SYMTAB or SHT_DYNSYM. Throws if the section has another
     * type.
     * @type {(section: SectionHeader, index: Unsigned, symbol: Sym) => void} */
    put_symbol(section, index, symbol) {
        if (!holds_symbols(section)) throw GoblinError.of_type(section, 'symbols');
        const table = this.#memory.pass(ARGUMENT, 'range', range_of(section));
        this.#put_item('symbol', 'symbol', section.sh_offset, index, symbol, [table]);
    }

    /** Writes the relocation at an index of a section of type SHT_RELA or SHT_REL. Throws if the section has another
     * type, or if the relocation has an addend and those of the section have none, or the reverse.
     * @type {(section: SectionHeader, index: Unsigned, reloc: Reloc) => void} */
    put_reloc(section, index, reloc) {
        if (!holds_relocs(section)) throw GoblinError.of_type(section, 'relocations');
        const is_rela = section.sh_type === SHT_RELA, { r_addend } = Object(reloc),
            fields = Object(reloc) === reloc ? { ...reloc, r_addend: r_addend ?? 0n } : reloc;
        const args = [this.#memory.pass(ARGUMENT, 'range', range_of(section)), Number(is_rela)];
        // (the library refuses an addend of a section without addends, unless it is 0)
        this.#put_item('reloc', is_rela ? 'rela' : 'rel', section.sh_offset, index, fields, args,
            (r_addend === undefined) === is_rela && !r_addend);
    }

    /** Writes a number of `width` bytes at an offset. Throws if the width is not 1, 2, 4 or 8.
     * @type {(offset: Unsigned, width: Width, value: Unsigned) => void} */
    put_number(offset, width, value) { this.#put_number('goblin_put_number', 0n, offset, width, value); }

    /** Writes a number of `width` bytes at an offset of a section or of a segment's bytes in the file. The offset
     * counts from their start. Throws if they are not inside the bytes, the number is not inside them, or the width is
     * not 1, 2, 4 or 8.
     * @type {(part: Part, offset: Unsigned, width: Width, value: Unsigned) => void} */
    put_number_in(part, offset, width, value) {
        const range = range_of(part), argument = this.#memory.pass(ARGUMENT, 'range', range);
        this.#put_number('goblin_put_number_in', range.offset, offset, width, value, argument);
    }
}

/** Reports whether a segment holds a section, as `readelf -l` maps sections to segments.
 *
 * The section's range in the file, if it has one, must be inside the segment's. If it is loaded (SHF_ALLOC), its
 * addresses must be inside the segment's, too. Some segments hold only some sections:
 * - PT_PHDR holds none.
 * - PT_TLS holds only sections with SHF_TLS. Of these, PT_LOAD and PT_GNU_RELRO hold those with bytes in the file, and
 *   other segments hold none.
 * - PT_LOAD, PT_GNU_RELRO, PT_DYNAMIC, PT_GNU_EH_FRAME and PT_GNU_STACK hold only loaded sections, and so do the types
 *   from PT_GNU_SFRAME (0x6474e554) to PT_GNU_MBIND_HI (0x6474f554).
 * - An empty section is not held at the segment's end, nor at the start of PT_DYNAMIC or PT_NOTE, unless the segment is
 *   empty, too.
 *
 * This rule is not part of the library. It is compared with `readelf`, but not proved.
 * @type {(segment: ProgramHeader, section: SectionHeader) => boolean} */
export function segment_holds(segment, section) {
    field_of(segment, 'p_type', 'a program header');
    type_of(section);
    const { p_type, p_offset, p_filesz, p_vaddr, p_memsz } = segment,
        { sh_type, sh_offset, sh_addr, sh_size } = section;
    const first = sh_size === 0n && p_memsz !== 0n && [PT_DYNAMIC, PT_NOTE].includes(p_type) ? 1n : 0n;
    const lies_in = (before, size) => before >= first && (before < size || size === 0n) && before + sh_size <= size;
    return may_hold(segment, section)
        && (sh_type === SHT_NOBITS || lies_in(sh_offset - p_offset, p_filesz))
        && (!is_alloc(section) || lies_in(sh_addr - p_vaddr, p_memsz));
}

const is_alloc = ({ sh_flags }) => (sh_flags & SHF_ALLOC) !== 0n;

// Reports whether segments of this type hold sections of this kind.
function may_hold({ p_type }, section) {
    const is_tls = (section.sh_flags & SHF_TLS) !== 0n;
    switch (p_type) {
    case PT_PHDR: return false;
    case PT_TLS: return is_tls;
    case PT_LOAD: case PT_GNU_RELRO: return is_alloc(section) && !(is_tls && section.sh_type === SHT_NOBITS);
    case PT_DYNAMIC: case PT_GNU_EH_FRAME: case PT_GNU_STACK: return is_alloc(section) && !is_tls;
    default: return !is_tls && (p_type < 0x6474e554 || p_type > 0x6474f554 || is_alloc(section));
    }
}

/** A list in a file. The call that makes it reads the number of items, and throws if the list can't be read. An
 * iteration reads several items at a time. An item is read by `list[index]`, as from an array. Other methods of arrays,
 * `structuredClone`, `postMessage` and `deepEqual` of Node.js find no items in it: give them `[...list]`.
 * @template T
 * @index {T | undefined} */
export class List {
    #memory; #kind; #args; #range; #convert; #length;

    constructor(memory, kind, args, { range = undefined, convert = (item) => item } = {}) {
        this.#memory = memory;
        this.#kind = kind;
        this.#args = args;
        this.#range = range;
        this.#convert = convert;
        this.#length = Number(memory.call(`goblin_${kind}_count`, 'number', ...this.#arguments()).value);
    }

    #arguments() {
        const range = this.#range ? [this.#memory.pass(ARGUMENT, 'range', this.#range)] : [];
        return [...range, ...this.#args];
    }

    /** The number of items. @type {number} */
    get length() { return this.#length; }

    /** Returns the item at an index, or `undefined` past the end. @type {(index: Unsigned) => T | undefined} */
    get(index) {
        const item = this.#memory.call(`goblin_${this.#kind}`, this.#kind, ...this.#arguments(), unsigned(index, 64));
        return item && this.#convert(item);
    }

    /** Returns the item at an index, like `at` of an array: a negative index counts from the end.
     * @type {(index: number) => T | undefined} */
    at(index) {
        const whole = Math.trunc(index) || 0, from_start = whole < 0 ? whole + this.#length : whole;
        return from_start >= 0 && from_start < this.#length ? this.get(from_start) : undefined;
    }

    /** Iterates over the items from an index on, at most `most`.
     * @type {(first?: Unsigned, most?: number) => Generator<T, void, undefined>} */
    *from(first = 0, most = Infinity) {
        for (let next = unsigned(first, 64), left = most; left > 0;) {
            const items =
                this.#memory.call_many(`goblin_${this.#kind}s`, this.#kind, left, next, ...this.#arguments());
            if (items.length === 0) return;
            for (const item of items) yield this.#convert(item);
            next += BigInt(items.length);
            left -= items.length;
        }
    }

    /** Iterates over the items. @type {() => Generator<T, void, undefined>} */
    [Symbol.iterator]() { return this.from(); }

    /** Iterates over pairs of an index and its item. @type {() => Generator<[number, T], void, undefined>} */
    *entries() {
        let index = 0;
        for (const item of this) yield [index++, item];
    }

    /** Calls a function with each item and its index. @type {(callback: Each<T, void>) => void} */
    forEach(callback) { for (const [index, item] of this.entries()) callback(item, index); }
    /** Returns the results of a function for each item and its index. @type {<U>(callback: Each<T, U>) => U[]} */
    map(callback) { return Array.from(this, (item, index) => callback(item, index)); }
    /** Returns the items for which a function returns true. @type {(callback: Each<T, unknown>) => T[]} */
    filter(callback) { return Array.from(this).filter((item, index) => callback(item, index)); }

    // Returns the index and the first item for which a function returns true, which is called up to there.
    #found(callback) {
        for (const [index, item] of this.entries()) if (callback(item, index)) return { index, item };
        return undefined;
    }

    /** Returns the first item for which a function returns true, which is called with each item and its index up to it.
     * @type {(callback: Each<T, unknown>) => T | undefined} */
    find(callback) { return this.#found(callback)?.item; }

    /** Reports whether a function returns true for an item. @type {(callback: Each<T, unknown>) => boolean} */
    some(callback) { return this.#found(callback) !== undefined; }

    /** Returns what a function makes of all items, like `reduce` of an array: it is called with what it made of the
     * items before, with an item and its index. Without an initial value it begins with the first item, and throws a
     * `TypeError` if there is none.
     * @type {(callback: (made: T, item: T, index: number) => T) => T}
     * @type {<U>(callback: (made: U, item: T, index: number) => U, ...initial: [U]) => U} */
    reduce(callback, ...initial) {
        return Array.from(this).reduce((made, item, index) => callback(made, item, index), ...initial);
    }

    /** Returns the items from an index up to another one, like `slice` of an array: a negative index counts
     * from the end.
     * @type {(start?: number, end?: number) => T[]} */
    slice(start = 0, end = this.#length) {
        const inside = (index) => (index < 0 ? Math.max(index + this.#length, 0) : Math.min(index, this.#length));
        const [first, last] = [start, end].map((index) => inside(Math.trunc(index) || 0));
        return [...this.from(first, last - first)];
    }

    /** Returns the items as an array, for `JSON.stringify`. @type {() => T[]} */
    toJSON() { return Array.from(this); }

    // Returns what Node.js prints: an array with this name, whose first items are there. (An object with a list as its
    // prototype is no list.)
    [INSPECT](_, { maxArrayLength }) {
        if (!(#memory in this)) return this;
        const { name } = this.constructor, { [name]: Shown } = { [name]: class extends Array {} };
        const shown = Shown.from(this.from(0, maxArrayLength ?? Infinity));
        shown.length = this.length;
        return shown;
    }
}

// An index in brackets works as that of an array: `list[0]`. Nothing can be assigned to it, which throws a TypeError.
const is_index = (name) => typeof name === 'string' && /^(?:0|[1-9]\d{0,15})$/.test(name);
Object.setPrototypeOf(List.prototype, new Proxy(Object.create(Object.prototype), {
    get: (target, name, list) => (is_index(name) ? list.get(Number(name)) : Reflect.get(target, name, list)),
    set: (target, name, value, list) => !is_index(name) && Reflect.set(target, name, value, list),
}));

/** A symbol table, with the string table of its names.
 * @extends {List<Sym>} */
export class Symtab extends List {
    #memory; #range;

    constructor(memory, range, strtab) {
        super(memory, 'symbol', [], { range });
        this.#memory = memory;
        this.#range = range;
        /** @type {Strtab} the string table of the names */
        this.strtab = strtab;
    }

    /** Returns the name of a symbol, or `undefined` if its offset is past the end of the string table. Throws if that
     * table is not inside the file, or the name is not UTF-8.
     * @type {(symbol: Sym) => string | undefined} */
    name(symbol) { return this.strtab.get(field_of(symbol, 'st_name', 'a symbol')); }

    /** Returns the bytes of a symbol's name, which need not be UTF-8, or `undefined` if its offset is past the end of
     * the string table. Throws if that table is not inside the file.
     * @type {(symbol: Sym) => Uint8Array | undefined} */
    name_bytes(symbol) { return this.strtab.get_bytes(field_of(symbol, 'st_name', 'a symbol')); }

    /** Returns the symbol of an address with its index, if there is one. It contains the address: of those with
     * `st_value <= address < st_value + st_size` it is the one with the highest `st_value`, the first of several. If
     * there is none, a label of size 0 may be there, as assembly has. It counts only in its own section: of the symbols
     * with `st_value <= address` whose section holds the address, it is the first of size 0 among those with the
     * highest `st_value`. A section holds the addresses with `sh_addr <= address < sh_addr + sh_size`, but none if its
     * `sh_flags` lack SHF_ALLOC. None of these sums wraps around.
     *
     * Only symbols of a section count, whose `st_shndx` is from 1 to 0xfeff, or 0xffff (SHN_XINDEX), which is the index
     * of no section here. And only those of type STT_NOTYPE, STT_OBJECT, STT_FUNC or STT_GNU_IFUNC count. In a file of
     * type ET_REL an `st_value` is an offset in a section, so there any section holds the addresses below `sh_size`,
     * and symbols of different sections mix.
     *
     * Each call reads all symbols: for many addresses use `address_map`.
     * @type {(address: Unsigned) => { index: number, symbol: Sym } | undefined} */
    symbol_by_address(address) {
        const memory = this.#memory, table = memory.pass(ARGUMENT, 'range', this.#range);
        const found = memory.call('goblin_symbol_by_address', 'number', table, unsigned(address, 64));
        return found && { index: Number(found.value), symbol: this.get(found.value) };
    }

    /** Returns a sorted map of the addresses, for many searches. It is not proved.
     *
     * ```js
     * const map = elf.syms().address_map();
     * for (const address of addresses) console.log(map.symbol_by_address(address)?.symbol.st_value);
     * ```
     * @type {() => AddressMap} */
    address_map() { return new AddressMap(this, this.#held_by()); }

    /** Returns the index and the first symbol with a name, from an index on, if there is one. Throws if the string
     * table is not inside the file.
     *
     * ```js
     * for (let at = symbols.symbol_by_name('main'); at; at = symbols.symbol_by_name('main', at.index + 1))
     *     console.log(at.symbol.st_value);
     * ```
     * @type {(name: Name, first?: Unsigned) => { index: number, symbol: Sym } | undefined} */
    symbol_by_name(name, first = 0) {
        const memory = this.#memory;
        const bytes = memory.pass_bytes(name_bytes(name));
        const table = memory.pass(ARGUMENT, 'range', this.#range);
        const names = memory.pass(NAMES, 'range', this.strtab.range);
        return memory.find('goblin_symbol_by_name', 'symbol', table, names, ...bytes, unsigned(first, 64));
    }

    // Returns a function of an index: the first and the last address that the section there holds, if it holds any.
    #held_by() {
        const memory = this.#memory, { e_type } = memory.header, known = new Map();
        const find = (index) => {
            const section = index < SHN_LORESERVE
                ? memory.call('goblin_section', 'section', unsigned(index, 64)) : undefined;
            if (!section?.sh_size || (e_type !== ET_REL && !is_alloc(section))) return undefined;
            const first = e_type === ET_REL ? 0n : section.sh_addr;
            return { first, last: last_of(first, section.sh_size) };
        };
        return (index) => known.get(index) ?? known.set(index, find(index)).get(index);
    }
}

// Reports whether a symbol counts for its address: it is of a section, and has a type whose value is an address.
const may_contain = ({ st_info, st_shndx }) =>
    (st_shndx === SHN_XINDEX || (st_shndx !== SHN_UNDEF && st_shndx < SHN_LORESERVE))
    && [STT_NOTYPE, STT_OBJECT, STT_FUNC, STT_GNU_IFUNC].includes(st_type(st_info));

const LAST = (1n << 64n) - 1n;

// Returns the last address of so many from one on, but at most the last of all.
const last_of = (first, size) => (size > LAST - first ? LAST : first + size - 1n);

/** A sorted map of the addresses of a symbol table, for many searches. It finds what `symbol_by_address` of the table
 * finds in a time that grows with the logarithm of the number of symbols. It is not part of the library: it is compared
 * with that call, but not proved. */
export class AddressMap {
    #symtab; #starts; #indices;

    constructor(symtab, held_by) {
        // the places of the symbols that count: the addresses that one contains, and those that its section holds from
        // its value on
        const places = [];
        let count = 0;
        for (const { st_value: start, st_size: size, st_info, st_shndx } of symtab) {
            const index = count++;
            if (!may_contain({ st_info, st_shndx })) continue;
            const section = held_by(st_shndx), first = section && (section.first > start ? section.first : start);
            if (size) places.push({ index, size, start, first: start, last: last_of(start, size), is_inside: 1 });
            if (section && first <= section.last)
                places.push({ index, size, start, first, last: section.last, is_inside: 0 });
        }
        const ends = places.map(({ start, first, last }) => [start, first, last < LAST ? last + 1n : first]);
        const starts = BigUint64Array.from(ends.flat()).sort().filter((start, i, all) => start !== all[i - 1]),
            slots = new Map(Array.from(starts, (start, i) => [start, i]));
        // (what decides between two at an address: that a symbol contains it, a high value, the size 0, a low index)
        for (const place of places) {
            const { index, size, start, is_inside } = place, value = is_inside * starts.length + slots.get(start);
            place.rank = (2 * value + Number(size === 0n)) * count - index;
        }
        // each place, from the highest by its rank on, takes what is left of its addresses, and none twice
        const next = Uint32Array.from({ length: starts.length + 1 }, (_, i) => i), indices = new Array(starts.length);
        const left = (i) => { while (next[i] !== i) i = next[i] = next[next[i]]; return i; };
        for (const { index, size, is_inside, first, last } of places.sort((a, b) => b.rank - a.rank)) {
            const end = last < LAST ? slots.get(last + 1n) : starts.length;
            for (let i = left(slots.get(first)); i < end; i = left(i)) {
                if (is_inside || size === 0n) indices[i] = index;
                next[i] = i + 1;
            }
        }
        this.#symtab = symtab;
        this.#starts = starts;
        this.#indices = indices;
    }

    /** Returns the symbol of an address with its index, if there is one, as `symbol_by_address` of the table does.
     * @type {(address: Unsigned) => { index: number, symbol: Sym } | undefined} */
    symbol_by_address(address) {
        const wanted = unsigned(address, 64);
        let low = 0, high = this.#starts.length;
        while (low < high) {
            const middle = (low + high) >> 1;
            if (this.#starts[middle] <= wanted) low = middle + 1;
            else high = middle;
        }
        const index = this.#indices[low - 1];
        return index === undefined ? undefined : { index, symbol: this.#symtab.get(index) };
    }
}

/** A string table: a range of the file. */
export class Strtab {
    #memory;
    #is_accepted = false;

    constructor(memory, range) {
        this.#memory = memory;
        /** @type {Range} its range, inside the file or not */
        this.range = range;
    }

    #read(name, range, offset) {
        return this.#memory.call(name, 'range', this.#memory.pass(NAMES, 'range', range), unsigned(offset, 64));
    }

    /** Returns the string at an offset from the table's start, or `undefined` past its end. Throws if the table is not
     * inside the file, or the string is not UTF-8.
     * @type {(offset: Unsigned) => string | undefined} */
    get(offset) {
        const range = this.#read('goblin_string_utf8', this.range, offset);
        return range && this.#memory.string(range);
    }

    /** Returns the bytes of the string at an offset, which need not be UTF-8, or `undefined` past the end of the table.
     * Throws if the table is not inside the file.
     * @type {(offset: Unsigned) => Uint8Array | undefined} */
    get_bytes(offset) {
        const range = this.#read('goblin_string', this.range, offset);
        return range && this.#memory.bytes(range);
    }

    /** Returns the bytes of the string at an offset if a zero byte of the table closes it, or `undefined` if it ends
     * with the table or past the table's end. Throws if `get_bytes` does.
     * @type {(offset: Unsigned) => Uint8Array | undefined} */
    get_closed_bytes(offset) {
        const range = this.#read('goblin_string_closed', this.range, offset);
        return range && this.#memory.bytes(range);
    }

    /** Returns the bytes of the strings at many offsets, each as `get_bytes` does. The table is checked once for up to
     * 64 strings, and again after an offset past its end. Throws if there are offsets, and the table is not inside the
     * file, or no zero byte of it closes one of the strings: each of these would be read up to the table's end.
     * @type {(offsets: Iterable<Unsigned>) => (Uint8Array | undefined)[]} */
    get_all_bytes(offsets) {
        const all = Array.from(offsets, (offset) => unsigned(offset, 64)), found = [];
        while (found.length < all.length) {
            const batch = all.slice(found.length, found.length + BATCH);
            const ranges = this.#memory.strings(this.range, batch), end = this.range.offset + this.range.size,
                open = ranges.find(({ offset, size }) => offset + size === end);
            if (open) throw this.#open_string(open.offset);
            for (const range of ranges) found.push(this.#memory.bytes(range));
            if (ranges.length < batch.length) found.push(undefined);
        }
        return found;
    }

    #open_string(at) {
        const offset = at - this.range.offset;
        return GoblinError.own(Kind.OPEN_STRING, `No zero byte closes the string at offset ${offset} of its table`, at,
            offset);
    }

    #compare(name, offset, text) {
        // (bytes of the file itself are copied, as passing them may move the file)
        const memory = this.#memory, bytes = typeof text === 'string' ? encoder.encode(text) : bytes_of(text).slice();
        const passed = memory.pass_bytes(bytes), table = memory.pass(NAMES, 'range', this.range);
        // (it is false, too, if the table is refused)
        return Boolean(memory.calls[name](memory.struct, table, unsigned(offset, 64), ...passed))
            || this.#read('goblin_string', this.range, this.range.size) !== undefined;
    }

    /** Reports whether the string at an offset is a name. There is no
     * string past the end of the table. Throws if the table is not inside the file.
     * @type {(offset: Unsigned, name: Name) => boolean} */
    is_at(offset, name) { return this.#compare('goblin_string_is', offset, name); }

    /** Reports whether the string at an offset starts with a text or bytes, as `is_at` does.
     * @type {(offset: Unsigned, start: Name) => boolean} */
    starts_at(offset, start) { return this.#compare('goblin_string_starts', offset, start); }

    /** Returns the part of the table up to its last zero byte. At each offset in it begins a string that a zero byte
     * closes. Throws if the table is not inside the file.
     * @type {() => Strtab} */
    closed() {
        const table = this.#memory.pass(NAMES, 'range', this.range);
        return new Strtab(this.#memory, this.#memory.call('goblin_closed_strings', 'range', table));
    }

    /** Returns the first bytes of the string at an offset, at most `most`, and reads no more of them. Throws if
     * `get_bytes` does.
     * @type {(offset: Unsigned, most: number) => Uint8Array | undefined} */
    get_start(offset, most) {
        const { offset: start, size } = this.range;
        if (!this.#is_accepted) this.#read('goblin_string', this.range, size);
        this.#is_accepted = true;
        const skipped = unsigned(offset, 64);
        if (skipped >= size) return undefined;
        const length = most < size - skipped ? BigInt(Math.trunc(most)) : size - skipped;
        const range = this.#read('goblin_string', { offset: start + skipped, size: length }, 0);
        return range ? this.#memory.bytes(range) : new Uint8Array();
    }
}

// ---- names of numbers ----

const name_of = (call, number, bits) => ready(shared).text(call, unsigned(number, bits));

/** Returns the name of a class, such as ELF64, or UNKNOWN_CLASS. @type {(ei_class: number) => string} */
export const class_to_str = (ei_class) => name_of('goblin_class_to_str', ei_class, 8);
/** Returns the name of a file's type, such as DYN, or UNKNOWN_ET. @type {(e_type: number) => string} */
export const et_to_str = (e_type) => name_of('goblin_et_to_str', e_type, 16);
/** Returns the name of a machine, such as X86_64, or EM_UNKNOWN. @type {(e_machine: number) => string} */
export const machine_to_str = (e_machine) => name_of('goblin_machine_to_str', e_machine, 16);
/** Returns the name of a segment's type, such as PT_LOAD, or UNKNOWN_PT. @type {(p_type: number) => string} */
export const pt_to_str = (p_type) => name_of('goblin_pt_to_str', p_type, 32);
/** Returns the name of a section's type, such as SHT_PROGBITS, or UNKNOWN_SHT. As in goblin, 19 is SHT_NUM, which newer
 * tools print as RELR, and 0x70000001 is SHT_X86_64_UNWIND for every machine.
 * @type {(sh_type: number) => string} */
export const sht_to_str = (sh_type) => name_of('goblin_sht_to_str', sh_type, 32);
/** Returns the name of one flag of a section, such as SHF_WRITE, or SHF_UNKNOWN. No flag above 32 bits has a name.
 * @type {(flag: Unsigned) => string} */
export const shf_to_str = (flag) => name_of('goblin_shf_to_str', flag, 64);
/** Returns the name of a symbol's binding, such as GLOBAL, or UNKNOWN_STB. @type {(binding: number) => string} */
export const bind_to_str = (binding) => name_of('goblin_bind_to_str', binding, 8);
/** Returns the name of a symbol's type, such as FUNC, or UNKNOWN_STT. @type {(type: number) => string} */
export const type_to_str = (type) => name_of('goblin_type_to_str', type, 8);
/** Returns the name of a symbol's visibility, such as HIDDEN, or UNKNOWN_STV. @type {(visibility: number) => string} */
export const visibility_to_str = (visibility) => name_of('goblin_visibility_to_str', visibility, 8);
/** Returns the name of a note's type, such as NT_GNU_BUILD_ID, or NT_UNKNOWN. As in goblin, type 3 is NT_GNU_BUILD_ID
 * for every name but CORE.
 * @type {(note: Pick<Note, 'name' | 'n_type'> | AnyNote) => string} */
export function note_type_to_str({ name, name_bytes, n_type }) {
    const memory = ready(shared), bytes = (name === undefined && name_bytes) || utf8(name);
    return memory.text('goblin_note_type_to_str', ...memory.pass_bytes(bytes), unsigned(n_type, 32));
}

/** Returns the binding in an `st_info`: its high four bits. @type {(info: number) => number} */
export const st_bind = (info) => info >> 4;
/** Returns the type in an `st_info`: its low four bits. @type {(info: number) => number} */
export const st_type = (info) => info & 0xf;
/** Returns the visibility in an `st_other`: its low three bits. @type {(other: number) => number} */
export const st_visibility = (other) => other & 0x7;
