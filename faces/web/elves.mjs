// Makes small 64-bit little-endian ELF files for the page's test, from sections and segments with their bytes.

const align = (number, to) => Math.ceil(number / to) * to;

/** Returns what a function returns for each index of a list of some length. */
export const times = (length, of) => Array.from({ length }, (_, index) => of(index));

/** Returns a struct of fields, each a number and its width in bytes. */
export function packed(...fields) {
    const bytes = Buffer.alloc(fields.reduce((all, [, width]) => all + width, 0));
    let at = 0;
    for (const [value, width] of fields) {
        if (width === 8) bytes.writeBigUInt64LE(BigInt(value), at); else bytes.writeUIntLE(Number(value), at, width);
        at += width;
    }
    return bytes;
}

/** Returns numbers of eight bytes each. */
export const longs = (...numbers) => packed(...numbers.flat().map((number) => [number, 8]));

/** Returns a copy of bytes with other numbers, each with its offset and its width in bytes. */
export function patched(bytes, ...numbers) {
    const copy = Buffer.from(bytes);
    for (const [at, value, width = 8] of numbers) packed([value, width]).copy(copy, at);
    return copy;
}

/** Returns a note of an owner, each character of which is a byte. */
export function note(owner, type, descriptor) {
    const name = Buffer.from(`${owner}\0`, 'latin1');
    const padded = (bytes) => Buffer.concat([bytes, Buffer.alloc(align(bytes.length, 4) - bytes.length)]);
    return Buffer.concat([packed([name.length, 4], [descriptor.length, 4], [type, 4]), padded(name),
        padded(descriptor)]);
}

/** Returns a symbol. */
export const symbol = ({ name = 0, info = 0, other = 0, shndx = 0, value = 0, size = 0 }) =>
    packed([name, 4], [info, 1], [other, 1], [shndx, 2], [value, 8], [size, 8]);

/** Returns a file with a symbol of zeros, other symbols, whose names are their `text`, and then other sections. */
export function symbols_file(symbols, ...others) {
    const names = Buffer.from(`\0${symbols.map(({ text = '' }) => `${text}\0`).join('')}`);
    let next = 1;
    const items = symbols.map(({ text = '', ...given }) =>
        symbol({ name: text ? next : 0, ...given, end: next += Buffer.byteLength(text) + 1 }));
    return elf_file({ sections: [
        { name: '.symtab', type: 2, link: 2, info: 2, entsize: 24, bytes: Buffer.concat([symbol({}), ...items]) },
        { name: '.strtab', type: 3, bytes: names }, ...others,
    ] });
}

/** Returns a section of relocations with addends, one of data, and one of code. */
export const relocations = (...all) => ({ name: '.rela', type: 4, entsize: 24, bytes: Buffer.concat(all.map(
    ({ offset = 0, sym = 0, type, addend = 0 }) => packed([offset, 8], [type, 4], [sym, 4], [addend, 8]))) });
export const data = (name, bytes, given) => ({ name, type: 1, bytes, ...given });
export const code = (bytes, given) => data('.text', bytes, { flags: 6, ...given });

/** Returns a file whose segments are notes and perhaps others. It is a core, unless another type is given. */
export const noted_file = (notes, { segments = [], ...given } = {}) =>
    elf_file({ type: 4, segments: [{ type: 4, bytes: Buffer.concat(notes) }, ...segments], ...given });

/** Returns a shared library with bytes that are loaded at 0x400000, and with entries of a dynamic section. */
export const dynamic_file = (bytes, entries, given) => elf_file({ type: 3,
    segments: [{ vaddr: 0x400000, bytes }, { type: 2, bytes: longs(...entries) }], ...given });

/** Returns a file with sections and segments, of the fields below. Section 0 and the section names are added. */
export function elf_file({ type = 1, machine = 62, osabi = 0, sections = [], segments = [] }) {
    const parts = [];
    let at = 64 + 56 * segments.length;
    const put = (bytes) => {
        const offset = align(at, 8);
        parts.push(Buffer.alloc(offset - at), bytes);
        at = offset + bytes.length;
        return offset;
    };
    const heads = segments.map(({ type: p_type = 1, flags = 4, vaddr = 0, bytes }) => packed([p_type, 4], [flags, 4],
        [put(bytes), 8], [vaddr, 8], [vaddr, 8], [bytes.length, 8], [bytes.length, 8], [4, 8]));
    const head = { type, machine, osabi, segments: heads.length };
    if (sections.length === 0) return Buffer.concat([header(head), ...heads, ...parts]);
    const all = [{ type: 0, name: '', bytes: Buffer.alloc(0) }, ...sections, { name: '.shstrtab', type: 3 }];
    const names = Buffer.from(all.map(({ name }) => `${name}\0`).join(''));
    all.at(-1).bytes = names;
    const name_at = (name) => (name ? names.indexOf(`\0${name}\0`) + 1 : 0);
    const table = all.map(
        ({ name, type: sh_type, flags = 0, addr = 0, link = 0, info = 0, entsize = 0, bytes }, index) =>
            packed([name_at(name), 4], [sh_type, 4], [flags, 8], [addr, 8], [index ? put(bytes) : 0, 8],
                [bytes.length, 8], [link, 4], [info, 4], [4, 8], [entsize, 8]));
    const shoff = put(Buffer.concat(table));
    return Buffer.concat([header({ ...head, shoff, sections: all.length }), ...heads, ...parts]);
}

function header({ type, machine, osabi, segments, shoff = 0, sections = 0 }) {
    const ident = Buffer.from([0x7f, 0x45, 0x4c, 0x46, 2, 1, 1, osabi, 0, 0, 0, 0, 0, 0, 0, 0]);
    return Buffer.concat([ident,
        packed([type, 2], [machine, 2], [1, 4], [0, 8], [segments ? 64 : 0, 8], [shoff, 8], [0, 4], [64, 2], [56, 2],
            [segments, 2], [sections ? 64 : 0, 2], [sections, 2], [sections ? sections - 1 : 0, 2])]);
}
