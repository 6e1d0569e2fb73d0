// Names of numbers: the library's, if they are right for the file's machine and system; else the page's own, or digits.
import * as goblin from '../web/goblin.js';
import { file, is_wide } from './file.js';
import * as own from './names.js';
import { hex, once } from './text.js';

// The library's names for ends of ranges, which are not names of numbers.
const ENDS = /^(SHT_|PT_)?(NUM|LO|HI|LOOS|HIOS|LOPROC|HIPROC|LOUSER|HIUSER)$/;
const SOLARIS = 6;
const without = (prefix, name) => (name.startsWith(prefix) ? name.slice(prefix.length) : name);

// Returns the library's name if it is right for the file.
function fitting(name) {
    const { e_machine, ei_osabi } = file.elf.header, is_other = (part, is_own) => name.includes(part) && !is_own;
    const is_wrong = name.includes('UNKNOWN') || ENDS.test(name) || is_other('X86_64_', e_machine === goblin.EM_X86_64)
        || is_other('ARM_', e_machine === goblin.EM_ARM) || is_other('SUNW', ei_osabi === SOLARIS);
    return is_wrong ? undefined : name;
}

const label = (prefix, own_name, library, shown = hex) => once((number) =>
    own_name?.(number, file.elf.header.e_machine) ?? without(prefix, fitting(library(number)) ?? shown(number)));

/** Functions that return a name without its prefix, or the number. */
export const section_type = label('SHT_', own.section_type, goblin.sht_to_str);
export const segment_type = label('PT_', own.segment_type, goblin.pt_to_str);
export const symbol_type = label('STT_', own.symbol_type, goblin.type_to_str, String);
export const symbol_binding = label('STB_', undefined, goblin.bind_to_str, String);
export const symbol_visibility = label('STV_', undefined, goblin.visibility_to_str, String);
export const file_type = label('ET_', undefined, goblin.et_to_str);
export const machine = label('EM_', undefined, goblin.machine_to_str, String);
export const file_class = label('', undefined, goblin.class_to_str, String);
export const osabi = label('ELFOSABI_', own.osabi, () => 'UNKNOWN', String);

/** Returns a name with its prefix, or nothing of a number. */
export const named = (prefix, name) => (/^(0x|\d+$)/.test(name) ? '' : `${prefix}${name}`);
/** Returns a name with its prefix, or only the number. */
export const prefixed = (prefix, name) => named(prefix, name) || name;
export const relocation_type =
    once((type) => own.relocation_type(type, file.elf.header.e_machine, is_wide()) ?? `${type}`);

/** Returns the names of a section's flags. Flags without a name are numbers. */
export const section_flags = once((flags) => {
    const names = Array.from({ length: 32 }, (_, bit) => bit).filter((bit) => flags >> BigInt(bit) & 1n).map((bit) => {
        const given = own.section_flag(bit, file.elf.header.e_machine) ?? fitting(goblin.shf_to_str(2 ** bit));
        return given ? without('SHF_', given) : hex(2 ** bit);
    });
    return (flags >> 32n ? [...names, hex(flags >> 32n << 32n)] : names).join(' ');
});

/** Returns the flags of a segment, such as `R W X`. */
export const segment_flags = (flags) => {
    const letters = [[4, 'R'], [2, 'W'], [1, 'X']].map(([bit, letter]) => (flags & bit ? letter : '·')).join(' ');
    return flags & ~7 ? `${letters} ${hex((flags & ~7) >>> 0)}` : letters;
};

/** Returns the name of a note's type, which depends on its owner, or the number. */
export function note_type(note) {
    const library = ['GNU', 'CORE'].includes(note.name) ? fitting(goblin.note_type_to_str(note)) : undefined;
    return library ? without('NT_', library)
        : own.note_type(note.name, note.n_type, file.elf.header.e_type === goblin.ET_CORE) ?? hex(note.n_type);
}
