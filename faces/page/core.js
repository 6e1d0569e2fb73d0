// What the notes of a core of Linux hold, read by numbers. The library reads the notes; what they mean is not proved.
import * as goblin from '../web/goblin.js';
import { number_at } from './dynamic.js';
import { ALPHA, file, is_wide, name_at } from './file.js';

// The names of the registers of a PRSTATUS, by machine and class.
const REGISTERS = {
    '62,2': 'r15 r14 r13 r12 rbp rbx r11 r10 r9 r8 rax rcx rdx rsi rdi orig_rax rip cs eflags rsp ss fs_base gs_base'
        + ' ds es fs gs',
    '3,1': 'ebx ecx edx esi edi ebp eax ds es fs gs orig_eax eip cs eflags esp ss',
    '183,2': `${Array.from({ length: 31 }, (_, i) => `x${i}`).join(' ')} sp pc pstate`,
    '40,1': 'r0 r1 r2 r3 r4 r5 r6 r7 r8 r9 r10 fp ip sp lr pc cpsr orig_r0',
    '243,2': 'pc ra sp gp tp t0 t1 t2 s0 s1 a0 a1 a2 a3 a4 a5 a6 a7 s2 s3 s4 s5 s6 s7 s8 s9 s10 s11 t3 t4 t5 t6',
};
const SIGNALS = ' HUP INT QUIT ILL TRAP ABRT BUS FPE KILL USR1 SEGV USR2 PIPE ALRM TERM'.split(' ');
// The machines whose signals 7, 10 and 12 are others: SPARC, MIPS, PA-RISC and Alpha.
const OF_THEIR_OWN = [goblin.EM_SPARC, goblin.EM_MIPS, goblin.EM_SPARC32PLUS, goblin.EM_PARISC, goblin.EM_SPARCV9,
    ALPHA];
const MOST_FILES = 10000, MOST_NAME = 4096;

/** Returns a signal's number with its name, if the note has it. (Some machines have other numbers for some.) */
export function signal_of({ note: { desc_range: { offset, size } } }) {
    const number = Number(number_at(offset + 12n, 2)), { e_machine } = file.elf.header;
    const is_own = OF_THEIR_OWN.includes(e_machine) && [7, 10, 12].includes(number);
    return size < 14n ? 'unknown' : SIGNALS[number] && !is_own ? `${number}, SIG${SIGNALS[number]}` : `${number}`;
}

/** Returns the registers of a note of type PRSTATUS that are wanted, as pairs of a name and a number. */
export function registers_of({ note: { desc_range: { offset, size } } }, is_wanted = () => true) {
    const { e_machine, ei_class } = file.elf.header, [width, start] = is_wide() ? [8n, 112n] : [4n, 72n];
    return (REGISTERS[`${e_machine},${ei_class}`]?.split(' ') ?? []).map((name, i) => [name, start + width * BigInt(i)])
        .filter(([name, at]) => is_wanted(name) && at + width <= size)
        .map(([name, at]) => [name, number_at(offset + at, width)]);
}

const strtab = (at, size) => file.elf.strtab({ sh_type: goblin.SHT_STRTAB, sh_offset: at, sh_size: size });

// Where a PRPSINFO of a size has the process's number and its arguments.
const PROCESS = { 124: [12n, 44n], 128: [16n, 48n], 136: [24n, 56n] };
/** Returns the number of a process and its arguments, of a note of type PRPSINFO, if it has a known size. */
export function process_of({ note: { desc_range: { offset, size } } }) {
    const [id, words] = PROCESS[size] ?? [];
    return id && { id: number_at(offset + id, 4), words: name_at(strtab(offset + words, 80n), 0) };
}

/** Returns the files of a note of type FILE, each with the number of its ranges and the first address. */
export function mapped_files({ note: { desc_range: { offset, size } } }) {
    const width = is_wide() ? 8n : 4n, count = number_at(offset, width), found = new Map(),
        names = strtab(offset, size);
    for (let i = 0n, at = (2n + 3n * count) * width; i < count && i < MOST_FILES && at < size; i++) {
        const name = name_at(names, at), start = number_at(offset + (2n + 3n * i) * width, width);
        found.set(name, { start, ...found.get(name), ranges: (found.get(name)?.ranges ?? 0) + 1 });
        at += BigInt(names.get_start(at, MOST_NAME)?.length ?? 0) + 1n;
    }
    return found;
}
