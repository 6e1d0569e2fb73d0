// Lists what ELF files need of the dynamic linker, their sonames and search paths: node needed.mjs FILE..
import { DT_NEEDED, DT_RPATH, DT_RUNPATH, DT_SONAME, PT_DYNAMIC, PT_INTERP } from '../goblin.js';
import { run } from './common.mjs';

const NAMES = new Map([[DT_NEEDED, 'needed'], [DT_SONAME, 'soname'], [DT_RPATH, 'rpath'], [DT_RUNPATH, 'runpath']]);

// Prints a string, which need not be UTF-8, after its name, or says that it has no end, which a loader needs.
function print(name, strings, offset) {
    const string = strings.get_closed_bytes(offset);
    process.stdout.write(string ? Buffer.concat([Buffer.from(`${name} `), string, Buffer.from('\n')])
        : `${name}: no zero byte closes a string at offset ${offset}\n`);
}

await run('needed.mjs FILE..', (elf) => {
    const segment_of = (type) => elf.program_headers().find(({ p_type }) => p_type === type),
        interpreter = segment_of(PT_INTERP);
    if (interpreter?.p_filesz) print('interpreter', elf.strtab(interpreter), 0);
    if (!segment_of(PT_DYNAMIC)) return; // (a loader doesn't read section headers, by which `dynamic` could find some)
    // (of the rest each string would be read up to the end)
    const strings = elf.dynamic_strings().closed();
    for (const { d_tag, d_val } of elf.dynamic_section()) if (NAMES.has(d_tag)) print(NAMES.get(d_tag), strings, d_val);
});
