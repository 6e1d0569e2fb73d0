// Changes a flag of a section in a buffer: node flag.mjs FILE SECTION
//
// It reads the file, turns over SHF_WRITE of the first section with that name, and prints the flags before and after.
// The file stays as it is.
import { Elf, SHF_WRITE } from '../goblin.js';
import { run } from './common.mjs';

await run('flag.mjs FILE SECTION', (elf, bytes) => {
    const [, , , name] = process.argv, found = elf.section_by_name(name);
    if (found === undefined) throw new Error(`there is no section ${name}`);
    const { index, section } = found;
    elf.writer(bytes).put_section_header(index, { ...section, sh_flags: section.sh_flags ^ SHF_WRITE });
    const changed = Elf.parse(bytes).section_header(index);
    console.log(`${name}: flags 0x${section.sh_flags.toString(16)}, now 0x${changed.sh_flags.toString(16)}`);
});
