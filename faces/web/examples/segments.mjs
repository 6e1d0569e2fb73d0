// Lists the segments of ELF files, each with the names of its sections: node segments.mjs FILE..
// If there are several files, a line names each.
import init, { Elf, pt_to_str } from '../goblin.js';
import { readFileSync } from 'node:fs';

function list(path) {
    const elf = Elf.parse(readFileSync(path));
    elf.program_headers().forEach((segment, index) => {
        const names = elf.segment_sections(segment).map((section) => elf.section_name(section) ?? '');
        console.log([`${index}`.padStart(2, '0'), pt_to_str(segment.p_type), ...names].join(' '));
    });
}

const paths = process.argv.slice(2);
if (paths.length === 0) {
    console.error('usage: segments.mjs FILE..');
    process.exit(2);
}
// (a disk may be full; a reader such as head may leave)
process.stdout.on('error', ({ code, message }) => {
    if (code !== 'EPIPE') console.error(`segments: stdout: ${message}`);
    process.exit(1);
});
await init();
for (const path of paths) {
    if (paths.length > 1) console.log(`file: ${path}`);
    try {
        list(path);
    } catch (error) {
        console.error(`segments: ${path}: ${error.message}`);
        process.exitCode = 1;
    }
}
