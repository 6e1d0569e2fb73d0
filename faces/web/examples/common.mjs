// What the examples share, but for segments.mjs: how they are run, and how they report an error.
import init, { Elf } from '../goblin.js';
import { readFileSync } from 'node:fs';

// Calls a function for the file that is the first argument, or for each file of a usage that ends with FILE.., with its
// bytes, and reports what it throws. `usage` has the example's name, and a word for each argument. If there are several
// files, a line names each.
export async function run(usage, example) {
    const [name, ...words] = usage.split(' '), paths = process.argv.slice(2), is_list = usage.endsWith('FILE..');
    if (is_list ? paths.length === 0 : paths.length !== words.length) {
        console.error(`usage: ${usage}`);
        process.exit(2);
    }
    if (!is_list) paths.length = 1;
    // (a disk may be full; a reader such as head may leave)
    process.stdout.on('error', ({ code, message }) => {
        if (code !== 'EPIPE') console.error(`${name.replace('.mjs', '')}: stdout: ${message}`);
        process.exit(1);
    });
    await init();
    for (const path of paths) {
        if (paths.length > 1) console.log(`file: ${path}`);
        try {
            const bytes = readFileSync(path);
            example(Elf.parse(bytes), bytes);
        } catch ({ message }) {
            console.error(`${name.replace('.mjs', '')}: ${path}: ${message}`);
            process.exitCode = 1;
        }
    }
}
