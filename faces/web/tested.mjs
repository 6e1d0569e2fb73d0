// Imports goblin.js for its tests, from the folder that their command line names.
import { existsSync } from 'node:fs';
import { join, resolve } from 'node:path';
import { pathToFileURL } from 'node:url';

/** Returns what goblin.js of a folder exports. If a file is missing there, prints how to make it, and exits. */
export async function import_goblin(folder) {
    const missing = ['goblin.js', 'constants.js', 'interface.js', 'goblin_c.wasm']
        .filter((name) => !existsSync(join(folder ?? '', name)));
    if (folder === undefined || missing.length > 0) {
        console.error(folder === undefined ? 'no FOLDER with goblin.js is named'
            : `${folder} has no ${missing.join(' and no ')}`);
        console.error('`make install PREFIX=/tmp/goblin TARGET=wasm64-unknown-unknown` makes the folder '
            + '/tmp/goblin/share/goblin_c/web, which has all of them.\n`python3 faces/constants.py` makes only '
            + 'constants.js and interface.js, in faces/web. `make faces` runs all tests.');
        process.exit(2);
    }
    return import(pathToFileURL(resolve(folder, 'goblin.js')));
}
