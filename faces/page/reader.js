// The workers, each of which reads one file. A new one replaces the one that the page shows once its file is read.
import { get, inflated } from './dom.js';

// A module with only a 64-bit memory.
const WITH_MEMORY = new Uint8Array([0, 0x61, 0x73, 0x6d, 1, 0, 0, 0, 5, 3, 1, 4, 0]);
/** Reports whether the engine has what the library needs. */
export const is_supported = () => typeof WebAssembly === 'object' && WebAssembly.validate(WITH_MEMORY);

let source, module;

export class Reader {
    #waiting = new Map();
    #asked = 0;
    /** Called with the progress of a call: `{ progress, done }`. */
    on_progress = () => {};

    constructor() {
        source ??= URL.createObjectURL(new Blob([get('worker').textContent], { type: 'text/javascript' }));
        module ??= inflated('module');
        this.worker = new Worker(source);
        this.worker.onmessage = ({ data }) => this.#receive(data);
        this.worker.onerror = (event) => this.#fail(new Error(event.message || 'the worker ends'));
    }

    #receive(data) {
        if (data.progress) return this.on_progress(data);
        const { resolve, reject } = this.#waiting.get(data.id);
        this.#waiting.delete(data.id);
        return 'error' in data ? reject(data.error) : resolve(data.result);
    }

    #fail(error) {
        for (const { reject } of this.#waiting.values()) reject(error);
        this.#waiting.clear();
    }

    ask(call, given) {
        return new Promise((resolve, reject) => {
            this.#waiting.set(++this.#asked, { resolve, reject });
            this.worker.postMessage({ id: this.#asked, call, given });
        });
    }

    /** Reads a file, and returns what the page shows of it first. */
    async open(file) { return this.ask('open', { module: await module, given: file }); }

    end() { this.worker.terminate(); }
}

/** The file that is shown: its reader, its size, and the worker's first result. */
export const shown_file = { reader: undefined, size: 0, summary: undefined };
/** Asks its reader. (What is no longer shown may ask once more, as if the window gets another width, for nothing.) */
export const ask = (call, given) => shown_file.reader?.ask(call, given) ?? new Promise(() => {});
