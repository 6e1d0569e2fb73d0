// The notes of sections or segments.
import * as goblin from '../web/goblin.js';
import { called, file, is_wide, refusal, sections, segments } from './file.js';
import { note_type } from './labels.js';
import { hex, name_of, NAME, once } from './text.js';

const MOST_NOTES = 100000, MOST_REFUSALS = 20, NHDR = 12;
const holders = (by) => (by === 'sections'
    ? sections().filter(({ sh_type }) => sh_type === goblin.SHT_NOTE)
        .map((item) => ({ index: item.index, title: called(item.index, item), start: item.sh_offset, item }))
    : segments().filter(({ p_type }) => p_type === goblin.PT_NOTE)
        .map((item) => ({ index: item.index, title: `segment ${item.index}`, start: item.p_offset, item })));

// Returns a note with its name as text, without the zero byte that ends it. The name may be of any bytes and any size.
function named({ n_type, name_range, desc_range, next }) {
    const [offset, size] = [Number(name_range.offset), Number(name_range.size)], { content } = file;
    const end = offset + (size > 0 && content[offset + size - 1] === 0 ? size - 1 : size);
    return { n_type, name_range, desc_range, next,
        name: name_of(content.subarray(offset, Math.min(end, offset + NAME + 1))) };
}

const PARTS = { [goblin.Item.NOTE_HEADER]: 'header', [goblin.Item.NOTE_NAME]: 'name',
    [goblin.Item.NOTE_DESC]: 'descriptor' };

/** Returns the notes of each section or segment up to the first refused one, at most a number. */
export const notes_of = once((by) => {
    const items = [], refusals = [];
    let is_cut = false;
    for (const holder of holders(by)) {
        const left = MOST_NOTES - items.length,
            { notes, refusal: error } = file.elf.readable_notes_bytes(holder.item, left + 1);
        for (const note of notes.slice(0, left)) {
            items.push({ holder, note: named(note), start: Number(note.name_range.offset) - NHDR,
                end: Number(note.next) });
        }
        is_cut = notes.length > left;
        if (error) {
            const next = Number(notes.at(-1)?.next ?? holder.start);
            const marks = next < file.content.length
                ? [{ at: next, size: Math.min(NHDR, file.content.length - next) }] : [];
            const part = PARTS[error.item] ? `the ${PARTS[error.item]} of ` : '';
            refusals.push(refusal(error, `${part}the note at ${hex(next)}, of ${holder.title}`, marks));
        }
        if (is_cut || refusals.length > MOST_REFUSALS) break;
    }
    name_threads(items);
    return { items, refusals, is_cut };
});

// Adds to each note of a core file its thread. A PRSTATUS has the thread's number. The notes up to the next one are of
// the same thread, but for those of the process.
function name_threads(items) {
    if (file.elf.header.e_type !== goblin.ET_CORE) return;
    let thread;
    for (const item of items) {
        const { note } = item, type = note_type(note);
        if (note.name === 'CORE' && type === 'PRSTATUS') {
            const { offset, size } = note.desc_range, at = is_wide() ? 32n : 24n;
            thread = at + 4n > size ? undefined : file.elf.number(offset + at, 4);
        }
        if (OWNERS.has(note.name) && !OF_PROCESS.has(type)) item.thread = thread;
    }
}
const OWNERS = new Set(['CORE', 'LINUX', 'GDB']);
const OF_PROCESS = new Set(['PRPSINFO', 'AUXV', 'FILE', 'SIGINFO', 'PLATFORM', 'UTSNAME', 'GDB_TDESC',
    'X86_XSAVE_LAYOUT', 'VMCOREDD']);

export function title_of({ note, thread }) {
    const title = `${note.name} ${note_type(note)}`.trim();
    return thread === undefined ? title : `${title}, thread ${thread}`;
}
