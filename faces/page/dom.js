// Elements of the page and their texts. A text of a file is inserted as text, with invisible characters made visible.
import { shown, UNSEEN, visible } from './text.js';

export * from './text.js';
export const get = (id) => document.getElementById(id);
export const focus_chosen = () => get('chosen').querySelector('h2')?.focus();
export const clamp = (value, least, most) => Math.min(Math.max(value, least), most);

/** Returns the bytes that an element of the page holds, compressed. */
export function inflated(id) {
    const bytes = Uint8Array.from(atob(get(id).textContent), (sign) => sign.charCodeAt(0));
    return new Response(new Blob([bytes]).stream().pipeThrough(new DecompressionStream('deflate'))).arrayBuffer();
}

/** Replaces the content of an element by elements and texts, without those that are empty or missing. */
export function fill(element, ...content) {
    element.replaceChildren(...content.filter(Boolean));
    return element;
}

/** Returns an element with attributes and content, as `fill` takes it. */
export function make(name, given = {}, ...content) {
    const element = document.createElement(name);
    for (const [key, value] of Object.entries(given)) {
        if (key.startsWith('on')) element.addEventListener(key.slice(2), value);
        else if (value !== undefined && value !== false) element.setAttribute(key, value === true ? '' : value);
    }
    return fill(element, ...content);
}

/** Returns elements with commas between them, which a copied text has, too, but none after a colon. */
export const joined = (...parts) => parts.filter(Boolean).flatMap((part, i, all) =>
    (i ? [/:$/.test(all[i - 1].textContent) ? ' ' : ', ', part] : [part]));
export const button = (text, onclick, given = {}, ...more) =>
    make('button', { type: 'button', onclick, ...given }, text, ...more);

// Words of scripts from right to left, which turn around what stands between them and a number.
const LEFTWARD = /((?! )[ \u0590-\u08ff\ufb1d-\ufdff\ufe70-\ufefe\u{10800}-\u{10fff}\u{1e800}-\u{1efff}]+(?<! ))/gu;
/** Returns a visible text in which such words are apart from the rest, for use outside of elements. */
export const apart = (text) => visible(text).replace(LEFTWARD, '\u2068$1\u2069');

/** Replaces the content of an element by a text of a file. (It may have more parts than a call has arguments.) */
export const put_text = (element, text) => text.split(UNSEEN).reduce((box, part, i) => {
    if (i % 2) box.append(make('span', { class: 'esc' }, shown(part)));
    else part.split(LEFTWARD).forEach((words, j) => { if (words) box.append(j % 2 ? make('bdi', {}, words) : words); });
    return box;
}, fill(element));

/** Reports whether a key is pressed for the browser, as to go back. */
export const is_of_browser = ({ altKey, ctrlKey, metaKey }) => altKey || ctrlKey || metaKey;

/** Returns a function that calls another one once it has not been called for a moment. */
export function after_typing(act) {
    let soon;
    return () => {
        clearTimeout(soon);
        soon = setTimeout(act, 120);
    };
}

let said;
/** Shows a message in the corner of the page: texts and links. A sentence stays longer than a few words. */
export function say(...content) {
    const box = fill(get('said'), ...content);
    clearTimeout(said);
    said = setTimeout(() => fill(box), box.textContent.length > 40 ? 12000 : 4000);
}

export async function copy(text, what) {
    try {
        await navigator.clipboard.writeText(text);
        say(`Copied: ${what}`);
    } catch (error) {
        say(navigator.clipboard ? `The browser refuses to copy: ${error.message}`
            : 'The browser copies only from a page that is a file or is opened by https.');
    }
}
