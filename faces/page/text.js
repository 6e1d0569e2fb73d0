// Texts of bytes that may not be UTF-8, of numbers, and of characters that are invisible.

/** How many bytes of a name are shown, searched and sorted by at most. */
export const NAME = 1024;
const strict = new TextDecoder('utf-8', { fatal: true, ignoreBOM: true });
// (a stack may have no room for more arguments)
const MANY = 1 << 13;

/** Returns the text of bytes. If they are not UTF-8, each byte from 0x80 on is the character U+DC00 plus it, which
 * UTF-8 doesn't have. (Most names are ASCII. In Chromium a decoder's text of one is searched and sorted slowly.) */
export function text_of(bytes) {
    const text = bytes.length > MANY ? Array.from(bytes, (byte) => String.fromCharCode(byte)).join('')
        : String.fromCharCode.apply(null, bytes);
    if (!/[\x80-\xff]/.test(text)) return text;
    try {
        return strict.decode(bytes);
    } catch {
        return text.replace(/[\x80-\xff]/g, (sign) => String.fromCharCode(0xdc00 + sign.charCodeAt(0)));
    }
}

/** Returns the text of a name's first bytes, of which there may be one more than is shown. A long text is cut. */
export function name_of(bytes) {
    if (bytes.length <= NAME) return text_of(bytes);
    let end = NAME;
    while (end > NAME - 3 && (bytes[end] & 0xc0) === 0x80) end--;
    return `${text_of(bytes.subarray(0, end))}…`;
}

/** Characters that are invisible or change how others look: control and format characters, separators, lone surrogates
 * (which stand for bytes that are not UTF-8), fillers, the empty sign of Braille, and spaces that look like others. */
export const UNSEEN = /([\p{Cc}\p{Cf}\p{Zl}\p{Zp}\p{Cs}\p{Co}\p{Cn}\p{DI}\u2800]|(?! )\p{Zs})/gu;

/** Returns what is shown of such a character. */
export function shown(sign) {
    const code = sign.codePointAt(0);
    if (code >= 0xdc80 && code <= 0xdcff) return `\\x${(code - 0xdc00).toString(16)}`;
    return `U+${code.toString(16).toUpperCase().padStart(4, '0')}`;
}

/** Returns a text with such characters made visible, for use outside of elements. */
export const visible = (text) => text.replace(UNSEEN, shown);

export const hex = (number) => `0x${number.toString(16)}`;
export const two_digits = (byte) => byte.toString(16).padStart(2, '0');
export const count = (number) => number.toLocaleString('en');
export const plural = (number, word) => `${count(number)} ${word}${Number(number) === 1 ? '' : 's'}`;
export const in_bytes = (size) => plural(size, 'byte');

/** Returns a function of a key, or of nothing, that computes each result once. */
export function once(find) {
    const found = new Map();
    return (key) => (found.has(key) ? found : found.set(key, find(key))).get(key);
}
