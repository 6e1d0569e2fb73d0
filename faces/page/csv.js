// Lists as CSV, which spreadsheets open.
//
// A report's texts are safe to show. Each byte of a character that does not print, or of a backslash, is written as
// \xNN, and so is a byte that is not UTF-8. In a CSV a sign ' stands before each of = + - @ ' that begins a cell or
// follows a comma or a semicolon, with or without spaces and quotation marks between: so no spreadsheet runs it as a
// formula, whether it splits lines at commas, at semicolons or at both. A number stays. A cell with one of these signs
// has quotation marks.
import { two_digits, UNSEEN } from './text.js';

const FORMULA = /(^|[,;])(?=[ "]*[=+\-@'\uff1d\uff0b\uff0d\uff20])/g, NUMBER = /^-0x[0-9a-f]+$/;
const encoder = new TextEncoder();

function escaped(sign) {
    const code = sign.codePointAt(0), bytes = code >= 0xdc80 && code <= 0xdcff ? [code - 0xdc00] : encoder.encode(sign);
    return Array.from(bytes, (byte) => `\\x${two_digits(byte)}`).join('');
}

function cell_of(text) {
    const safe = NUMBER.test(text) ? text
        : text.replace(/\\/g, escaped).replace(UNSEEN, escaped).replace(FORMULA, "$1'");
    return /[",;]|^'/.test(safe) ? `"${safe.replaceAll('"', '""')}"` : safe;
}

export const csv_line = (cells) => `${cells.map(cell_of).join(',')}\r\n`;
