// The names of sources, screens and presets, where the screens stand in the cabin, its photograph and the delay of a step, and the text
// file that has them beside a book: BOOK.names.
// The lines are kept as they were read, so that comments, empty lines and their order survive a change.

export const MAX_NAMES_BYTES = 1048576;
const MAX_NAME = 80;
const LANES = [1, 64];
/** A place has so many thousandths at least, and the cabin so many in all. */
export const LEAST_PLACE = 20;
export const CABIN = 1000;
/** A keyword of a later version: its line is kept and ignored. */
const LATER = /^[a-z][a-z0-9-]*$/;
/** Control characters, line separators, and what turns the direction of writing. */
const FORBIDDEN = /[\u0000-\u001f\u007f-\u009f\u2028\u2029\u200e\u200f\u202a-\u202e\u2066-\u2069\ufeff]/;
const BLANKS = /^[ \t]+|[ \t]+$/g;

export const NO_NAMES = Object.freeze({ lines: Object.freeze([]), end: '\n' });

/** A file that breaks the format: none of its names is used. */
export class WrongNames extends Error {
    constructor(line, what) {
        super(`line ${line}: ${what}`);
        this.name = 'WrongNames';
        this.line = line;
    }
}

/** What is wrong with a name, or null. */
export function nameFault(name) {
    const length = [...name].length;
    if (length === 0) return 'no name';
    if (length > MAX_NAME) return `a name has at most ${MAX_NAME} characters, this one ${length}`;
    if (FORBIDDEN.test(name)) return 'a name has a character that cannot be shown in a line';
    return null;
}

/** A typed name as one that the format takes: what it cannot hold is left out. */
export function cleaned(text) {
    const visible = [...text.replace(/[\t\n\r]/g, ' ')].filter(character => !FORBIDDEN.test(character)).join('');
    return [...visible.replace(BLANKS, '')].slice(0, MAX_NAME).join('').replace(BLANKS, '');
}

/** What is wrong with the file name of a photograph, or null. */
export function photographFault(file) {
    if (file === '') return 'no file name after photograph';
    if (/[/\\]/.test(file) || file === '.' || file === '..') return 'a photograph is the name of a file in the folder of the book, without a folder';
    return nameFault(file)?.replace('a name', 'a file name') ?? null;
}

/** What is wrong with a delay in milliseconds as it is written, or null. */
export function delayFault(text) {
    if (text === '') return 'no number of milliseconds after delay';
    if (!/^[0-9]{1,4}(\.[0-9]{1,3})?$/.test(text)) return 'a delay has one to four digits, and behind a point one to three more';
    return Number(text) > 0 ? null : 'a delay is above 0';
}

/** What is wrong with a screen's place, or null. */
export function placeFault({ left, top, width, height }) {
    if (width < LEAST_PLACE || height < LEAST_PLACE) return `a place is at least ${LEAST_PLACE} wide and ${LEAST_PLACE} high`;
    if (left + width > CABIN || top + height > CABIN) return 'the place ends outside the cabin';
    return null;
}

/** The first word of a text and the rest, which the blanks part. */
function parted(text) {
    return /^([^ \t]*)[ \t]*(.*)$/s.exec(text).slice(1);
}

/** The number at the front of a line's text, and what is behind it. */
function numbered(text, keyword, [least, most], wrong) {
    const [digits, rest] = parted(text);
    if (!/^[0-9]{1,5}$/.test(digits)) wrong(`no number of one to five digits after ${keyword}`);
    const number = Number(digits);
    if (number < least || number > most) wrong(`${keyword === 'place' ? 'screen' : keyword}s are numbered from ${least} to ${most}`);
    return [number, rest];
}

function readName(text, keyword, range, wrong) {
    const [number, name] = numbered(text, keyword, range, wrong);
    const fault = nameFault(name);
    return fault ? wrong(fault) : { number, name };
}

function readPlace(text, wrong) {
    const [number, rest] = numbered(text, 'place', LANES, wrong);
    const parts = rest.split(/[ \t]+/);
    if (parts.length !== 4 || !parts.every(part => /^[0-9]{1,4}$/.test(part))) {
        wrong('a place has left, top, width and height, one to four digits each, and nothing behind them');
    }
    const [left, top, width, height] = parts.map(Number);
    const fault = placeFault({ left, top, width, height });
    return fault ? wrong(fault) : { number, place: { left, top, width, height } };
}

/** How the text behind each keyword is read; `wrong` throws. */
const READERS = {
    source: (text, wrong) => readName(text, 'source', LANES, wrong),
    screen: (text, wrong) => readName(text, 'screen', LANES, wrong),
    preset: (text, wrong) => readName(text, 'preset', [0, 65535], wrong),
    place: readPlace,
    photograph: (file, wrong) => (photographFault(file) ? wrong(photographFault(file)) : { file }),
    delay: (delay, wrong) => (delayFault(delay) ? wrong(delayFault(delay)) : { delay }),
};

function parsedLine(raw, number) {
    const wrong = what => {
        throw new WrongNames(number, what);
    };
    const text = raw.replace(BLANKS, '');
    if (text === '' || text.startsWith('#')) return { raw, keyword: null };
    const [keyword, rest] = parted(text);
    if (Object.hasOwn(READERS, keyword)) return { raw, keyword, ...READERS[keyword](rest, wrong) };
    return LATER.test(keyword) ? { raw, keyword: null } : wrong('it begins with no keyword');
}

/** What a line is about: no other line may be about the same. */
function subjectOf({ keyword, number }) {
    return number === undefined ? keyword : `${keyword} ${number}`;
}

/** The lines of a file's bytes, without their ends. */
function linesOf(bytes) {
    const mark = bytes[0] === 0xef && bytes[1] === 0xbb && bytes[2] === 0xbf ? 3 : 0;
    const decoder = new TextDecoder('utf-8', { fatal: true, ignoreBOM: true });
    const lines = [];
    for (let start = mark; start < bytes.length; ) {
        const feed = bytes.indexOf(10, start);
        const crlf = feed > start && bytes[feed - 1] === 13;
        const end = feed < 0 ? bytes.length : feed - (crlf ? 1 : 0);
        try {
            lines.push({ raw: decoder.decode(bytes.subarray(start, end)), crlf });
        } catch {
            throw new WrongNames(lines.length + 1, 'it is no text in UTF-8');
        }
        start = feed < 0 ? bytes.length : feed + 1;
    }
    return lines;
}

/** The names of a file's bytes; throws `WrongNames` at the first wrong line. */
export function readNames(bytes) {
    if (bytes.length > MAX_NAMES_BYTES) throw new WrongNames(1, 'the file has more than 1,048,576 bytes');
    const read = linesOf(bytes);
    const seen = new Set();
    const lines = read.map(({ raw }, at) => {
        const line = parsedLine(raw, at + 1);
        const subject = subjectOf(line);
        if (line.keyword && seen.has(subject)) throw new WrongNames(at + 1, `${subject} stands twice`);
        seen.add(subject);
        return line;
    });
    return { lines, end: read[0]?.crlf ? '\r\n' : '\n' };
}

export function writeNames(names) {
    return new TextEncoder().encode(names.lines.map(line => line.raw + names.end).join(''));
}

/** The name of a source, screen or preset, or ''. */
export function nameOf(names, keyword, number) {
    return names.lines.find(line => line.keyword === keyword && line.number === number)?.name ?? '';
}

/** All names of a keyword, by number. */
export function namesOf(names, keyword) {
    return new Map(names.lines.filter(line => line.keyword === keyword).map(line => [line.number, line.name]));
}

/** A changed line replaces its old one, a new one comes after the last of its keyword; null takes a line away. */
function withLine(names, keyword, number, line) {
    const lines = names.lines.slice();
    const at = lines.findIndex(other => other.keyword === keyword && other.number === number);
    if (at >= 0) lines.splice(at, 1, ...(line ? [line] : []));
    else if (line) {
        const last = lines.findLastIndex(other => other.keyword === keyword);
        lines.splice(last < 0 ? lines.length : last + 1, 0, line);
    }
    return { ...names, lines };
}

/** The names with another name; an empty one takes its line away. */
export function withName(names, keyword, number, text) {
    const name = cleaned(text);
    if (name === nameOf(names, keyword, number)) return names;
    return withLine(names, keyword, number, name ? { raw: `${keyword} ${number} ${name}`, keyword, number, name } : null);
}

/** The places of screens, by number. */
export function placesOf(names) {
    return new Map(names.lines.filter(line => line.keyword === 'place').map(line => [line.number, line.place]));
}

/** The names with another place of a screen: whole thousandths that the format takes, or null for none. */
export function withPlace(names, number, place) {
    const old = placesOf(names).get(number) ?? null;
    if (old === place || (old && place && ['left', 'top', 'width', 'height'].every(side => old[side] === place[side]))) return names;
    if (place === null) return withLine(names, 'place', number, null);
    const { left, top, width, height } = place;
    const raw = `place ${number} ${left} ${top} ${width} ${height}`;
    return withLine(names, 'place', number, { raw, keyword: 'place', number, place: { left, top, width, height } });
}

/** The file name of the photograph, or ''. */
export function photographOf(names) {
    return names.lines.find(line => line.keyword === 'photograph')?.file ?? '';
}

/** The names with another photograph, by a file name that the format takes, or '' for none. */
export function withPhotograph(names, file) {
    if (file === photographOf(names)) return names;
    return withLine(names, 'photograph', undefined, file ? { raw: `photograph ${file}`, keyword: 'photograph', file } : null);
}

/** What one step takes in milliseconds, as it is written, or ''. */
export function delayOf(names) {
    return names.lines.find(line => line.keyword === 'delay')?.delay ?? '';
}

/** The names with another delay, written as the format takes it, or '' for none. */
export function withDelay(names, delay) {
    if (delay === delayOf(names)) return names;
    return withLine(names, 'delay', undefined, delay ? { raw: `delay ${delay}`, keyword: 'delay', delay } : null);
}

/** What the names say of the rig and its cabin; names of presets belong to one book, and so do comments and lines of later versions. */
export function rigNames(names) {
    return { ...names, lines: names.lines.filter(line => line.keyword && line.keyword !== 'preset') };
}

/** What another book's names say of rig and cabin put where there is nothing yet. */
export function withRigNamesOf(names, others) {
    const known = new Set(names.lines.filter(line => line.keyword).map(subjectOf));
    const open = rigNames(others).lines.filter(line => !known.has(subjectOf(line)));
    return open.reduce((filled, line) => withLine(filled, line.keyword, line.number, line), names);
}

/** What is shown: with a name its number too, never the name alone. */
export function labelled(names, keyword, number) {
    const name = nameOf(names, keyword, number);
    return name ? `${number} ${name}` : String(number);
}
