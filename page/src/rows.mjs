// A preset's picture on paper: a drawing for each row, none wider than a page, in which steps that touch different lanes share a
// column if the word is long. The command's report has the same rows. No text is smaller than 11 px, which are 8.25 points.
import { escaped, tag } from './markup.mjs';
import { labelled } from './names.mjs';
import { measuresOf, strandsMarkup, viewMarkup } from './strands.mjs';
import { grouped, signed } from './text.mjs';

/** What a sheet of A4 has between its margins, in pixels. */
export const PAPER = 680;
const TOP = 24;
const [VIEW_WIDE, VIEW_HIGH] = [22, 15];

/** How far apart lanes and columns are, the size of the labels, and the most that a label with a name takes. */
function spacing(lanes) {
    if (lanes <= 16) return { lane: 26, column: 38, size: 12, room: 180, double: true };
    return { lane: lanes <= 32 ? 18 : 14, column: lanes <= 32 ? 38 : 32, size: 11, room: lanes <= 32 ? 150 : 84, double: false };
}

/** About how wide a text is. */
function lengthOf(text, size) {
    let wide = 0;
    for (const character of text) wide += /[MW\u2e80-\u{10ffff}]/u.test(character) ? 5 : /\p{Lu}/u.test(character) ? 4 : 3;
    return wide * size / 5;
}

/** A text that takes no more than so many pixels. */
export function fitted(text, size, room) {
    if (lengthOf(text, size) <= room) return text;
    const characters = [...text];
    while (characters.length > 0 && lengthOf(characters.join(''), size) + size > room) characters.pop();
    return `${characters.join('').trimEnd()}…`;
}

/** The steps in rows of columns: each in a column of its own, or in the first one behind those that touch its lanes. */
export function columnsOf(word, actions, lanes, most, shared) {
    const rows = [];
    let free = [];
    for (const letter of word) {
        const { lanes: touched } = actions[letter];
        let column = most;
        if (rows.length > 0) column = shared ? Math.max(...touched.map(lane => free[lane])) : rows.at(-1).length;
        if (column >= most) {
            rows.push([]);
            free = Array(lanes).fill(0);
            column = 0;
        }
        const row = rows.at(-1);
        (row[column] ??= []).push(letter);
        for (const lane of touched) free[lane] = column + 1;
    }
    return rows.length > 0 ? rows : [[]];
}

/** Each row with its letters and its windows: column by column they are a word with the same window. */
function partsOf(library, { kind, rank, word }, rows) {
    let before = 0;
    return rows.map(columns => {
        const letters = Array.from(word.slice(0, before));
        const windows = [library.window(kind, rank, letters)];
        const first = before;
        for (const column of columns) {
            letters.push(...column);
            before += column.length;
            windows.push(library.window(kind, rank, letters));
        }
        // Nothing is folded away: every row begins and ends with its own windows.
        const [straight, final, total] = [windows[0].map(Math.abs), windows.at(-1), columns.length];
        return { columns, first, last: before, windows, part: { first: 0, last: total, total, letters: columns, windows, straight, final } };
    });
}

function text(x, y, content, { size, anchor = 'start', quiet = false }) {
    return tag('text', { x, y, 'text-anchor': anchor, style: `--text: ${size}px`, class: quiet ? 'step' : null }, escaped(content));
}

/** The steps' numbers, and a dot where one mirrors. */
function marks(columns, actions, m, shared, size) {
    const drawn = [];
    columns.forEach((column, at) => column.forEach(letter => {
        const { lanes, crosses, mirrors } = actions[letter];
        const x = m.x(at) + m.column / 2;
        const y = (m.y(lanes[0]) + m.y(lanes.at(-1))) / 2;
        if (mirrors) drawn.push(`<circle class="dot" cx="${x}" cy="${y}" r="4.5"/>`);
        drawn.push(shared ? text(x + m.arc / 2 - 3, crosses ? y + 4 : y - 4, String(letter), { size: 11, quiet: true })
            : text(x, -6, String(letter), { size: Math.max(size, 11), anchor: 'middle', quiet: true }));
    }));
    return drawn.join('');
}

/** The rows of a preset: each with its caption, '' if it is the only one, and its drawing. */
export function rowsMarkup(library, preset, names) {
    const actions = library.actions(preset.kind, preset.rank);
    const lanes = library.straight(preset.kind, preset.rank).length;
    const { lane, column, size, room, double } = spacing(lanes);
    const numbers = Array.from({ length: lanes }, (_, at) => at + 1);
    const longest = labels => Math.min(room, Math.max(...labels.map(label => lengthOf(label, size))));
    const sources = longest(numbers.map(number => `−${labelled(names, 'source', number)}`));
    const screens = longest(numbers.map(number => `screen ${labelled(names, 'screen', number)}`));
    const left = Math.max(sources, 44) + 8;
    const right = Math.max(8 + VIEW_WIDE + 8 + (double ? Math.max(sources, screens) : sources + 8 + screens), 110);
    const most = Math.max(Math.floor((PAPER - left - right) / column), 1);
    const shared = preset.word.length > most;
    const rows = columnsOf(preset.word, actions, lanes, most, shared);
    const wide = Math.max(...rows.map(row => row.length), 1) * column;
    const end = (entry, at, m) => {
        const x = left + wide + 8;
        const y = TOP + m.y(at);
        const base = y + size / 3 - (double ? 6 : 0);
        const view = viewMarkup(Math.abs(entry), entry < 0).replace('<svg ', `<svg x="${x}" y="${y - VIEW_HIGH / 2}" width="${VIEW_WIDE}" height="${VIEW_HIGH}" style="width: ${VIEW_WIDE}px; height: ${VIEW_HIGH}px" `);
        const label = fitted(`${entry < 0 ? '−' : ''}${labelled(names, 'source', Math.abs(entry))}`, size, room);
        const own = fitted(`screen ${labelled(names, 'screen', at + 1)}`, 11, room);
        const at_x = x + VIEW_WIDE + 8;
        return view + text(at_x, base, label, { size }) + (double ? text(at_x, base + 12, own, { size: 11, quiet: true }) : text(at_x + sources + 8, base, own, { size: 11, quiet: true }));
    };
    return partsOf(library, preset, rows).map(({ columns, first, last, part, windows }, number, all) => {
        const m = { ...measuresOf(part, { lane, column, fold: 0, width: wide }), arc: Math.min(column - 14, 24) };
        const isLast = number + 1 === all.length;
        const begins = windows[0].map((entry, at) => text(left - 6, TOP + m.y(at) + size / 3,
            number === 0 ? fitted(labelled(names, 'source', Math.abs(entry)), size, room) : signed(entry), { size, anchor: 'end' }));
        const ends = windows.at(-1).map((entry, at) => (isLast ? end(entry, at, m)
            : text(left + wide + 8, TOP + m.y(at) + size / 3, signed(entry), { size })));
        const heads = (number === 0 ? text(left - 6, 14, 'source', { size: 13, anchor: 'end', quiet: true }) : '') +
            (isLast ? text(left + wide + 8, 14, 'on the screen', { size: 13, quiet: true }) : '');
        const strands = tag('g', { transform: `translate(${left} ${TOP})` }, strandsMarkup(part, m, marks(columns, actions, m, shared, size)));
        const [width, height] = [left + wide + right, TOP + m.height + 4];
        const letters = `letters ${grouped(first + 1)} to ${grouped(last)} of ${grouped(preset.word.length)}`;
        const frame = { class: 'drawing', role: 'img', 'aria-label': `${preset.kind}${preset.rank}, ${letters}`, viewBox: `0 0 ${width} ${height}`, width, height };
        return { caption: all.length > 1 ? letters : '', markup: tag('svg', frame, heads + strands + begins.join('') + ends.join('')) };
    });
}
