// The drawing of a preset: strands from the sources to the screens. Where each strand runs is read off the library's windows, one
// after each step that is drawn; only the shapes are made here. A long word is drawn in part: what is left out in front and behind
// is folded into a band that leads every strand from its lane before to its lane after.
import { tag } from './markup.mjs';
import { grouped, signed } from './text.mjs';

/** Eight colours, then the same eight with another dash. */
export const COLOURS = 8;
export const DASHES = ['', '10 5', '3 4', '15 4 3 4', '6 3', '18 6', '3 3 9 3', '22 4'];

export function colourOf(source) {
    return `s${(source - 1) % COLOURS + 1}`;
}

export function dashOf(source) {
    return DASHES[Math.floor((source - 1) / COLOURS) % DASHES.length];
}

/** A part of a preset's steps with the library's windows before and after each of them. */
export function partOf(library, { kind, rank, word }, first = 0, count = word.length) {
    const letters = Uint8Array.from(word);
    const last = Math.min(word.length, first + count);
    const windows = [];
    for (let end = first; end <= last; end++) windows.push(library.window(kind, rank, letters.subarray(0, end)));
    return {
        first,
        last,
        total: word.length,
        letters: Array.from(letters.subarray(first, last)),
        windows,
        straight: library.straight(kind, rank),
        final: last === word.length ? windows.at(-1) : library.window(kind, rank, letters),
    };
}

/** Where a source's strand is in a window: its lane, from 0, and whether it is mirrored. */
export function placeIn(window, source) {
    const lane = window.findIndex(entry => Math.abs(entry) === source);
    return { lane, mirrored: window[lane] < 0 };
}

/** The strand of a source: where it is in front of the part, before and after each step, and at the end. */
export function strandOf(part, source) {
    return {
        source,
        begin: placeIn(part.straight, source),
        places: part.windows.map(window => placeIn(window, source)),
        end: placeIn(part.final, source),
    };
}

/**
 * The measures of a drawing: from lane to lane, from step to step, the bands of what is left out, and the whole width, of which
 * the tail at the right has no steps.
 */
export function measuresOf(part, { lane, column, fold, width, tail = 0 }) {
    const left = part.first > 0 ? fold : 0;
    const right = part.last < part.total ? fold : 0;
    return {
        lane,
        column,
        width,
        end: width - tail,
        left,
        right,
        arc: column - 6,
        x: at => left + at * column,
        y: at => (at + 0.5) * lane,
        height: part.straight.length * lane,
    };
}

/** A strand's path where it is plain and where it is mirrored, and the pieces of it that pass over another. */
function shapeOf(part, strand, m) {
    const shape = { plain: '', mirrored: '', over: [] };
    let { lane, mirrored } = strand.places[0];
    const add = text => (shape[mirrored ? 'mirrored' : 'plain'] += text);
    if (m.left > 0) add(`M${m.left} ${m.y(lane)}`);
    else add(`M0 ${m.y(lane)}`);
    for (let at = 0; at < part.letters.length; at++) {
        const after = strand.places[at + 1];
        if (after.lane === lane && after.mirrored === mirrored) continue;
        const x = m.x(at) + (m.column - m.arc) / 2;
        const half = x + m.arc / 2;
        const [y, next] = [m.y(lane), m.y(after.lane)];
        const between = (y + next) / 2;
        const crosses = after.lane !== lane;
        const before = crosses ? `Q${x + m.arc / 4} ${y} ${half} ${between}` : `H${half}`;
        const behind = crosses ? `Q${half + m.arc / 4} ${next} ${x + m.arc} ${next}` : '';
        add(crosses ? `H${x}${before}` : before);
        if (after.lane > lane) {
            shape.over.push({ at, mirrored, d: `M${x} ${y}${before}` });
            shape.over.push({ at, mirrored: after.mirrored, d: `M${half} ${between}${behind}` });
        }
        if (after.mirrored !== mirrored) {
            mirrored = after.mirrored;
            add(`M${half} ${between}`);
        }
        add(behind);
        lane = after.lane;
    }
    add(`H${m.right ? m.end - m.right : m.width}`);
    return shape;
}

function path(strand, kind, d) {
    const dash = dashOf(strand.source);
    return `<path class="${kind} ${colourOf(strand.source)}"${dash ? ` stroke-dasharray="${dash}"` : ''} d="${d}"/>`;
}

/** A line as it is, or two thin ones where it is mirrored: a thick one with the ground's colour along its middle. */
function drawn(strand, mirrored, d) {
    return mirrored ? `${path(strand, 'outer', d)}<path class="inner" d="${d}"/>` : path(strand, 'line', d);
}

/** The bands of what is left out: every strand from its lane before them to its lane after. */
function folds(part, strand, m) {
    const band = (x, wide, from, to) => {
        const [middle, before, after] = [x + wide / 2, m.y(from.lane), m.y(to.lane)];
        const d = `M${x} ${before}C${middle} ${before} ${middle} ${after} ${x + wide} ${after}`;
        return tag('path', { class: `fold ${colourOf(strand.source)}`, d });
    };
    const front = m.left ? band(0, m.left, strand.begin, strand.places[0]) : '';
    if (!m.right) return front;
    const tail = drawn(strand, strand.end.mirrored, `M${m.end} ${m.y(strand.end.lane)}H${m.width}`);
    return front + band(m.end - m.right, m.right, strand.places.at(-1), strand.end) + tail;
}

/** A dot for each step that mirrors. */
function dots(part, m) {
    const marks = [];
    for (let at = 0; at < part.letters.length; at++) {
        const [before, after] = [part.windows[at], part.windows[at + 1]];
        const touched = before.map((_, lane) => lane).filter(lane => before[lane] !== after[lane]);
        if (before[touched[0]] * after[touched.at(-1)] > 0) continue;
        const y = (m.y(touched[0]) + m.y(touched.at(-1))) / 2;
        marks.push(`<circle class="dot" cx="${m.x(at) + m.column / 2}" cy="${y}" r="4.5"/>`);
    }
    return marks.join('');
}

/** The strands of a part as SVG, with a broad unseen line over each for the pointer, and the marks of the steps. */
export function strandsMarkup(part, m, marks = dots(part, m)) {
    const strands = part.straight.map(source => strandOf(part, source));
    const shapes = strands.map(strand => shapeOf(part, strand, m));
    const base = [];
    const over = [];
    strands.forEach((strand, at) => {
        const { plain, mirrored, over: pieces } = shapes[at];
        const hit = `<path class="hit" d="${plain}${mirrored}"/>`;
        const lines = (plain ? drawn(strand, false, plain) : '') + (mirrored ? drawn(strand, true, mirrored) : '');
        base.push(`<g data-strand="${strand.source}">${folds(part, strand, m)}${lines}${hit}</g>`);
        if (pieces.length === 0) return;
        const halo = `<path class="halo" d="${pieces.map(piece => piece.d).join('')}"/>`;
        const top = [false, true].map(side => {
            const d = pieces.filter(piece => piece.mirrored === side).map(piece => piece.d).join('');
            return d ? drawn(strand, side, d) : '';
        });
        over.push(`<g data-strand="${strand.source}" class="over">${halo}${top.join('')}</g>`);
    });
    return base.join('') + over.join('') + marks;
}

/** A view in which left and right differ at a glance: an F and an arrow, turned over where it is mirrored. */
export function viewMarkup(source, mirrored) {
    const turned = mirrored ? ' transform="translate(44 0) scale(-1 1)"' : '';
    return `<svg class="view ${colourOf(source)}" viewBox="0 0 44 30" aria-hidden="true"><g${turned}>` +
        '<rect class="frame" x="1.5" y="1.5" width="41" height="27" rx="3"/>' +
        '<path class="glyph" d="M8 6H19V10H12.5V13.5H17.5V17.5H12.5V24H8Z"/>' +
        '<path class="arrow" d="M22 20H36M31 15.5L36 20L31 24.5"/></g></svg>';
}

/** Steps so many and no more are drawn in a small picture. */
function fitted(word, columns, at) {
    if (word.length <= columns) return [0, word.length];
    const shown = Math.max(columns - 2, 1);
    const first = Math.min(Math.max(at - Math.floor(shown / 3), 0), word.length - shown);
    return [first, shown];
}

/**
 * A whole picture by itself, for panels and paper: numbers and views at both ends, the steps above. `marks` are the places of
 * steps that stand out, `around` is a place that has to be seen where the word is too long for the width.
 */
export function pictureMarkup(library, preset, options = {}) {
    const { width = 640, lane = 24, column = 30, around = 0, marks = null, letters = true, ends = true } = options;
    const [left, right] = ends ? [26, 76] : [4, 4];
    const top = letters ? 20 : 2;
    const inside = width - left - right;
    const [first, count] = fitted(preset.word, Math.floor(inside / column), around);
    const part = partOf(library, preset, first, count);
    const m = measuresOf(part, { lane, column, fold: column, width: inside });
    const height = top + m.height;
    const frame = {
        class: 'drawing', role: 'img', 'aria-label': options.title ?? 'picture of the preset',
        viewBox: `0 0 ${width} ${height}`, width, height, style: `--text: ${Math.min(14, lane)}px`,
    };
    const strands = tag('g', { transform: `translate(${left} ${top})` }, strandsMarkup(part, m));
    const steps = letters ? stepMarks(part, m, left, height, marks) : '';
    return tag('svg', frame, strands + steps + (ends ? endMarks(part, m, left, width - right, top) : ''));
}

/** The steps' numbers above a picture, with a band behind those that stand out, and how many steps are left out. */
function stepMarks(part, m, left, height, marks) {
    const text = (x, content, kind) => tag('text', { class: kind, x, y: 14, 'text-anchor': 'middle' }, content);
    const list = part.letters.map((letter, at) => {
        const x = left + m.x(at);
        const stands = marks?.has(part.first + at) ?? false;
        const band = stands ? tag('rect', { class: 'band', x, y: 0, width: m.column, height }) : '';
        return text(x + m.column / 2, letter, stands ? 'marked' : 'step') + band;
    });
    if (m.left) list.push(text(left + m.left / 2, `+${grouped(part.first)}`, 'small'));
    if (m.right) list.push(text(left + m.end - m.right / 2, `+${grouped(part.total - part.last)}`, 'small'));
    return list.join('');
}

/** The sources' numbers at the left of a picture, and what the screens show at its right. */
function endMarks(part, m, left, right, top) {
    const drop = Math.min(14, m.lane) / 3;
    const size = Math.min(m.lane - 3, 20);
    const wide = size * 44 / 30;
    return part.straight.map((source, at) => {
        const y = top + m.y(at);
        const entry = part.final[at];
        const place = `<svg x="${right + 4}" y="${y - size / 2}" width="${wide}" height="${size}" `;
        return tag('text', { x: left - 6, y: y + drop, 'text-anchor': 'end' }, source) +
            viewMarkup(Math.abs(entry), entry < 0).replace('<svg ', place) +
            tag('text', { x: right + wide + 9, y: y + drop }, signed(entry));
    }).join('');
}
