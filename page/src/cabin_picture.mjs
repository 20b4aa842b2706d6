// The cabin as a drawing: every screen where it stands, with the source that it shows, the right way round. It is drawn in pixels,
// so that its text has one size on a phone, on a wall and on paper; a screen too small for its text shows less of it.
import { MARKS, differsFrame, markOf, signMarkup } from './cabin_marks.mjs';
import { hiddenText, inFront, openParts, unplacedText } from './covered.mjs';
import { escaped, tag } from './markup.mjs';
import { CABIN, labelled, nameOf } from './names.mjs';
import { overlap, placesIn, shapeOf } from './places.mjs';
import { colourOf, dashOf, viewMarkup } from './strands.mjs';

/** The size of the text below the cabin. */
const NOTE_SIZE = 13;

/** How wide a bold character is, in parts of the text's size, in a font that is wide. What is wider still is cut off. */
function wide(character) {
    if (/[ijl.,:;'|! ]/.test(character)) return 0.36;
    if (/[frtI()\-]/.test(character)) return 0.48;
    if (/[mwMW%…]/.test(character)) return 1.04;
    if (/[A-Z]/.test(character)) return 0.79;
    return character.codePointAt(0) > 0x2e7f ? 1.1 : 0.7;
}

/** The width of a text in pixels, estimated: no browser is needed. */
export function textWidth(text, size) {
    return [...text].reduce((sum, character) => sum + wide(character) * size, 0);
}

/** As much of a text as fits a width, with dots for the rest. */
export function fitted(text, size, width) {
    if (textWidth(text, size) <= width) return text;
    const characters = [...text];
    while (characters.length > 0 && textWidth(`${characters.join('')}…`, size) > width) characters.pop();
    return characters.length === 0 ? '' : `${characters.join('').trimEnd()}…`;
}

/** A source or screen by number and name, or as `source 5`: two numbers alone could be taken for one another. */
function called(names, keyword, number) {
    return nameOf(names, keyword, number) ? labelled(names, keyword, number) : `${keyword} ${number}`;
}

/** A source on a screen in words: `5 rear left mirrored`. */
export function shownText(names, entry) {
    return `${called(names, 'source', Math.abs(entry))}${entry < 0 ? ' mirrored' : ''}`;
}

/** The first of several texts that fits a width, or as much of the last as fits. */
function fitting(texts, size, width) {
    return texts.find(text => textWidth(text, size) <= width) ?? fitted(texts.at(-1), size, width);
}

/** The name of a screen and what it shows, in lines of a width; 'mirrored' is a line of its own if there is room for three. */
function linesFor(names, screen, entry, size, width, three) {
    const number = Math.abs(entry);
    const source = called(names, 'source', number);
    const label = (text, alone) => (/^[a-z]+ \d+$/.test(text) ? [text, alone] : [text]);
    const first = fitting(label(called(names, 'screen', screen), String(screen)), size, width);
    if (entry > 0 || three) return [first, fitting(label(source, String(number)), size, width), ...(entry < 0 ? [fitted('mirrored', size, width)] : [])];
    return [first, fitting([`${source}, mirrored`, `${number}, mirrored`, ...label(source, String(number))], size, width)];
}

/** The numbers of the screens on which two windows differ; one that only one of them has differs too. */
export function differences(window, against) {
    const all = Array.from({ length: Math.max(window.length, against.length) }, (_, at) => at + 1);
    return all.filter(screen => window[screen - 1] !== against[screen - 1]);
}

/** A screen that differs, in words. `other` is what the second picture is: 'wanted', or 'in preset 3'. */
export function differenceText(names, screen, window, against, other) {
    const [shown, wanted] = [window[screen - 1], against[screen - 1]];
    const preset = other !== 'wanted';
    // Behind the number of a preset, that of a source needs a word before it.
    const source = entry => shownText(names, entry).replace(/^(?=\d)/, preset ? 'source ' : '');
    const first = shown === undefined ? 'is not in the present picture' : `shows ${source(shown)}`;
    const second = wanted === undefined ? `is not ${other}` : `${other}${preset ? ' it shows' : ''} ${source(wanted)}`;
    return `screen ${labelled(names, 'screen', screen)}: ${first}, ${second}`;
}

/**
 * What a box has room for: everything one below the other, where need be without the word 'mirrored', which the view and the frame show
 * too; a view with text beside it; or numbers and a view alone.
 */
function layoutOf({ width, height }, mirrored) {
    const size = Math.min(Math.max(Math.floor(Math.min(height / 7, width / 9)), 11), 19);
    const line = size * 1.3;
    const room = lines => Math.min(height - 10 - line * lines, (width - 16) * 0.5, 110);
    const roomy = width >= 120;
    const least = roomy ? 20 : 13;
    const lines = mirrored && room(3) >= least ? 3 : 2;
    if (width >= 54 && room(lines) >= least) return { kind: 'tall', size, line, view: room(lines), lines };
    if (width >= 84 && height >= 34) return { kind: 'flat', size: roomy ? 12 : 11, line: roomy ? 15 : 14, view: Math.min(height - 10, roomy ? 30 : 20) };
    return { kind: 'tiny', size: 11, line: 13, view: Math.max(Math.min(height - 4, width / 4, 18), 11) };
}

/** A view at a place of a drawing; its own size in the style is for the page. */
function viewAt(entry, x, y, height) {
    const width = height * 44 / 30;
    const place = `<svg x="${x}" y="${y}" width="${width}" height="${height}" style="width: ${width}px; height: ${height}px" `;
    return viewMarkup(Math.abs(entry), entry < 0).replace('<svg ', place);
}

function textAt(content, x, y, size, attributes = {}) {
    return content === '' ? '' : tag('text', { x, y, style: `font-size: ${size}px`, ...attributes }, escaped(content));
}

/** Lines of text and a view one below the other, in the middle of the box. */
function tallContent(names, screen, entry, box, { size, line, view, lines }) {
    const room = box.width - 8;
    const texts = linesFor(names, screen, entry, size, room, lines === 3);
    const high = line * texts.length + view + 4;
    const text = Math.max(...texts.map(text => textWidth(text, size)), view * 44 / 30) + 16;
    // A plate that leaves little of the box leaves nothing.
    const across = text > box.width * 0.75 ? box.width - 4 : text;
    const top = (box.height - high) / 2;
    const down = high + 8 > box.height * 0.8 ? box.height - 4 : high + 8;
    const below = top + line + view + 3;
    // Of a text that was cut, the front is what counts.
    const textLine = (content, y, attributes = {}) => (content.endsWith('…')
        ? textAt(content, 4, y, size, attributes) : textAt(content, box.width / 2, y, size, { 'text-anchor': 'middle', ...attributes }));
    return {
        plate: { x: (box.width - across) / 2, y: (box.height - down) / 2, width: across, height: down },
        markup: textLine(texts[0], top + size, { class: 'cabin-name' }) + viewAt(entry, box.width / 2 - view * 22 / 30, top + line + 1, view) +
            textLine(texts[1], below + size) + textLine(texts[2] ?? '', below + line + size, { class: 'cabin-name' }),
    };
}

/** A view with two or three lines of text beside it. */
function flatContent(names, screen, entry, box, { size, line, view }) {
    const left = 10 + view * 44 / 30;
    const room = box.width - left - 6;
    const lines = linesFor(names, screen, entry, size, room, box.height >= 3 * line + 6);
    const high = line * lines.length;
    const top = (box.height - high) / 2;
    const texts = lines.map((text, at) => textAt(text, left, top + line * at + size, size, { class: at === 1 ? null : 'cabin-name' }));
    const plate = Math.max(high, view) + 4;
    return {
        plate: { x: 3, y: (box.height - plate) / 2, width: box.width - 6, height: plate },
        markup: viewAt(entry, 5, (box.height - view) / 2, view) + texts.join(''),
    };
}

/** The screen's number, a view, the source's number; where the box is smaller than that, over its edges. */
function tinyContent(names, screen, entry, box, { size, view }) {
    const wideView = view * 44 / 30;
    const digits = textWidth(String(screen), size);
    const across = digits + wideView + textWidth(String(Math.abs(entry)), size) + 8;
    const left = (box.width - across) / 2;
    const base = box.height / 2 + size * 0.36;
    const high = Math.max(view, size) + 2;
    return {
        plate: { x: left, y: (box.height - high) / 2, width: across, height: high },
        markup: textAt(String(screen), left + 2, base, size, { class: 'cabin-name' }) +
            viewAt(entry, left + digits + 4, (box.height - view) / 2, view) +
            textAt(String(Math.abs(entry)), left + digits + wideView + 6, base, size),
    };
}

const CONTENT = { tall: tallContent, flat: flatContent, tiny: tinyContent };

/** How much a layout shows in a room, to compare it with others: two numbers of two digits and a view fit, or run out of it. */
function shownBy({ kind, view }, { width, height }) {
    return { tall: 3000, flat: 2000, tiny: width >= 52 && height >= 13 ? 1000 : 0 }[kind] + view;
}

/** The frame in the source's colour and dash; a double line where the view is mirrored, as in the picture of the strands. */
function frameMarkup(entry, { width, height }, photograph) {
    const around = { x: 0, y: 0, width, height, rx: 4, 'stroke-dasharray': dashOf(Math.abs(entry)) || null };
    const line = kind => tag('rect', { ...around, class: kind });
    const solid = kind => tag('rect', { ...around, class: kind, 'stroke-dasharray': null });
    const halo = photograph ? solid('cabin-halo') : '';
    return halo + (entry < 0 ? line('cabin-double') + solid('cabin-inner') : line('cabin-line'));
}

/** The sign beside a view that stands between lines of text, which then have the whole width; or null where there is no room for that. */
function besideView(area, mirrored) {
    const { radius, edge, side } = MARKS[markOf(area)];
    const room = { left: area.left + side, top: area.top + edge, width: area.width - 2 * side, height: area.height - 2 * edge };
    const layout = layoutOf(room, mirrored);
    const view = Math.min(layout.view, (room.width - 4 * radius - 16) * 30 / 44);
    if (layout.kind !== 'tall' || view < 2 * radius - 1) return null;
    const top = room.top + (room.height - layout.line * layout.lines - view - 4) / 2;
    return { room, layout: { ...layout, view }, sign: { x: area.left + area.width - edge - radius - 3, y: top + layout.line + 1 + view / 2 } };
}

/** The sign in the upper right corner of a part of the box, and the room beside it or below it, whichever can show more. */
function inCorner(area, mirrored) {
    const { radius, edge } = MARKS[markOf(area)];
    const across = 2 * radius + 3;
    const room = (right, top) => ({
        left: area.left + edge, top: area.top + top, width: Math.max(area.width - edge - right, 1), height: Math.max(area.height - edge - top, 1),
    });
    const shows = part => shownBy(layoutOf(part, mirrored), part);
    const [beside, below] = [room(across, edge), room(edge, across)];
    const best = shows(beside) >= shows(below) ? beside : below;
    return { room: best, layout: layoutOf(best, mirrored), sign: { x: area.left + area.width - radius - 2, y: area.top + radius + 2 } };
}

/**
 * The content of a screen in a part of its box, with the sign of a difference: how much it shows, what of the box it takes, and whether
 * it stands over the frame.
 */
function contentIn(names, screen, entry, area, differs) {
    const mirrored = entry < 0;
    const marked = differs ? besideView(area, mirrored) ?? inCorner(area, mirrored) : null;
    const { room, layout } = marked ?? { room: area, layout: layoutOf(area, mirrored) };
    const { plate, markup } = CONTENT[layout.kind](names, screen, entry, room, layout);
    const tiny = layout.kind === 'tiny';
    const inside = {
        x: room.left, y: room.top, width: room.width, height: room.height, viewBox: `0 0 ${room.width} ${room.height}`, class: tiny ? 'cabin-over' : 'cabin-inside',
    };
    const taken = { left: room.left + plate.x, top: room.top + plate.y, width: plate.width, height: plate.height };
    const size = markOf(area);
    const { radius } = MARKS[size];
    return {
        tiny,
        shows: shownBy(layout, room),
        taken: marked ? [taken, { left: marked.sign.x - radius, top: marked.sign.y - radius, width: 2 * radius, height: 2 * radius }] : [taken],
        markup: tag('svg', inside, tag('rect', { class: 'cabin-plate', rx: 3, ...plate }) + markup),
        sign: marked ? signMarkup(size, marked.sign) : '',
    };
}

/** The content of a screen where it is seen: if screens in front cover some of it, in the open part of the box that can show the most. */
function seenContent(box, front, contentOf) {
    const whole = { left: 0, top: 0, width: box.width, height: box.height };
    const others = front.map(other => ({ ...other, left: other.left - box.left, top: other.top - box.top }));
    const isSeen = content => !content.taken.some(part => others.some(other => overlap(part, other)));
    const content = contentOf(whole);
    if (isSeen(content)) return content;
    const seen = openParts(whole, others).map(contentOf).filter(isSeen);
    return seen.reduce((most, next) => (most && most.shows >= next.shows ? most : next), null) ?? content;
}

function screenMarkup({ names, photograph }, screen, entry, box, front, differs) {
    const { tiny, markup, sign } = seenContent(box, front, area => contentIn(names, screen, entry, area, differs));
    const text = `screen ${labelled(names, 'screen', screen)} shows ${shownText(names, entry)}`;
    const ground = { class: photograph ? 'cabin-glass' : 'cabin-plate', width: box.width, height: box.height, rx: 4 };
    const attributes = {
        class: `cabin-screen ${colourOf(Math.abs(entry))}`, 'data-screen': screen, 'data-entry': entry,
        'data-differs': differs ? 'yes' : null, transform: `translate(${box.left} ${box.top})`,
    };
    const frame = frameMarkup(entry, box, photograph) + (differs ? differsFrame(box) : '');
    const parts = tiny ? frame + markup : markup + frame;
    return tag('g', attributes, tag('title', {}, escaped(text)) + tag('rect', ground) + parts + sign);
}

/** A text in lines of a width. */
function wrapped(text, size, width) {
    const lines = [];
    for (const word of text.split(' ')) {
        const longer = `${lines.at(-1)} ${word}`;
        if (lines.length > 0 && textWidth(longer, size) <= width) lines[lines.length - 1] = longer;
        else lines.push(word);
    }
    return lines;
}

/** All that the drawing says, for those who do not see it. */
function allText({ names, window }, title, note) {
    return `${title}: ${window.map((entry, at) => `screen ${labelled(names, 'screen', at + 1)} shows ${shownText(names, entry)}`).join('; ')}${note && `. ${note}`}`;
}

/**
 * A window in the cabin, as SVG. `lanes` is how many screens the grid has of those that were not arranged; `places` replaces those of the
 * names; `against` is a window whose differences are marked. The photograph is { url, width, height }: drawn where there is a url. Below
 * the cabin stands which screens have no place of their own and which are hidden, unless `noted` is false.
 */
export function cabinPicture({
    window, names, lanes = window.length, width = 680, photograph = null, against = null, places = placesIn(names, lanes), title = 'the cabin', noted = true,
}) {
    const height = Math.round(width / shapeOf(photograph));
    const differing = new Set(against ? differences(window, against) : []);
    const seen = places.slice(0, window.length);
    const boxes = seen.map(place => ({
        left: place.left * width / CABIN, top: place.top * height / CABIN, width: place.width * width / CABIN, height: place.height * height / CABIN,
    }));
    const note = noted ? [unplacedText(names, seen), hiddenText(names, seen)].filter(Boolean).join(' ') : '';
    const lines = note ? wrapped(note, NOTE_SIZE, width) : [];
    const high = height + Math.ceil(lines.length * NOTE_SIZE * 1.4);
    const frame = { class: 'drawing cabin-drawing', role: 'img', 'aria-label': allText({ names, window }, title, note), width, height: high, viewBox: `0 0 ${width} ${high}` };
    const image = photograph?.url ? tag('image', { href: photograph.url, width, height, class: 'cabin-photograph' }) : '';
    const ground = tag('rect', { class: photograph ? 'cabin-edge' : 'cabin-ground', width, height });
    const front = inFront(seen);
    const screens = [...front].map(([screen, others]) => screenMarkup({ names, photograph }, screen, window[screen - 1], boxes[screen - 1],
        others.map(other => boxes[other - 1]), differing.has(screen)));
    const below = lines.map((line, at) => textAt(line, 0, height + (at + 1) * NOTE_SIZE * 1.4 - 2, NOTE_SIZE, { class: 'cabin-note' }));
    return tag('svg', frame, image + ground + screens.join('') + below.join(''));
}
