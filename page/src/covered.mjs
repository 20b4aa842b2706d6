// Screens that stand in front of others: what is still seen of those behind them, and how that is said.
import { labelled } from './names.mjs';
import { largestFirst, overlap, unplaced } from './places.mjs';
import { listed } from './text.mjs';

/** A screen of which less than this share is seen in one piece counts as hidden, unless that piece is so wide and high. */
const SEEN = 0.25;
const ENOUGH = [100, 80];
/** So many screens are listed, in so many sentences. */
const [MOST_LISTED, MOST_SENTENCES] = [8, 3];

function areaOf({ width, height }) {
    return width * height;
}

function holds(one, two) {
    return one.left <= two.left && one.top <= two.top && one.left + one.width >= two.left + two.width && one.top + one.height >= two.top + two.height;
}

/** What is left of rectangles when another is cut out: of each up to four, which may overlap one another. */
function without(parts, other) {
    const [right, bottom] = [other.left + other.width, other.top + other.height];
    const cut = part => (!overlap(part, other) ? [part] : [
        { ...part, width: other.left - part.left },
        { ...part, left: right, width: part.left + part.width - right },
        { ...part, height: other.top - part.top },
        { ...part, top: bottom, height: part.top + part.height - bottom },
    ].filter(({ width, height }) => width > 0 && height > 0));
    const all = parts.flatMap(cut);
    // Of two that are equal the first stays.
    return all.filter((one, at) => !all.some((two, before) => before !== at && holds(two, one) && (before < at || !holds(one, two))));
}

/** The rectangles of a place that none of the others covers, each as large as it can be. They may overlap one another. */
export function openParts(place, others) {
    return others.reduce(without, [place]);
}

/** Whether enough of a place is seen in one piece to tell what is on it. */
function enough(part, place) {
    return areaOf(part) >= SEEN * areaOf(place) || (part.width >= ENOUGH[0] && part.height >= ENOUGH[1]);
}

/** The screens that are drawn over each screen, by its number: smaller ones stand in front. */
export function inFront(places) {
    const order = largestFirst(places);
    return new Map(order.map((screen, at) => [screen, order.slice(at + 1).filter(other => overlap(places[screen - 1], places[other - 1]))]));
}

/** The screens of which nothing or little is seen, each with those in front of it. */
export function hiddenScreens(places) {
    const hidden = [];
    for (const [screen, others] of inFront(places)) {
        const place = places[screen - 1];
        const open = openParts(place, others.map(other => places[other - 1]));
        if (!open.some(part => enough(part, place))) hidden.push({ screen, behind: others.sort((one, two) => one - two), wholly: open.length === 0 });
    }
    return hidden.sort((one, two) => one.screen - two.screen);
}

/** `screen 4 left mirror`, `screens 2, 3 and 4`. */
function screensText(names, screens) {
    const few = screens.length > MOST_LISTED ? [...screens.slice(0, MOST_LISTED - 1), null] : screens;
    const texts = few.map(screen => (screen === null ? `${screens.length - MOST_LISTED + 1} more` : labelled(names, 'screen', screen)));
    return `screen${screens.length === 1 ? '' : 's'} ${listed(texts)}`;
}

function begun(text) {
    return text[0].toUpperCase() + text.slice(1);
}

/** Which screens are hidden behind which, in sentences with what to do about it; '' if every screen is seen. */
export function hiddenText(names, places, remedy = '') {
    const groups = new Map();
    for (const { screen, behind, wholly } of hiddenScreens(places)) {
        const key = `${wholly} ${behind}`;
        groups.set(key, { behind, wholly, screens: [...groups.get(key)?.screens ?? [], screen] });
    }
    const told = ({ screens, behind, wholly }) =>
        `${begun(screensText(names, screens))} ${screens.length === 1 ? 'is' : 'are'} ${wholly ? '' : 'mostly '}hidden behind ${screensText(names, behind)}`;
    const all = [...groups.values()];
    const few = all.slice(0, MOST_SENTENCES).map(told);
    const more = all.slice(MOST_SENTENCES).flatMap(({ screens }) => screens);
    if (more.length > 0) few.push(`${more.length} more ${more.length === 1 ? 'is' : 'are'} hidden too`);
    return few.length === 0 ? '' : `${few.join('. ')}${remedy && `: ${remedy}`}.`;
}

/** Where the screens stand that have no place yet, beside others that have one; '' if there are none. */
export function unplacedText(names, places) {
    const open = unplaced(names, places.length);
    const arranged = places.map((_, at) => at + 1).filter(screen => !open.includes(screen));
    const over = screen => arranged.filter(other => overlap(places[screen - 1], places[other - 1]));
    const crowded = open.filter(screen => over(screen).length > 0);
    const free = open.filter(screen => !crowded.includes(screen));
    const have = (screens, one, many) => `${begun(screensText(names, screens))} ${screens.length === 1 ? one : many}`;
    const sentences = [];
    if (free.length > 0) sentences.push(have(free, 'has no place yet and stands where there is room.', 'have no place yet and stand where there is room.'));
    if (crowded.length > 0) {
        const others = [...new Set(crowded.flatMap(over))].sort((one, two) => one - two);
        const front = inFront(places);
        const before = crowded.every(screen => over(screen).every(other => front.get(other).includes(screen)));
        sentences.push(have(crowded, 'has no place yet, and there is no room: it', 'have no place yet, and there is no room: they') +
            ` ${before ? (crowded.length === 1 ? 'stands in front of' : 'stand in front of') : (crowded.length === 1 ? 'overlaps' : 'overlap')} ${screensText(names, others)}.`);
    }
    return sentences.join(' ');
}
