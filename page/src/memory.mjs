// What the page remembers from one visit to the next, in the browser's own store: the rig, and the names of each book. A browser that
// keeps nothing makes no difference but that.
import { readNames, writeNames } from './names.mjs';

const RIG = 'winnathey rig';
const NAMES = 'winnathey names';
const VISIT = 'winnathey visit';
/** So many states of one book have their names remembered: one that was changed and not saved is opened again as it was before. */
const STATES = 8;

function kept(key) {
    try {
        return localStorage.getItem(key);
    } catch {
        return null;
    }
}

function keep(key, text) {
    try {
        localStorage.setItem(key, text);
    } catch {
        // It has no room, or may keep nothing.
    }
}

/** Whether nothing of the page is kept in this browser: no rig, no names, no draft, and no choice that was made before. */
export function isFirstVisit() {
    try {
        return !Object.keys(localStorage).some(key => key.startsWith('winnathey '));
    } catch {
        return true;
    }
}

export function rememberVisit() {
    keep(VISIT, 'seen');
}

/** A number for bytes, by which the same book is known again: FNV-1a, with the length. It is no proof against malice. */
export function printOf(bytes) {
    const hash = bytes.reduce((print, byte) => Math.imul(print ^ byte, 16777619) >>> 0, 2166136261);
    return `${bytes.length} ${hash}`;
}

/** Remembers the rig and the names, with whether they are in a file. */
export function remember({ kind, rank, names, book }, saved) {
    const text = new TextDecoder().decode(writeNames(names));
    keep(RIG, JSON.stringify({ kind, rank }));
    const print = printOf(book.bytes);
    const others = statesOf(book.name).filter(state => state.print !== print);
    const states = [{ print, text, saved }, ...others].slice(0, STATES);
    keep(`${NAMES} of ${book.name}`, JSON.stringify(states));
}

/** What is remembered of the books of a name, the last one first. */
function statesOf(name) {
    try {
        const states = JSON.parse(kept(`${NAMES} of ${name}`));
        return [states ?? []].flat();
    } catch {
        return [];
    }
}

function namesIn(text) {
    try {
        return text === null ? null : readNames(new TextEncoder().encode(text));
    } catch {
        return null;
    }
}

/** The rig of the last visit, if the library takes it. */
export function rememberedRig(library) {
    try {
        const { kind, rank } = JSON.parse(kept(RIG));
        return ['A', 'B', 'D'].includes(kind) && library.ranks(kind).includes(rank) ? { kind, rank } : {};
    } catch {
        // Nothing was kept, or nothing that can be read.
        return {};
    }
}

/** The names that this very book had when it was last open, and whether they are in a file: another of the same file name has other presets. */
export function rememberedNames({ name, bytes }) {
    const print = printOf(bytes);
    const { text = null, saved = false } = statesOf(name).find(state => state.print === print) ?? {};
    return { known: namesIn(text), saved };
}
