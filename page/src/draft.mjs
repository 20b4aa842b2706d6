// The draft: what is worked on is kept in the browser's own store, so that a reload or a closed window loses nothing. Each window has
// a draft of its own; those of windows that were left are offered at the next start, with their time.
import { readNames, writeNames } from './names.mjs';

const KEY = 'winnathey draft ';
/** So many drafts are kept, the latest. */
const MOST = 4;
/** A draft is written so many milliseconds after the last change, and when the window is left. */
const PAUSE = 300;

function texted(bytes) {
    return btoa(Array.from(bytes, byte => String.fromCharCode(byte)).join(''));
}

function bytesIn(text) {
    return Uint8Array.from(atob(text), character => character.charCodeAt(0));
}

/**
 * A state as text, with whether its book, its names and its photograph are on a disk, text of the field that is no word, and titles and
 * remarks of the sheets.
 */
export function draftOf(state, { saved, savedNames, savedPhotograph, typed, headings = [], time }) {
    const { kind, rank, word, names, book, kept, photograph = null } = state;
    const { name, edition, bytes, opened } = book;
    const parts = { time, kind, rank, word: Array.from(word), names: texted(writeNames(names)), kept, photograph, saved, savedNames, savedPhotograph, typed, headings };
    return JSON.stringify({ ...parts, book: { name, edition, bytes: texted(bytes), opened } });
}

/** What a draft holds as parts of a state, or null where the library does not take it, or nothing was worked on. */
export function readDraft(library, text) {
    try {
        const { time, kind, rank, word, names, book, kept, photograph = null, saved, savedNames, savedPhotograph, typed, headings = [] } = JSON.parse(text);
        const bytes = bytesIn(book.bytes);
        library.window(kind, rank, word);
        library.bookCheck(book.edition, bytes);
        const state = { kind, rank, word, names: readNames(bytesIn(names)), book: { name: String(book.name), edition: book.edition, bytes, ...(book.opened && { opened: String(book.opened) }) }, kept, photograph };
        const empty = word.length === 0 && bytes.length === 0 && state.names.lines.length === 0 && typed === null;
        return empty ? null : { time, state, saved, savedNames, savedPhotograph, typed, headings };
    } catch {
        return null;
    }
}

export class Draft {
    #key = KEY + Math.random().toString(36).slice(2);
    #waiting = 0;
    /** Whether the browser keeps the draft as it is now. */
    kept = true;

    constructor(library, contents) {
        [this.library, this.contents] = [library, contents];
        addEventListener('pagehide', () => this.write());
        // Another window that starts fresh discards what it was offered: this one is still open.
        addEventListener('storage', event => event.key === this.#key && event.newValue === null && this.write());
    }

    writeSoon() {
        clearTimeout(this.#waiting);
        this.#waiting = setTimeout(() => this.write(), PAUSE);
    }

    /** Writes what is worked on now; with no room for all drafts the oldest give way. */
    write() {
        clearTimeout(this.#waiting);
        const { state, ...about } = this.contents();
        const text = draftOf(state, { ...about, time: Date.now() });
        const others = this.#others();
        for (let left = Math.min(others.length, MOST - 1); left >= 0; left--) {
            for (const { key } of others.slice(left)) this.#remove(key);
            this.kept = this.#put(text);
            if (this.kept) return;
        }
    }

    /** The drafts of other windows and earlier visits, the latest first. */
    #others() {
        try {
            const keys = Object.keys(localStorage).filter(key => key.startsWith(KEY) && key !== this.#key);
            const drafts = keys.map(key => ({ key, draft: readDraft(this.library, localStorage.getItem(key)) }));
            for (const { key, draft } of drafts) if (!draft) this.#remove(key);
            return drafts.filter(({ draft }) => draft).sort((one, two) => two.draft.time - one.draft.time);
        } catch {
            return [];
        }
    }

    #put(text) {
        try {
            if (readDraft(this.library, text) === null) localStorage.removeItem(this.#key);
            else localStorage.setItem(this.#key, text);
            return true;
        } catch {
            return false;
        }
    }

    #remove(key) {
        try {
            localStorage.removeItem(key);
        } catch {
            // A store that cannot be written keeps it.
        }
    }

    /** The drafts that were left, the latest first. */
    get offered() {
        return this.#others();
    }

    /** Forgets drafts that were taken up or are not wanted. */
    discard(list) {
        for (const { key } of list) this.#remove(key);
    }
}
