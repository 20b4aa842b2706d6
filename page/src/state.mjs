// What the page holds, every change of it, and the way back. A state is never changed in place: a change makes a new one, so that
// undo is a step back in a list of states.
import { NO_NAMES } from './names.mjs';

/** More steps back than anyone takes; a state shares what did not change with the one before it. */
const MOST_STATES = 1000;

export const NEW_BOOK = Object.freeze({ name: 'new.book', edition: 2, bytes: new Uint8Array(0) });

export const FIRST_STATE = Object.freeze({
    kind: 'D',
    rank: 5,
    word: Object.freeze([]),
    names: NO_NAMES,
    /** Steps whose modules have failed. */
    failed: Object.freeze([]),
    /** The wanted window, or null as long as it is that of the word. */
    wanted: null,
    wantedFrom: 'present',
    /** The preset of this book that the word was loaded from or appended as, or null. */
    kept: null,
    /** The word of the simpler preset of a fallback. */
    simpler: Object.freeze([]),
    /** The book: name, edition, bytes, the handles of its files, and as what it was opened, which a new name does not change. */
    book: NEW_BOOK,
    /** The photograph of the cabin: its file name, its key among the photographs, and whether it lies beside the book; or null. */
    photograph: null,
});

function sameList(one, two) {
    return one === two || (one.length === two.length && one.every((element, at) => element === two[at]));
}

/** What a state composes, as the preset of a book. */
export function presetOf({ kind, rank, word }, number) {
    return { number, kind, rank, word };
}

/** The same word of the same rig. */
export function samePreset(one, two) {
    return one.kind === two.kind && one.rank === two.rank && sameList(one.word, two.word);
}

/** The states and the marks of what is saved. */
export class Store {
    #states;
    #at = 0;
    #listeners = [];
    /** The bytes that are on a disk, by the name of the book: undo may go back to another book. */
    #savedBooks = new Map();

    constructor(first = FIRST_STATE) {
        this.#states = [first];
    }

    get state() {
        return this.#states[this.#at];
    }

    /** Calls back after every change, with the new state and the old one. */
    listen(listener) {
        this.#listeners.push(listener);
    }

    /** Makes a change; the states that were undone are gone with it. */
    change(parts) {
        const old = this.state;
        this.#states = [...this.#states.slice(0, this.#at + 1), { ...old, ...parts }].slice(-MOST_STATES);
        this.#at = this.#states.length - 1;
        this.#tell(old);
    }

    get canUndo() {
        return this.#at > 0;
    }

    get canRedo() {
        return this.#at < this.#states.length - 1;
    }

    undo() {
        this.#go(this.#at - 1);
    }

    redo() {
        this.#go(this.#at + 1);
    }

    #go(at) {
        if (at < 0 || at >= this.#states.length) return;
        const old = this.state;
        this.#at = at;
        this.#tell(old);
    }

    #tell(old) {
        for (const listener of this.#listeners) listener(this.state, old);
    }

    /** The book as it is now, or as it was when it was saved, is on a disk. */
    markBookSaved({ name, bytes } = this.state.book) {
        this.#savedBooks.set(name, bytes);
        this.#tell(this.state);
    }

    /** The word as it is now is in the book, as the preset of this number; in the states before this one it is not. */
    markWordKept(number = null) {
        const old = this.state;
        this.#states[this.#at] = { ...old, kept: presetOf(old, number) };
        this.#tell(old);
    }

    /** Whether the book is on no disk; a new one without a preset has nothing to lose. */
    get bookUnsaved() {
        const { name, bytes } = this.state.book;
        return bytes !== NEW_BOOK.bytes && !sameList(bytes, this.#savedBooks.get(name) ?? NEW_BOOK.bytes);
    }

    get #kept() {
        const { kept } = this.state;
        return kept && samePreset(this.state, kept) ? kept : null;
    }

    /** The number of the preset of the book that is composed here now, as long as nothing of it was changed, or null. */
    get preset() {
        return this.#kept?.number ?? null;
    }

    /** Whether there is a word that was neither loaded from the book nor appended to it. */
    get wordUnsaved() {
        return this.state.word.length > 0 && this.#kept === null;
    }

    /** Whether leaving would lose something. */
    get unsaved() {
        return this.bookUnsaved || this.wordUnsaved;
    }
}
