// Names and photographs that are in files, as far as the page knows, by the name of their book: undo finds those of another book as they
// are on the disk, and a book with a new name has none there yet.
import { NO_NAMES, photographOf, writeNames } from './names.mjs';
import { NEW_BOOK } from './state.mjs';

const texts = new WeakMap();

function textOf(names) {
    if (!texts.has(names)) texts.set(names, new TextDecoder().decode(writeNames(names)));
    return texts.get(names);
}

function placeOf({ book, photograph }) {
    return `${book.name}\n${photograph.file}`;
}

/** The photograph of a book that goes to other files: it may not lie beside those. */
export function elsewhere({ photograph }) {
    return photograph && { ...photograph, beside: false };
}

export class Saved {
    #names = new Map();
    /** The key of the photograph in each file. */
    #photographs = new Map();

    markNames({ name }, names) {
        this.#names.set(name, textOf(names ?? NO_NAMES));
    }

    markPhotograph(state) {
        if (state.photograph) this.#photographs.set(placeOf(state), state.photograph.key);
    }

    /** Whether a book has a file with names, which is written anew also if none is left. */
    hasNames({ name }) {
        return (this.#names.get(name) ?? '') !== '';
    }

    /** A new book without a preset and a name has nothing to lose. */
    isNamesSaved({ book, names }) {
        return (book.bytes === NEW_BOOK.bytes && names === NO_NAMES) || textOf(names) === (this.#names.get(book.name) ?? '');
    }

    /** A file may have another photograph of the same name. */
    isPhotographSaved(state) {
        const { names, photograph } = state;
        if (!photograph || photograph.file !== photographOf(names)) return true;
        const key = this.#photographs.get(placeOf(state));
        return key === undefined ? photograph.beside : key === photograph.key;
    }
}
