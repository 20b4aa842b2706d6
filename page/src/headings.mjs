// Title and remarks of the sheet: each preset of each book has its own, and so has each book as a whole. A sheet is a training record:
// what was written of one preset must not be printed with another.

const NONE = Object.freeze({ title: '', remarks: '' });

/** A book is known as it was opened, whatever its name becomes, and a preset by its rig and word, whatever its number becomes. */
function placeOf({ book, kind, rank, word }, whole) {
    return JSON.stringify([bookIn(book), whole ? 'whole' : `${kind}${rank} ${Array.from(word).join(' ')}`]);
}

function bookIn({ opened, name }) {
    return opened ?? name;
}

function bookOf(place) {
    return JSON.parse(place)[0];
}

export class Headings {
    #all = new Map();
    #place = '';
    shown = NONE;

    /**
     * What belongs to a state. A word that is being composed in the same book takes along what was written, unless it has something of
     * its own; a preset of the book takes nothing.
     */
    follow(state, whole, composing) {
        const place = placeOf(state, whole);
        if (place === this.#place) return;
        const along = composing && !whole && this.#place !== '' && this.#place !== placeOf(state, true) && bookOf(this.#place) === bookIn(state.book);
        if (!along) this.keep();
        this.shown = this.#all.get(place) ?? (along ? this.shown : NONE);
        this.#place = place;
    }

    /** What was typed, or came along and is meant for this preset too. */
    keep(shown = this.shown) {
        this.shown = shown;
        if (this.#place !== '') this.#all.set(this.#place, shown);
    }

    /** A preset is about to be loaded: it takes nothing along. */
    leave() {
        this.keep();
        [this.#place, this.shown] = ['', NONE];
    }

    /** Those of a book, for the draft, and back from there. */
    of(book) {
        return [...this.#all].filter(([place, { title, remarks }]) => bookOf(place) === bookIn(book) && title + remarks !== '');
    }

    takeUp(list) {
        for (const [place, { title, remarks }] of list) this.#all.set(String(place), { title: String(title), remarks: String(remarks) });
        [this.#place, this.shown] = ['', NONE];
    }
}
