// A book, its names and its photograph into files, and what of them is in files already.
import { shownPhotograph } from './cabin.mjs';
import { button } from './dom.mjs';
import { saveFile, writeTo } from './files.mjs';
import { remember } from './memory.mjs';
import { writeNames } from './names.mjs';
import { Saved } from './saved.mjs';
import { NEW_BOOK } from './state.mjs';
import { listed } from './text.mjs';

const BOOK_WAS_NOT = 'the book was not';

/** Whether a change put another book in the place of the one before. */
export function isOtherBook(state, old) {
    return state.book.name !== old.book.name || state.book.opened !== old.book.opened;
}

export class Saving {
    saved = new Saved();

    constructor(app) {
        this.app = app;
    }

    get namesUnsaved() {
        return !this.saved.isNamesSaved(this.app.state);
    }

    /** A photograph that is not here cannot be saved. */
    get #photographUnsaved() {
        return !this.saved.isPhotographSaved(this.app.state) && shownPhotograph(this.app) !== null;
    }

    /** What of book, names and photograph is in no file, in a sentence; '' where there is nothing. */
    get unsavedText() {
        const { state: { book }, store } = this.app;
        if (store.bookUnsaved) return `${book.name} is not saved.`;
        if (this.namesUnsaved) return `The names of ${book.name} are not saved.`;
        return this.#photographUnsaved ? `The photograph of ${book.name} is not saved.` : '';
    }

    /** Whether anything of them is in no file. */
    get unsaved() {
        return this.unsavedText !== '';
    }

    /** What of them is in a file, for the draft, and back from there. */
    get marks() {
        const { store, state } = this.app;
        return { saved: !store.bookUnsaved, savedNames: !this.namesUnsaved, savedPhotograph: this.saved.isPhotographSaved(state) };
    }

    mark({ saved, savedNames, savedPhotograph }) {
        const { state, store } = this.app;
        if (savedNames) this.saved.markNames(state.book, state.names);
        if (savedPhotograph) this.saved.markPhotograph(state);
        if (saved) store.markBookSaved();
        this.#marked();
    }

    /** What came from files, or can be had again, is saved as it is. A new book leaves what is known of files as it is. */
    markSaved(names, photograph = null) {
        const { state, store } = this.app;
        if (state.book.bytes === NEW_BOOK.bytes) return;
        this.saved.markNames(state.book, names);
        if (photograph?.beside) this.saved.markPhotograph(state);
        store.markBookSaved();
        this.#marked();
    }

    #marked() {
        remember(this.app.state, !this.namesUnsaved);
        this.app.draft.writeSoon();
        this.app.refresh();
    }

    /**
     * Saves the book and its names: to the files that they were opened from where the browser lets the page do that, otherwise, or
     * as new files, by handing both to the browser. A word that is not in the book is asked about, as it would not be in the file.
     */
    async save({ asked = false, anew = false } = {}) {
        const { app } = this;
        if (!app.hasWord('Nothing was saved')) return;
        if (app.store.wordUnsaved && !asked) {
            return app.notice('The present word is not in the book yet.',
                button('Append it and save', () => this.#appendAndSave(anew)), button('Save without it', () => this.save({ asked: true, anew })));
        }
        const parts = this.#parts(anew);
        for (const part of parts) {
            // Names are not left beside a book that they do not fit.
            if (parts[0].fault) part.fault = BOOK_WAS_NOT;
            else if (part.handle) part.fault = await writeTo(part.handle, part.bytes);
            else saveFile(part.name, part.bytes);
        }
        this.#markParts(parts.filter(part => !part.fault));
        app.panels.book.unsay();
        this.#saySaved(parts);
    }

    /**
     * The files of the present state. A photograph that was chosen here is saved once: one that lies beside the book is not written
     * again, but for a new book's file.
     */
    #parts(anew) {
        const { state } = this.app;
        const { book, names } = state;
        const handles = (anew ? null : book.file) ?? {};
        const picture = shownPhotograph(this.app);
        const named = names.lines.length > 0 || this.saved.hasNames(book);
        const shown = picture && (anew || !this.saved.isPhotographSaved(state));
        return [
            { role: 'book', state, name: book.name, bytes: book.bytes, handle: handles.book },
            ...(named ? [{ role: 'names', state, name: `${book.name}.names`, bytes: writeNames(names), handle: handles.names }] : []),
            ...(shown ? [{ role: 'photograph', state, name: state.photograph.file, bytes: picture.blob, handle: null }] : []),
        ];
    }

    #markParts(parts) {
        for (const { role, state } of parts) {
            if (role === 'book') this.app.store.markBookSaved(state.book);
            else if (role === 'names') this.saved.markNames(state.book, state.names);
            else this.saved.markPhotograph(state);
        }
        this.#marked();
    }

    /** Which files were saved, which went to the browser, and which were not saved. */
    #saySaved(parts) {
        const told = (list, one, many) => (list.length === 0 ? '' : `${listed(list.map(part => part.name))} ${list.length === 1 ? one : many} `);
        const lost = parts.filter(part => part.fault);
        const given = parts.filter(part => !part.fault && !part.handle);
        const texts = [
            told(parts.filter(part => !part.fault && part.handle), 'was saved.', 'were saved.'),
            told(given, 'was given to the browser, which puts it with its downloads.', 'were given to the browser, which puts them with its downloads.'),
            ...given.filter(part => part.role === 'photograph' && parts[0].handle).map(part => `Put ${part.name} beside the book. `),
            ...lost.map(part => `${part.name} was NOT saved: ${part.fault}. `),
        ];
        const again = part => button(`${part.fault ? 'Save' : 'Give'} ${part.name} ${part.fault ? 'as a new file' : 'once more'}`, () => this.#giveAgain(part, parts));
        this.app.noticeUntil(isOtherBook, texts.join('').trim(), ...(given.length > 1 ? given.map(again) : []), ...lost.map(again));
    }

    /** One file by the browser, as it is now, with those that were not saved because it was not. */
    #giveAgain({ role }, parts) {
        const wanted = part => part.role === role || (role === 'book' && part.fault === BOOK_WAS_NOT);
        const present = this.#parts(true);
        const after = parts.map(part => (wanted(part) ? present.find(other => other.role === part.role) : part)).filter(part => part);
        const given = after.filter(part => present.includes(part));
        for (const { name, bytes } of given) saveFile(name, bytes);
        this.#markParts(given);
        this.#saySaved(after);
    }

    #appendAndSave(anew) {
        const { app } = this;
        app.notice('');
        app.tabs.choose('book');
        if (app.panels.book.append()) this.save({ anew });
    }
}
