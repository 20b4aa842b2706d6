// Books and their names from files: what is opened in place of what.
import { countText, editionsOf, presetIn, refusedText, verdictsOf } from './book.mjs';
import { button, byId } from './dom.mjs';
import { pickFiles, readFiles } from './files.mjs';
import { printOf, rememberedNames } from './memory.mjs';
import { NO_NAMES, photographOf, rigNames, withPhotograph, withRigNamesOf } from './names.mjs';
import { photographName } from './photographs.mjs';
import { Saving, isOtherBook } from './saving.mjs';
import { NEW_BOOK } from './state.mjs';

/** Whether a names file is that of a book, by its name. */
function isOwn(book, namesFile) {
    return namesFile?.name === `${book.name}.names`;
}

/** The handle of a names file that lies beside a book; that of another book's names is not written to. */
function handleFor(book, namesFile) {
    return isOwn(book, namesFile) ? namesFile.handle : null;
}

/** A photograph that came with another book's names may not lie beside this one. */
function besideIf(own, photograph) {
    return photograph && { ...photograph, beside: photograph.beside && own };
}

function isOtherPicture(state, old) {
    return isOtherBook(state, old) || state.photograph !== old.photograph;
}

function areOtherNames(state, old) {
    return isOtherPicture(state, old) || state.names !== old.names;
}

/** Names with a photograph that came with them, as parts of a state: one that they do not name is not used, unless they name none. */
function withPicture(names, photograph) {
    const named = photographOf(names);
    const used = photograph && (named === '' || named === photograph.file) ? photograph : null;
    return { names: used ? withPhotograph(names, used.file) : names, photograph: used };
}

export class Shelf extends Saving {
    /** Counts what was begun: files that are still being read when something newer begins are given up. */
    #turn = 0;

    /** Lets the user choose files, and takes them. */
    async choose() {
        const picked = await pickFiles(byId('file'));
        if (picked) await this.take(picked);
    }

    /** What is worked on here and nowhere else, in a sentence; '' where there is nothing. */
    get #onlyHere() {
        const { store, composing } = this.app;
        const inNoBook = !store.bookUnsaved && (store.wordUnsaved || composing.fault);
        return inNoBook ? 'The present word is in no book.' : this.unsavedText;
    }

    /** Another state in place of all that is worked on, which is asked about first. It counts as saved, since it can be had again. */
    replaceAll(state, title, done) {
        const { app } = this;
        this.#turn += 1;
        const go = () => {
            app.notice('');
            app.panels.book.begin();
            app.store.change(state);
            this.markSaved(state.names);
            done();
        };
        const only = this.#onlyHere;
        if (only === '') return go();
        app.notice(only, button(`Take ${title} all the same`, go), button(`Keep ${app.state.book.name} as it is here`, () => app.notice('')));
    }

    /** Takes files that were chosen or dropped, or will be there soon. The last ones win. */
    async take(items) {
        const { app } = this;
        const turn = ++this.#turn;
        const { book, names, namesFile, pictures, said, tried } = await readFiles(await items, app.state);
        if (turn !== this.#turn) return;
        app.notice(said.join(' '));
        if (!book && !names) return said.length > 0 ? undefined : this.#takePictures(pictures);
        const { photograph, fault } = await this.#photographOf(pictures, names);
        if (turn !== this.#turn) return;
        const came = { names, namesFile, photograph, tried, said: fault ? [...said, fault] : said };
        if (!book) return this.#takeNames(came);
        this.open({ ...book, file: { book: book.handle, names: handleFor(book, namesFile) } }, came);
    }

    /** Names that came without a book are those of the present one. Only a file that is named after it has them saved. */
    #takeNames({ names, namesFile, photograph, said }) {
        const { app } = this;
        const present = app.state.book;
        const own = isOwn(present, namesFile);
        const file = { book: present.file?.book ?? null, names: handleFor(present, namesFile) };
        if (own) this.saved.markNames(present, names);
        app.store.change({ ...withPicture(names, besideIf(own, photograph)), book: { ...present, file } });
        this.mark({ savedPhotograph: own && photograph?.beside });
        const text = `The names of ${namesFile.name} are those of ${present.name} now${own ? '' : ', and not saved with it yet'}. Undo brings the others back.`;
        if (!this.#sayMissing([text, ...said], areOtherNames)) app.noticeUntil(areOtherNames, [text, ...said].join(' '));
    }

    /** Pictures that came alone: the one that the names have is taken, any other is asked about. */
    #takePictures(pictures) {
        const { app } = this;
        const named = pictures.find(file => file.name === photographOf(app.state.names));
        const use = file => {
            app.tabs.choose('cabin');
            return app.panels.cabin.usePhotograph(file);
        };
        if (named) return use(named);
        if (pictures.length !== 1) return pictures.length > 1 && app.notice(`These are ${pictures.length} pictures. The cabin has one photograph: drop that alone.`);
        const [file] = pictures;
        app.notice(`${file.name} is a picture and no preset book.`, button('Use it as the photograph of the cabin', () => use(file)), button('Do not use it', () => app.notice('')));
    }

    /** The photograph among pictures that came with a book or its names: it lies beside the book. */
    async #photographOf(pictures, names) {
        const named = photographOf(names ?? NO_NAMES);
        const file = pictures.find(picture => picture.name === named) ?? (pictures.length === 1 ? pictures[0] : null);
        if (!file) return { photograph: null, fault: pictures.length > 0 ? `None of the ${pictures.length} pictures is used: the cabin has one photograph.` : null };
        if (named && file.name !== named) return { photograph: null, fault: `${file.name} is not used: the names have the photograph ${named}.` };
        const { key, fault = null } = await this.app.photographs.add(file);
        const name = photographName(file.name);
        return { photograph: key ? { file: name, key, beside: name === file.name } : null, fault };
    }

    /** A photograph that the names have and that did not come with them is asked for by its name, until such a change. */
    #sayMissing(said, passing) {
        const { app } = this;
        const file = photographOf(app.state.names);
        if (file === '' || app.state.photograph) return false;
        const text = `The photograph of the cabin, ${file}, did not come with ${app.state.book.name}.`;
        app.noticeUntil(passing, [...said, text].join(' '), button(`Choose the file ${file}`, () => app.panels.cabin.choosePhotograph()), button('Go on without it', () => app.notice('')));
        return true;
    }

    /** Opens a book in place of the present one, which is asked about if it is not saved. What is no book is not opened. */
    open(book, came = {}) {
        const { app } = this;
        this.#turn += 1;
        const verdicts = verdictsOf(app.library, book.bytes);
        const passing = book === NEW_BOOK ? [NEW_BOOK.edition] : editionsOf(verdicts);
        if (passing.length === 0) {
            const stays = `${app.state.book.name} stays as it is.`;
            return app.notice(`${book.name} is no preset book and was not opened: ${refusedText(verdicts)} ${stays}`);
        }
        const opened = book === NEW_BOOK ? `new ${Math.random()}` : `${book.name} ${printOf(book.bytes)}`;
        const go = edition => this.#put({ name: book.name, edition, bytes: book.bytes, file: book.file ?? null, opened }, came);
        const choose = () => (passing.length === 1 ? go(passing[0]) : this.#askEdition(book, go));
        if (this.unsaved) this.#askFirst(book, choose);
        else choose();
    }

    /** Puts a book here with the names that came with it, or with those that it had here before. */
    #put(book, { names = null, namesFile = null, photograph = null, tried = false, said = [] }) {
        const { app } = this;
        const { state, store } = app;
        app.panels.book.begin();
        const { known, saved } = names || book.bytes === NEW_BOOK.bytes ? { known: null } : rememberedNames(book);
        const own = isOwn(book, namesFile);
        const kept = presetIn(app.library, book, state);
        store.change({ book, kept, ...withPicture(names ?? known ?? NO_NAMES, photograph) });
        const inFile = saved ? known : own ? names : null;
        this.markSaved(inFile, photograph);
        app.tabs.choose('book');
        if (!names) return this.#sayNames(state, known, said, tried);
        const all = own ? said : [...said, `The names are those of ${namesFile.name}, which is not named after ${book.name}: they are not saved with it yet.`];
        if (!this.#sayMissing(all, isOtherPicture)) app.noticeUntil(own ? isOtherBook : areOtherNames, all.join(' '));
    }

    /** The edition is in no byte of a book: the few files that pass as both are asked about. */
    #askEdition(book, open) {
        const { app } = this;
        const [one, two] = [1, 2].map(edition => countText(app.library, { edition, bytes: book.bytes }));
        const text = book.bytes.length === 0
            ? `${book.name} is empty. In which edition shall its presets be written? The first is for rigs of up to 32 lanes and older routers.`
            : `${book.name} can be read in two ways: ${one}, or ${two}. Which edition is it?`;
        app.notice(text, button('First edition', () => open(1)), button('Second edition', () => open(2)),
            button(`Do not open ${book.name}`, () => app.notice('')));
    }

    #askFirst(book, open) {
        const { app } = this;
        const present = app.state.book.name;
        const go = book === NEW_BOOK ? 'Start a new book all the same' : `Open the file ${book.name} all the same`;
        app.notice(this.unsavedText, button(go, open), button(`Keep ${present} as it is here`, () => app.notice('')));
    }

    /** Names belong to a book: one that came without any has those that it had here before, or none, and may take over others. */
    #sayNames(before, known, said, tried) {
        const { app } = this;
        const { name } = app.state.book;
        const say = (passing, text, ...buttons) => app.noticeUntil(passing, [...said, text].join(' ').trim(), ...buttons);
        const set = parts => {
            app.store.change(parts);
            app.notice('');
        };
        if (known?.lines.length > 0) {
            const text = tried ? `Those that ${name} had here before are used.` : `${name} came without its names: those that it had here before are used.`;
            return say(areOtherNames, text, button('Use no names', () => set({ names: NO_NAMES, photograph: null })));
        }
        if (rigNames(before.names).lines.length === 0) return say(isOtherBook, '');
        const old = before.book.name;
        say(isOtherBook, `${name} has no names. Its sources and screens can have those of ${old}.`,
            button(`Take over the names of ${old}`, () => set(this.#takenOver(before))),
            button('Leave it without names', () => app.notice('')));
    }

    /** The names of another book's rig, with its photograph, which may not lie beside this one. */
    #takenOver(before) {
        const names = withRigNamesOf(this.app.state.names, before.names);
        const taken = before.photograph?.file === photographOf(names) ? { ...before.photograph, beside: false } : null;
        return { names, photograph: this.app.state.photograph ?? taken };
    }
}
