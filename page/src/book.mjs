// Books: what a file is as either edition, its presets row by row, and loading, appending, converting and saving.
import { button, byId, labelledField, make, refusalLine, refusalParts, setText } from './dom.mjs';
import { matching, pastText, settled, withDuplicate, withMoved, withReplaced, withoutPreset } from './editing.mjs';
import { attempt } from './library.mjs';
import { withName } from './names.mjs';
import { toldText } from './plain.mjs';
import { inRig, nameField } from './rig.mjs';
import { elsewhere } from './saved.mjs';
import { NEW_BOOK, presetOf, samePreset } from './state.mjs';
import { pictureMarkup } from './strands.mjs';
import { term } from './terms.mjs';
import { counted, grouped } from './text.mjs';
import { lengthText } from './times.mjs';

/** So many presets are shown at a time. */
const ROWS = 20;
const EDITIONS = { 1: 'first', 2: 'second' };

export function editionName(edition) {
    return `${EDITIONS[edition]} edition`;
}

/** What the library says of bytes as either edition. */
export function verdictsOf(library, bytes) {
    return { 1: attempt(() => library.bookCheck(1, bytes)), 2: attempt(() => library.bookCheck(2, bytes)) };
}

/** The editions that bytes are a book of: one, both or none. */
export function editionsOf(verdicts) {
    return [1, 2].filter(edition => !verdicts[edition].refusal);
}

/** Why bytes are a book of neither edition. */
export function refusedText(verdicts) {
    const [one, two] = [1, 2].map(edition => toldText(verdicts[edition].refusal));
    return one === two ? one : `Read as the first edition: ${one} Read as the second edition: ${two}`;
}

/** What a book has. */
export function countText(library, { edition, bytes }) {
    const count = library.bookCheck(edition, bytes);
    const refused = count > 0 ? library.presets(edition, bytes).filter(preset => preset.refusal).length : 0;
    return `${counted(count, 'preset')}${refused > 0 ? `, ${refused} of them damaged` : ''}, ${editionName(edition)}`;
}

/** The file name of a book in another edition: the file of the one before is not replaced by it. */
export function convertedName(name, edition) {
    const [, base, end] = /^(.*?)(\.[^.]*)?$/s.exec(name);
    return `${base.replace(/-(first|second)-edition$/, '')}-${EDITIONS[edition]}-edition${end ?? ''}`;
}

/** The number of the first preset that keeps a book of the second edition from being converted for its lanes. */
export function tooManyLanes(library, edition, bytes) {
    const alone = preset => attempt(() => library.convert(edition, library.append(edition, [], preset.kind, preset.rank, preset.word)));
    return library.presets(edition, bytes).find(preset => preset.refusal || alone(preset).refusal?.number === 18)?.number ?? -1;
}

/** The preset of a book that a state composes, or null; a book that is refused has none. */
export function presetIn(library, { edition, bytes }, state) {
    const listed = bytes.length > 0 ? attempt(() => library.presets(edition, bytes)).value ?? [] : [];
    const found = listed.find(preset => !preset.refusal && samePreset(state, preset));
    return found ? presetOf(state, found.number) : null;
}

export class BookPanel {
    constructor(app, root) {
        this.app = app;
        this.first = 0;
        this.culprit = -1;
        this.note = { state: null, node: null };
        this.name = make('input', { type: 'text', id: 'book-name', spellcheck: 'false', onchange: () => this.#rename() });
        this.presetName = make('input', { type: 'text', id: 'preset-name', placeholder: 'a name, if you like' });
        this.message = make('div', { id: 'book-message', 'aria-live': 'polite' });
        this.past = make('p', { id: 'book-past', role: 'status' });
        this.rows = make('ol', { class: 'presets', id: 'presets' });
        this.pager = make('div', { class: 'bar' });
        this.search = make('input', { type: 'text', id: 'search', placeholder: 'name, rig or steps', spellcheck: 'false', oninput: () => this.#searched() });
        this.searching = make('div', { class: 'bar', hidden: true }, labelledField('Search the presets', this.search));
        /** The presets that the search found, or null where none is made. */
        this.found = null;
        /** The label of the button that has to get the focus when the rows are drawn anew. */
        this.next = null;
        this.convert = button('', () => this.#convert(), { id: 'convert' });
        root.append(
            make('div', { class: 'bar' },
                button('Open a file', () => app.shelf.choose()), button('New book', () => app.shelf.open(NEW_BOOK)),
                button('Examples', () => app.examples.bringBack(), { id: 'bring-examples' }),
                make('label', { class: 'field' }, make('span', {}, 'File name'), this.name)),
            make('p', { class: 'quiet' }, 'A book, with its .names file and the photograph of its cabin, can also be dropped anywhere on this page.'),
            make('p', {}, make('span', { id: 'book-verdict' }), ' ', term('edition', 'What is an edition?'), ' ',
                make('span', { class: 'quiet' }, 'Presets are numbered from 0, as the book numbers them.')),
            this.past,
            make('div', { class: 'bar' }, make('label', { class: 'field' }, make('span', {}, 'Name of the preset'), this.presetName),
                button('Append the present preset', () => this.append(), { class: 'main', id: 'append' })),
            make('div', { class: 'bar' }, this.convert, button('Save as a new file', () => app.shelf.save({ anew: true }), { id: 'save-book' }),
                make('span', { class: 'quiet' }, 'Names are saved with the book, in a file beside it.')),
            this.message, this.searching, this.rows, this.pager);
    }

    #rename() {
        const { book } = this.app.state;
        const name = this.name.value.trim().replace(/[/\\]/g, '-') || book.name;
        if (name !== book.name) this.app.store.change({ book: { ...book, name, file: null }, photograph: elsewhere(this.app.state) });
    }

    /** Another book is looked at from its first preset on. */
    begin() {
        [this.first, this.search.value] = [0, ''];
    }

    /** What was said of the book as it was is over. */
    unsay() {
        this.note = { state: null, node: null };
    }

    /** A sentence that stays until the next change. */
    #say(node) {
        this.note = { state: this.app.state, node };
        this.app.refresh();
    }

    /** Appends the present preset, and returns whether the library took it. */
    append() {
        const { library, state, store } = this.app;
        const { edition, bytes } = state.book;
        if (!this.app.hasWord('Nothing was appended')) return false;
        const { value, refusal } = attempt(() => library.append(edition, bytes, state.kind, state.rank, state.word));
        if (refusal) return this.#say(refusalLine(refusal, { first: edition === 1 }, 'The book stays as it was.')) ?? false;
        const number = library.bookCheck(edition, value) - 1;
        const { state: { names }, dropped } = settled(library, state);
        store.change({ book: { ...state.book, bytes: value }, names: withName(names, 'preset', number, this.presetName.value) });
        this.presetName.value = '';
        this.first = number - number % ROWS;
        store.markWordKept(number);
        this.app.panels.sheet.headings.keep();
        this.#say(make('p', {}, `Appended as preset ${number}. ${dropped}The book is not saved yet.`));
        return true;
    }

    #convert() {
        const { library, state, store } = this.app;
        const { edition, bytes } = state.book;
        const { value, refusal } = attempt(() => library.convert(edition, bytes));
        if (refusal) {
            this.culprit = refusal.number > 4 && refusal.number !== 13 ? tooManyLanes(library, edition, bytes) : -1;
            this.first = this.culprit < 0 ? this.first : this.culprit - this.culprit % ROWS;
            const where = this.culprit < 0 ? {} : { preset: this.culprit };
            return this.#say(refusalLine(refusal, where, 'The book stays as it was.'));
        }
        const name = convertedName(state.book.name, 3 - edition);
        const { state: { names }, dropped } = settled(library, state);
        store.change({ book: { ...state.book, name, edition: 3 - edition, bytes: value, file: null }, names, photograph: elsewhere(state) });
        this.#say(make('p', {}, `Converted to the ${editionName(3 - edition)}, as ${name}. ${dropped}The book is not saved yet.`));
    }

    #load(preset) {
        const { library, state, store, ui } = this.app;
        const { change } = inRig(library, state, preset.kind, preset.rank);
        const lost = store.wordUnsaved;
        ui.selected = -1;
        // A title and remarks were written for the sheet of one preset.
        if (!samePreset(state, preset)) this.app.panels.sheet.headings.leave();
        store.change({ ...change, word: preset.word });
        store.markWordKept(preset.number);
        if (lost) this.#say(make('p', {}, 'The word before was in no book. Undo brings it back.'));
    }

    update() {
        const { library, state } = this.app;
        const { book } = state;
        if (this.of !== book.bytes) [this.of, this.culprit] = [book.bytes, -1];
        this.message.replaceChildren(...(this.note.state === state ? [this.note.node] : []));
        if (document.activeElement !== this.name) this.name.value = book.name;
        setText(byId('book-verdict'), `${countText(library, book)}.`);
        this.convert.textContent = `Convert to the ${editionName(3 - book.edition)}`;
        const count = library.bookCheck(book.edition, book.bytes);
        const past = pastText(state.names, count);
        setText(this.past, past && `The names are for ${past} too, which ${book.name} does not have: the next change of the book drops that.`);
        this.#drawRows(count);
        const next = this.next && this.rows.querySelector(`[aria-label="${this.next}"]:enabled`);
        if (this.next) (next ?? this.rows.querySelector('li:last-child button') ?? byId('append')).focus();
        this.next = null;
    }

    #searched() {
        this.first = 0;
        this.app.updatePanelSoon();
    }

    /** Changes the presets, says so, and puts the focus on a button of the rows; a refusal changes nothing. */
    #edit(change, said, next = null) {
        const { app } = this;
        const { state, dropped } = settled(app.library, app.state);
        const { value, refusal } = attempt(() => change(app.library, state));
        if (refusal) return this.#say(refusalLine(refusal, { first: app.state.book.edition === 1 }, 'The book stays as it was.'));
        app.store.change(value);
        this.next = next;
        this.#say(make('p', {}, `${said} ${dropped}Undo takes it back. The book is not saved yet.`));
    }

    #move(from, to, way) {
        this.first = to - to % ROWS;
        this.#edit((library, state) => withMoved(library, state, from, to), `Preset ${from} is preset ${to} now.`, `move preset ${to} ${way}`);
    }

    #replace({ number }) {
        if (!this.app.hasWord('Nothing was replaced')) return;
        this.#edit((library, state) => withReplaced(library, state, number), `Preset ${number} is the present word now.`, `replace preset ${number}`);
    }

    /** What can be done with a preset; a damaged one can only be moved and removed. */
    #actions(preset, count) {
        const { number } = preset;
        const act = (text, label, onclick, off = false) => button(text, onclick, { 'aria-label': label, title: label, disabled: off });
        const move = (text, way, to) => act(text, `move preset ${number} ${way}`, () => this.#move(number, to, way),
            to < 0 || to >= count || this.found !== null);
        const whole = preset.refusal ? [] : [
            act('Load', `load preset ${number}`, () => this.#load(preset)),
            act('Replace', `replace preset ${number}`, () => this.#replace(preset)),
            act('Duplicate', `duplicate preset ${number}`, () => this.#duplicate(preset)),
        ];
        return make('span', { class: 'actions' }, whole, move('▲', 'up', number - 1), move('▼', 'down', number + 1),
            act('Remove', `remove preset ${number}`, () => this.#remove(preset)));
    }

    #duplicate(preset) {
        const { number } = preset;
        this.#edit((library, state) => withDuplicate(library, state, preset), `Preset ${number + 1} is a copy of preset ${number}.`,
            `duplicate preset ${number + 1}`);
    }

    #remove({ number }) {
        this.#edit((library, state) => withoutPreset(library, state, number), `Preset ${number} was removed.`, `remove preset ${number}`);
    }

    #drawRows(count) {
        const { presets, found } = this.#listed(count);
        this.searching.hidden = count <= ROWS;
        this.rows.replaceChildren(...presets.map(preset => (preset.refusal ? this.#refusedRow(preset, count) : this.#row(preset, count))));
        const page = (text, first) => button(text, () => {
            this.first = first;
            this.#drawRows(count);
        }, { disabled: first < 0 || first >= found });
        const part = `${this.first} to ${Math.min(this.first + ROWS, found) - 1}`;
        const text = this.found ? `${counted(found, 'preset')} of ${grouped(count)} found` : `Presets ${part} of ${grouped(count)}`;
        const range = make('span', { role: 'status' }, text);
        const pages = [page('◀ Earlier presets', this.first - ROWS), range, page('Later presets ▶', this.first + ROWS)];
        this.pager.replaceChildren(...(count > ROWS ? pages : []));
    }

    /** The presets to show, and of how many they are. */
    #listed(count) {
        const { library, state } = this.app;
        const { edition, bytes } = state.book;
        const text = count > ROWS ? this.search.value.trim() : '';
        this.found = text === '' ? null : matching(library.presets(edition, bytes), state.names, text);
        const found = this.found?.length ?? count;
        this.first = Math.max(Math.min(this.first, found - 1 - (found - 1) % ROWS), 0);
        if (this.found) return { presets: this.found.slice(this.first, this.first + ROWS), found };
        return { presets: count > 0 ? library.presets(edition, bytes, this.first, ROWS) : [], found };
    }

    #refusedRow(preset, count) {
        const { number, refusal } = preset;
        return make('li', { class: number === this.culprit ? 'culprit' : '', 'data-preset': number, 'data-refusal': refusal.number },
            make('span', { class: 'number' }, String(number)),
            make('span', { class: 'refusal' }, ...refusalParts(refusal, { preset: number })), this.#actions(preset, count));
    }

    #row(preset, count) {
        const { app } = this;
        const { number, kind, rank, word } = preset;
        const window = app.library.window(kind, rank, word);
        const field = nameField(app, 'preset', number);
        field.update();
        const about = make('span', { class: 'about' }, field,
            make('span', {}, `${kind}${rank}, ${lengthText(word.length, 'letter', app.state.names)}`), make('span', { class: 'quiet' }, showsText(window)));
        const attributes = { class: number === this.culprit ? 'culprit' : '', 'data-preset': number, 'data-letters': word.join(' ') };
        return make('li', attributes, make('span', { class: 'number' }, String(number)), this.#picture(preset, window.length), about,
            this.#actions(preset, count));
    }

    #picture({ number, kind, rank, word }, lanes) {
        const holder = make('span', { class: 'small-picture' });
        const lane = Math.max(Math.min(12, 120 / lanes), 3);
        holder.innerHTML = pictureMarkup(this.app.library, { kind, rank, word },
            { width: 250, lane, column: 14, letters: false, ends: lane > 9, title: `picture of preset ${number}` });
        return holder;
    }
}

/** What the screens show, in words where they are few. */
function showsText(window) {
    if (window.length > 20) return counted(window.length, 'screen');
    return `screens show ${window.map(entry => `${Math.abs(entry)}${entry < 0 ? ' mirrored' : ''}`).join(', ')}`;
}
