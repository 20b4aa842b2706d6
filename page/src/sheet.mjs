// A sheet to print for the training record: of the present preset, or of the whole book.
import { shownPhotograph } from './cabin.mjs';
import { cabinPicture } from './cabin_picture.mjs';
import { button, make, put } from './dom.mjs';
import { Headings } from './headings.mjs';
import { attempt } from './library.mjs';
import { marginRules } from './margins.mjs';
import { nameOf, placesOf } from './names.mjs';
import { shapeOf } from './places.mjs';
import { toldText } from './plain.mjs';
import { contentsPart, delaysPart, frontPart, frontRows, legendPart, onePart, presetPart } from './report.mjs';
import { PAPER } from './rows.mjs';
import { sha256 } from './sha256.mjs';
import { counted } from './text.mjs';

/** So many presets are shown on the screen; all are printed. */
const SHOWN = 20;
/** A cabin on paper is no higher than this, so that that of a small rig stands on the page of its preset. */
const CABIN_HIGH = 330;

export class SheetPanel {
    constructor(app, root) {
        this.app = app;
        this.headings = new Headings();
        const oninput = () => this.#typed();
        const labelled = (text, input) => make('label', { class: 'field grow' }, make('span', {}, text), input);
        this.title = make('input', { type: 'text', id: 'sheet-title', oninput });
        this.remarks = make('textarea', { id: 'sheet-remarks', rows: 2, oninput });
        this.whole = make('input', { type: 'checkbox', id: 'sheet-whole', onchange: () => this.update() });
        this.sheet = make('article', { class: 'sheet', id: 'sheet' });
        /** What the pages say in their margins. */
        this.margins = make('style', {});
        const print = button('Print the sheet', () => app.hasWord('Nothing was printed') && window.print(), { class: 'main', id: 'print' });
        const fields = [labelled('Title', this.title), labelled('Remarks', this.remarks), make('label', { class: 'choice' }, this.whole, 'The whole book')];
        root.append(make('div', { class: 'bar no-print' }, fields, print), this.margins, this.sheet);
    }

    #typed() {
        this.headings.keep({ title: this.title.value, remarks: this.remarks.value });
        this.app.draft.writeSoon();
        this.update();
    }

    get #isWhole() {
        return this.whole.checked && this.app.state.book.bytes.length > 0;
    }

    /** Title and remarks are those of the present book and preset, also if the sheet is not looked at. */
    follow() {
        const { state, store } = this.app;
        this.headings.follow(state, this.#isWhole, store.preset === null);
        const { title, remarks } = this.headings.shown;
        put(this.title, 'value', title);
        put(this.remarks, 'value', remarks);
    }

    /** On the screen, or for the printer. */
    update(printed = false) {
        const { library, state, composing } = this.app;
        const { edition, bytes } = state.book;
        this.follow();
        const presets = bytes.length > 0 ? attempt(() => library.presets(edition, bytes)).value ?? [] : [];
        this.whole.disabled = presets.length === 0;
        this.margins.textContent = '';
        // The browser's own print command comes here too.
        if (composing?.fault) {
            return this.sheet.replaceChildren(make('p', { class: 'refusal' }, 'There is no sheet: the field with the word does not hold a word.'));
        }
        const whole = this.whole.checked && presets.length > 0;
        this.sheet.classList.toggle('single', !whole);
        const date = new Date().toLocaleString('en-GB', { dateStyle: 'long', timeStyle: 'short' });
        const given = { about: this.app.about, date, remarks: this.remarks.value.trim() };
        this.sheet.replaceChildren(...(whole ? this.#book(given, presets, printed) : this.#preset(given)));
    }

    /** The present preset alone: its number stands on every page. */
    #preset(given) {
        const { library, state, store } = this.app;
        const { preset } = store;
        const { book, names, kind, rank, word } = state;
        const name = preset === null ? '' : nameOf(names, 'preset', preset);
        this.margins.textContent = marginRules(preset === null ? { book: 'This preset is in no book yet', corner: `${kind}${rank}`, date: given.date }
            : { book: book.name, hash: sha256(book.bytes), corner: `Preset ${preset}`, date: given.date });
        return [
            frontPart(this.title.value || name || 'Router preset', [], frontRows(state, { ...given, preset }), preset !== null && book),
            onePart(library, names, { kind, rank, word }, window => this.#cabin(window)),
            legendPart(),
        ];
    }

    /** The cabin with a window, if it was arranged or has a photograph: before that nothing is known of it. */
    #cabin(window) {
        const { names } = this.app.state;
        const photograph = shownPhotograph(this.app);
        if (placesOf(names).size === 0 && !photograph) return null;
        const width = Math.round(Math.min(PAPER, CABIN_HIGH * shapeOf(photograph)));
        return cabinPicture({ window, names, width, photograph });
    }

    #book(given, presets, printed) {
        const { library, state } = this.app;
        const { book, names } = state;
        const right = presets.filter(preset => !preset.refusal);
        const rigs = [...new Set(right.map(({ kind, rank }) => `${kind}${rank}`))];
        const warnings = presets.filter(preset => preset.refusal).map(({ number, refusal }) => `preset ${number}: ${toldText(refusal, { preset: number }).replace(/\.$/, '')}`);
        const pages = [...presets.map(({ number }) => [`preset-${number}`, `Preset ${number}`]), ...rigs.map(rig => [`delays-${rig}`, `Delays of ${rig}`])];
        const corner = counted(presets.length, 'preset');
        this.margins.textContent = marginRules({ book: book.name, hash: sha256(book.bytes), corner, date: given.date, pages });
        const shown = printed ? presets : presets.slice(0, SHOWN);
        const left = presets.length - shown.length;
        return [
            frontPart(this.title.value || `Presets of ${book.name}`, warnings, frontRows(state, { ...given, presets: presets.length }), book),
            contentsPart(library, names, presets),
            legendPart(),
            ...shown.map(preset => presetPart(library, names, preset, window => this.#cabin(window))),
            ...(left > 0 ? [make('p', { class: 'quiet' }, `${counted(left, 'further preset')} and the delay tables are printed too.`)] : rigs.map(rig => delaysPart(library, names, rig, presets))),
        ];
    }
}
