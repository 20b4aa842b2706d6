// The cabin: the screens where they stand, over a photograph or over nothing, with what they show now, and beside it the wanted picture
// or a preset of the book.
import { Arranging } from './arranging.mjs';
import { cabinPicture, differenceText, differences } from './cabin_picture.mjs';
import { followedChoice } from './comparing.mjs';
import { hiddenText, unplacedText } from './covered.mjs';
import { button, labelledField, make, put, setText } from './dom.mjs';
import { labelled, photographOf, withPhotograph } from './names.mjs';
import { isPicture, photographName } from './photographs.mjs';
import { placesIn, shapeOf } from './places.mjs';
import { counted } from './text.mjs';

/** A cabin is drawn so wide at most, and so much of the window's height, in pixels. */
const [WIDEST, SHARE] = [1600, 0.72];
/** With more lanes than this a cabin is so wide at least, and scrolls on a narrower page. */
const [MANY, LEAST] = [16, 520];

export class CabinPanel {
    constructor(app, root) {
        this.app = app;
        /** What is compared with: '' for nothing, 'wanted', the number of a preset, or null where none was chosen yet. */
        this.chosen = null;
        this.arranges = false;
        this.file = make('input', { type: 'file', id: 'photograph-file', accept: 'image/*', hidden: true, 'aria-label': 'a photograph of the cabin', onchange: () => this.#taken() });
        this.toggle = button('Arrange the screens', () => this.#arrange(), { 'aria-pressed': 'false', id: 'arrange' });
        this.choose = button('', () => this.choosePhotograph(), { id: 'choose-photograph' });
        this.remove = button('Remove the photograph', () => this.#remove());
        this.select = make('select', { id: 'compare', onchange: () => this.#compare() });
        this.compare = labelledField('Compare with', this.select);
        this.gone = make('p', { role: 'status', id: 'compared-gone' });
        this.message = make('p', { 'aria-live': 'polite', id: 'photograph-message' });
        this.open = make('p', { 'aria-live': 'polite' });
        this.hidden = make('p', { 'aria-live': 'polite', id: 'hidden-screens' });
        this.figures = make('div', { class: 'cabins' });
        this.answer = make('div', { class: 'answer', 'aria-live': 'polite' });
        this.now = figure('now');
        this.other = figure('other');
        this.figures.append(this.now.root, this.other.root);
        this.arranging = new Arranging(app, () => this.#draw());
        root.append(make('div', { class: 'bar' }, this.toggle, this.choose, this.remove, this.file, this.compare), this.gone, this.message, this.open, this.hidden, this.figures, this.answer);
        this.now.stage.append(this.arranging.layer);
        this.now.root.append(this.arranging.root);
        root.addEventListener('drop', event => this.#dropped(event));
        app.store.listen((state, old) => state.book.bytes !== old.book.bytes && this.#follow(state, old));
        // A scroll bar that comes or goes changes the room.
        new ResizeObserver(() => this.now.root.clientWidth > 0 && this.now.root.clientWidth !== this.room && this.room && this.#draw()).observe(this.figures);
    }

    /** The photograph of the present names as { url, width, height, blob }, or null. */
    get photograph() {
        return shownPhotograph(this.app);
    }

    choosePhotograph() {
        this.file.click();
    }

    #taken() {
        const [file] = this.file.files;
        if (file) this.usePhotograph(file);
        this.file.value = '';
    }

    /** A picture dropped here is the photograph; other files, or a picture with its book, go the way of all files. */
    #dropped(event) {
        const files = [...event.dataTransfer.files];
        if (files.length !== 1 || !isPicture(files[0])) return;
        event.preventDefault();
        event.stopPropagation();
        document.body.classList.remove('dropping');
        this.usePhotograph(files[0]);
    }

    /** Takes a file as the photograph, under a name that the names can hold. One that was asked for lies beside the book already. */
    async usePhotograph(file) {
        const { app } = this;
        const { book } = app.state;
        const { key, fault } = await app.photographs.add(file);
        if (fault) return app.notice(`${fault} Nothing was changed.`);
        // Another book was opened meanwhile: the photograph was not meant for that one.
        if (app.state.book.name !== book.name) return;
        app.notice('');
        const { names, photograph } = app.state;
        const asked = photographOf(names) === file.name && !this.photograph;
        const name = asked ? file.name : photographName(file.name);
        const beside = asked && (photograph?.file !== name || photograph.beside);
        app.store.change({ names: withPhotograph(names, name), photograph: { file: name, key, beside } });
    }

    #remove() {
        const { store, state } = this.app;
        store.change({ names: withPhotograph(state.names, ''), photograph: null });
        // The button that was pressed goes.
        this.choose.focus();
    }

    #arrange() {
        this.arranges = !this.arranges;
        this.update();
    }

    #compare() {
        this.chosen = this.select.value;
        setText(this.gone, '');
        this.update();
    }

    /** A preset that was chosen stays chosen when it gets another number; of another book none is. */
    #follow(state, old) {
        setText(this.gone, '');
        if (this.chosen === null || !/^\d+$/.test(this.chosen)) return;
        const { number, gone } = followedChoice(book => presetsOf(this.app.library, book), Number(this.chosen), state, old);
        if (gone) setText(this.gone, `Preset ${labelled(old.names, 'preset', Number(this.chosen))}, which was compared with, is no longer in the book.`);
        this.chosen = gone ? '' : number === null ? null : String(number);
    }

    /** The second picture: its window, what it is called above it and in a sentence; or null. */
    get #second() {
        const { library, state } = this.app;
        const value = this.against;
        if (value === '' || this.arranges) return null;
        if (value === 'wanted') return { window: state.wanted ?? this.app.answers.window, title: 'Wanted picture', other: 'wanted' };
        const preset = this.presets.find(({ number }) => String(number) === value);
        const title = `Preset ${labelled(state.names, 'preset', preset.number)}`;
        return { window: library.window(preset.kind, preset.rank, preset.word), title, other: `in preset ${preset.number}` };
    }

    /** What is compared with: the user's choice while it can be had; before one was made, the wanted picture if there is one. */
    get against() {
        const { chosen } = this;
        const gone = chosen === null || (chosen !== '' && chosen !== 'wanted' && !this.presets.some(({ number }) => String(number) === chosen));
        return gone ? (this.app.state.wanted ? 'wanted' : '') : chosen;
    }

    update() {
        const { library, state } = this.app;
        const { bytes } = state.book;
        if (this.of !== bytes) this.presets = presetsOf(library, state.book).filter(preset => !preset.refusal);
        this.of = bytes;
        this.toggle.setAttribute('aria-pressed', String(this.arranges));
        this.compare.hidden = this.arranges;
        this.gone.hidden = this.gone.textContent === '';
        this.#updateSelect();
        this.#updatePhotograph();
        this.arranging.layer.hidden = this.arranging.root.hidden = !this.arranges;
        this.#draw();
        if (this.arranges) this.arranging.update();
        this.answer.replaceChildren(...this.#answer());
    }

    #updateSelect() {
        const { names } = this.app.state;
        const list = [['', 'nothing'], ['wanted', 'the wanted picture'], ...this.presets.map(({ number }) => [String(number), `preset ${labelled(names, 'preset', number)}`])];
        const now = JSON.stringify(list);
        if (this.listed !== now) this.select.replaceChildren(...list.map(([value, text]) => make('option', { value }, text)));
        this.listed = now;
        put(this.select, 'value', this.against);
    }

    /** What has to be said of the photograph. */
    #updatePhotograph() {
        const { photographs, state } = this.app;
        const file = photographOf(state.names);
        const held = state.photograph?.file === file ? state.photograph : null;
        const picture = held ? photographs.of(held.key) : null;
        setText(this.choose, file ? 'Choose another photograph' : 'Choose a photograph');
        if (file && picture === null) setText(this.choose, `Choose ${file}`);
        this.remove.hidden = !file;
        let text = '';
        if (file && !held) text = `The photograph ${file} was not opened with this book: choose it, or drop it on this page.`;
        else if (file && picture === null) text = `This browser has not kept the photograph ${file}: choose it again.`;
        else if (held && photographs.isUnkept(held.key)) text = `This browser cannot keep the photograph: after a reload, choose ${file} again.`;
        setText(this.message, text);
        this.message.hidden = text === '';
    }

    /** Screens that have no place yet, and those that are hidden behind others. */
    #updateSeen(names, places) {
        const texts = [[this.open, unplacedText(names, places)], [this.hidden, hiddenText(names, places, this.arranges ? '' : 'arrange the screens')]];
        for (const [element, text] of texts) {
            setText(element, text);
            element.hidden = text === '';
        }
    }

    #draw() {
        const { names } = this.app.state;
        const { window } = this.app.answers;
        const second = this.#second;
        const lanes = Math.max(window.length, second?.window.length ?? 0);
        const places = this.arranges ? this.arranging.places : placesIn(names, lanes);
        const { photograph } = this;
        this.#updateSeen(names, places);
        this.other.root.hidden = second === null;
        this.figures.classList.toggle('two', second !== null);
        this.now.title.hidden = second === null;
        const draw = (cabin, options) => this.#drawIn(cabin, { names, lanes, places, ...options }, photograph);
        draw(this.now, { window, against: second?.window ?? null, title: 'the cabin now' });
        if (!second) return;
        setText(this.other.title, second.title);
        draw(this.other, { window: second.window, against: window, title: `the cabin, ${second.title.toLowerCase()}` });
    }

    /** The width of a cabin: the same for two beside each other. */
    #widthOf(lanes, shape) {
        this.room = this.now.root.clientWidth;
        const fitting = Math.min(this.room - 20, WIDEST, Math.max(SHARE * innerHeight, 240) * shape);
        return Math.floor(Math.max(fitting, lanes > MANY ? LEAST : 0));
    }

    #drawIn({ scroll, stage, image, drawing }, options, photograph) {
        const shape = shapeOf(photograph);
        const width = this.#widthOf(options.lanes, shape);
        put(stage.style, 'cssText', `width: ${width}px; aspect-ratio: ${shape}`);
        // What scrolls is reached by the keyboard.
        if (width > this.room - 20) Object.assign(scroll, { tabIndex: 0, role: 'region', ariaLabel: options.title });
        else for (const name of ['tabindex', 'role', 'aria-label']) scroll.removeAttribute(name);
        image.hidden = !photograph;
        if (photograph && image.src !== photograph.url) [image.src, image.alt] = [photograph.url, `photograph of the cabin, ${photographOf(options.names)}`];
        // The photograph is an image of its own: drawn anew with every step of a drag it would flicker.
        drawing.innerHTML = cabinPicture({ ...options, width, noted: false, photograph: photograph ? { ...photograph, url: null } : null });
    }

    /** How the two pictures differ, in words. */
    #answer() {
        const { state, answers } = this.app;
        const second = this.#second;
        if (!second) return [];
        const differing = differences(answers.window, second.window);
        const all = Math.max(answers.window.length, second.window.length);
        if (differing.length === 0) return [make('p', {}, `All ${counted(all, 'screen')} show the same in both pictures.`)];
        const items = differing.map(screen => make('li', {}, differenceText(state.names, screen, answers.window, second.window, second.other)));
        const text = `${differing.length} of ${counted(all, 'screen')} ${differing.length === 1 ? 'differs' : 'differ'}, marked with ≠:`;
        return [make('p', {}, text), make('ul', { class: 'cabin-list' }, items)];
    }
}

function presetsOf(library, { edition, bytes }) {
    return bytes.length > 0 ? library.presets(edition, bytes) : [];
}

/** A cabin with its title: a photograph, and the drawing over it. */
function figure(name) {
    const title = make('figcaption', {}, name === 'now' ? 'Now' : '');
    const image = make('img', { class: 'cabin-photograph', hidden: true, alt: '' });
    const drawing = make('div', { class: 'cabin-layer' });
    const stage = make('div', { class: 'cabin-stage' }, image, drawing);
    const scroll = make('div', { class: 'cabin-scroll' }, stage);
    return { root: make('figure', { class: 'cabin', 'data-cabin': name }, title, scroll), title, scroll, stage, image, drawing };
}

/** The photograph that the present names name, as { url, width, height, blob }, or null where there is none or it is not here. */
export function shownPhotograph({ state, photographs }) {
    const { names, photograph } = state;
    return photograph && photograph.file === photographOf(names) ? photographs.of(photograph.key) ?? null : null;
}
