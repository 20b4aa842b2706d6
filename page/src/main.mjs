// The page as a whole: the library is loaded, the parts are put together, and every change goes through them in one order.
import { load } from '../../bindings/javascript/winnathey.mjs';
import { pictureText } from './about.mjs';
import { BookPanel, editionName } from './book.mjs';
import { CabinPanel } from './cabin.mjs';
import { Composing } from './composing.mjs';
import { DelaysPanel } from './delays.mjs';
import { button, byId, holdDisabled, keepFocus, make, put, setText } from './dom.mjs';
import { takeFiles } from './files.mjs';
import { FirstStart } from './first.mjs';
import { grabSource } from './grabbing.mjs';
import { callsOf } from './library.mjs';
import { Draft } from './draft.mjs';
import { remember, rememberedRig } from './memory.mjs';
import { ModulesPanel } from './modules.mjs';
import { OtherTabs } from './others.mjs';
import { Photographs } from './photographs.mjs';
import { Picture } from './picture.mjs';
import { showProved } from './proved.mjs';
import { RigFields } from './rig.mjs';
import { SheetPanel } from './sheet.mjs';
import { Shelf } from './shelf.mjs';
import { FIRST_STATE, NEW_BOOK, Store } from './state.mjs';
import { Tabs } from './tabs.mjs';
import { Terms } from './terms.mjs';
import { counted } from './text.mjs';
import { lengthText } from './times.mjs';
import { WantedPanel, withSource } from './wanted.mjs';
import { WhyPanel } from './why.mjs';

/** Milliseconds that a change may take without being felt, and that someone pauses between two keys. */
const [FRAME, PAUSE] = [16, 120];

class App {
    ui = { tab: 'wanted', first: 0, selected: -1, both: false };
    /** How long the last change took, in milliseconds: the library's calls, what is drawn at once, and the panel after it. */
    times = { calls: 0, drawing: 0, panel: 0 };
    /** Whether the panel below is older than the state, whether something is pressed, and what waits to bring the panel up. */
    #stale = false;
    #pressed = false;
    #waiting = 0;
    /** With which change, by the state after it and the one before, the sentence at the top goes; null if it stays. */
    #passing = null;

    constructor(library, about) {
        [this.library, this.about] = [library, about];
        this.store = new Store({ ...FIRST_STATE, ...rememberedRig(library) });
        this.#answer();
        this.photographs = new Photographs(() => this.refresh());
        this.shelf = new Shelf(this);
        this.rig = new RigFields(this);
        this.composing = new Composing(this);
        this.picture = new Picture(this);
        const panel = name => byId(`panel-${name}`);
        this.panels = {
            why: new WhyPanel(this, panel('why')),
            wanted: new WantedPanel(this, panel('wanted')),
            cabin: new CabinPanel(this, panel('cabin')),
            modules: new ModulesPanel(this, panel('modules')),
            book: new BookPanel(this, panel('book')),
            delays: new DelaysPanel(this, panel('delays')),
            sheet: new SheetPanel(this, panel('sheet')),
        };
        showProved(panel('proved'), about);
        this.tabs = new Tabs(tab => this.show({ tab }));
        this.terms = new Terms();
        this.draft = new Draft(library, () => ({ state: this.state, ...this.shelf.marks, typed: this.composing.refusedText, headings: this.panels.sheet.headings.of(this.state.book) }));
        this.others = new OtherTabs(also => (byId('other-tab').hidden = !also));
        this.store.listen((state, old) => this.#changed(state, old));
        this.#listen();
        this.tabs.choose(this.ui.tab);
        this.#offerDraft();
        this.examples = new FirstStart(this);
    }

    /** What was left unfinished in this browser is offered, and stays until it is taken up or discarded: all that is discarded is named. */
    #offerDraft() {
        const { offered } = this.draft;
        if (offered.length === 0) return;
        const dateOf = ({ draft }) => new Date(draft.time).toLocaleString('en-GB', { dateStyle: 'long', timeStyle: 'short' });
        const whatOf = ({ draft: { state } }) => {
            const count = this.library.bookCheck(state.book.edition, state.book.bytes);
            return `${state.book.name} with ${counted(count, 'preset')} and a word of ${lengthText(state.word.length, 'letter', state.names)}`;
        };
        const [latest, ...older] = offered;
        this.notice([`Your work of ${dateOf(latest)} is kept in this browser: ${whatOf(latest)}.`, ...older.map(one => `So is that of ${dateOf(one)}: ${whatOf(one)}.`)].join(' '),
            button('Go on with it', () => this.#takeUp(latest)),
            ...older.map(one => button(`Go on with ${one.draft.state.book.name} of ${dateOf(one)}`, () => this.#takeUp(one))),
            button('Start fresh', () => {
                this.draft.discard(offered);
                this.notice('');
            }));
    }

    #takeUp(offered) {
        const { state, typed, headings } = offered.draft;
        this.panels.sheet.headings.takeUp(headings);
        this.store.change({ ...FIRST_STATE, ...state });
        this.shelf.mark(offered.draft);
        if (typed !== null) this.composing.type(typed);
        this.draft.discard([offered]);
        this.draft.write();
        this.notice('');
    }

    get state() {
        return this.store.state;
    }

    /** The answers that are always on the page. */
    #answer() {
        const { kind, rank } = this.state;
        const { library } = this;
        const word = Uint8Array.from(this.state.word);
        const form = library.normalForm(kind, rank, word);
        this.answers = {
            window: library.window(kind, rank, word),
            form,
            crossings: library.crossings(kind, rank, word),
            same: library.same(kind, rank, word, form),
        };
    }

    #changed(state, old) {
        this.passNotice(old);
        this.examples?.leave();
        const start = performance.now();
        if (state.word !== old.word || state.kind !== old.kind || state.rank !== old.rank) this.#answer();
        this.times.calls = performance.now() - start;
        if (this.ui.selected >= state.word.length) this.ui.selected = -1;
        this.picture.follow(old.word, state.word);
        this.panels.sheet.follow();
        this.refresh();
        this.times.drawing = performance.now() - start - this.times.calls;
        const kept = ['kind', 'rank', 'names', 'book'].every(part => state[part] === old[part]);
        if (!kept) remember(state, !this.shelf.namesUnsaved);
        this.draft.writeSoon();
    }

    refresh() {
        this.rig.update();
        this.picture.update();
        this.composing.update();
        setText(byId('about-picture'), pictureText(this.state.word, this.answers.window));
        this.#updateHeader();
        this.updatePanelSoon();
    }

    /** While something is pressed the panel has to stay: a button made anew under the pointer would never be clicked. */
    #press(down) {
        this.#pressed = down;
        if (!down && this.#stale) this.updatePanelSoon();
    }

    /** After what was typed or pressed is seen, and once for many changes in a row: later where it takes longer than a frame. */
    updatePanelSoon() {
        this.#stale = true;
        clearTimeout(this.#waiting);
        this.#waiting = setTimeout(() => this.updatePanel(), this.times.panel > FRAME ? PAUSE : 0);
    }

    updatePanel() {
        clearTimeout(this.#waiting);
        if (this.#pressed) return;
        this.#stale = false;
        const start = performance.now();
        keepFocus(byId(`panel-${this.ui.tab}`), () => this.panels[this.ui.tab]?.update());
        this.times.panel = performance.now() - start;
    }

    /** Changes what is looked at, and nothing that is worked on. */
    show(parts) {
        Object.assign(this.ui, parts);
        this.refresh();
    }

    #updateHeader() {
        const { book } = this.state;
        const { unsaved } = this.shelf;
        setText(byId('book-title'), `${book.name} (${editionName(book.edition)})${unsaved ? ' *' : ''}`);
        byId('book-title').classList.toggle('saved', !unsaved);
        put(byId('book-title'), 'title', unsaved ? 'not saved yet' : '');
        put(document, 'title', `${unsaved ? '* ' : ''}${book.name} – Winnathey`);
        this.others.open(book.bytes.length === 0 && book.name === NEW_BOOK.name ? '' : book.name);
    }

    #listen() {
        byId('open').addEventListener('click', () => this.shelf.choose());
        byId('save').addEventListener('click', () => this.shelf.save());
        takeFiles(byId('file'), files => this.shelf.take(files));
        grabSource(this);
        holdDisabled();
        // A list that opens keeps the pointer's end to itself, and is no button.
        addEventListener('pointerdown', event => this.#press(event.target.closest('button, label') !== null), true);
        for (const type of ['pointerup', 'pointercancel']) addEventListener(type, () => this.#press(false), true);
        addEventListener('blur', () => this.#press(false));
        // A keyboard on the screen changes the height alone: what is typed in has to stay then.
        let width = innerWidth;
        addEventListener('resize', () => {
            if (innerWidth !== width) this.refresh();
            width = innerWidth;
        });
        addEventListener('keydown', event => this.#key(event));
        addEventListener('beforeprint', () => this.panels.sheet.update(true));
        addEventListener('beforeunload', event => {
            this.draft.write();
            const unsaved = this.store.wordUnsaved || this.composing.fault || this.shelf.unsaved;
            if (unsaved && !this.draft.kept) event.preventDefault();
        });
    }

    /** Undo and redo everywhere but in small fields, which have their own; a digit goes to the field that adds a step. */
    #key(event) {
        const field = event.target.closest('input, select, textarea');
        const command = event.ctrlKey || event.metaKey;
        const own = field && field.id !== 'word' && field.type !== 'radio' && field.type !== 'checkbox' && field.type !== 'range';
        if (command && !own && 'zy'.includes(event.key.toLowerCase())) {
            const redo = event.shiftKey || event.key.toLowerCase() === 'y';
            event.preventDefault();
            this.goBack(redo);
        } else if (command && event.key.toLowerCase() === 's') {
            // The browser would save the page instead.
            event.preventDefault();
            // A name that is still being typed counts; a box or a list has told its change already.
            if (field?.type === 'text') field.dispatchEvent(new Event('change'));
            this.shelf.save();
        } else if (!field && !command && !event.altKey && /^[0-9]$/.test(event.key)) {
            byId('add').focus();
        }
    }

    /** Undo, or redo. One that changes the book says so: someone who looks at the picture would not see it. */
    goBack(redo = false) {
        if (!redo && this.composing.takeBack()) return this.passNotice();
        const before = this.state.book;
        redo ? this.store.redo() : this.store.undo();
        const { book } = this.state;
        if (book.bytes === before.bytes && book.name === before.name) return;
        const count = this.library.bookCheck(book.edition, book.bytes);
        this.noticeOnce(`${redo ? 'Redo' : 'Undo'} changed the book: it is ${book.name} with ${counted(count, 'preset')} now.`);
    }

    /** Whether the field with the word holds one. If not, that is said, with what stays undone: the last word is not meant then. */
    hasWord(undone) {
        if (!this.composing.fault) return true;
        this.noticeOnce(`The field with the word does not hold a word. ${undone}.`,
            button('Go to what is wrong', () => this.composing.goToFault()),
            button('Go back to the last word', () => this.goBack()));
        return false;
    }

    /** A source put on a screen of the wanted picture; on one of the picture itself, which is then the one that is changed. */
    putOnScreen(source, screen, inPicture) {
        const { window } = this.answers;
        const before = inPicture ? window : this.state.wanted ?? window;
        this.tabs.choose('wanted');
        this.store.change({ wanted: withSource(before, source, screen) });
    }

    /** A sentence about what is over now goes. */
    passNotice(old = this.state) {
        if (this.#passing?.(this.state, old)) this.notice('');
    }

    /** A sentence that goes with the next change. */
    noticeOnce(text, ...buttons) {
        this.noticeUntil(() => true, text, ...buttons);
    }

    /** A sentence that goes with such a change. */
    noticeUntil(passing, text, ...buttons) {
        this.notice(text, ...buttons);
        this.#passing = passing;
    }

    /** A sentence at the top of the page, with what can be done about it. */
    notice(text, ...buttons) {
        this.#passing = null;
        byId('notice').replaceChildren(...(text ? [make('span', {}, text), ...buttons] : []));
        byId('notice').hidden = text === '';
    }
}

async function start() {
    const holder = byId('library');
    const bytes = Uint8Array.from(atob(holder.textContent.trim()), character => character.charCodeAt(0));
    const library = callsOf(await load(bytes));
    window.app = new App(library, { version: library.version(), hash: holder.dataset.hash });
    document.body.dataset.ready = 'yes';
}

start().catch(error => {
    byId('notice').textContent = `This browser cannot run the page: ${error.message}`;
    byId('notice').hidden = false;
    throw error;
});
