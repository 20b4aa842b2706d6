// Composing: the bar of buttons below the picture, the field with the word, and the normal form beside it, which the page calls the
// shortest version.
import { byId, enable, put, setText } from './dom.mjs';
import { attempt } from './library.mjs';
import { escaped } from './markup.mjs';
import { toldText } from './plain.mjs';
import { rigOf } from './rig.mjs';
import { grouped, parsedWord, shortened, spaced, wordText } from './text.mjs';
import { lengthText, timeText } from './times.mjs';
import { added, culpritOf, moved, removed, sameLetters } from './words.mjs';

/** What a typed word is: its letters, or what is wrong with it and where in the text. */
export function judged(library, kind, rank, text) {
    const { letters, spans, strange } = parsedWord(text);
    if (strange) return { letters: null, fault: { ...strange, told: `'${strange.text}' is no number. Type the numbers of steps, with spaces between.` } };
    const { refusal } = attempt(() => library.window(kind, rank, letters));
    if (!refusal) return { letters, fault: null };
    const at = culpritOf(library, kind, rank, letters, refusal);
    const step = text.slice(spans[at].start, spans[at].end);
    return { letters: null, fault: { ...spans[at], at, number: refusal.number, told: toldText(refusal, { step, at, rank }) } };
}

/** Why no step is added, moved or removed while the field has text that was refused: that text would be gone. */
const NO_WORD = 'The field with the word does not hold a word: correct it there, or press Undo.';

export class Composing {
    constructor(app) {
        this.app = app;
        this.field = byId('word');
        this.field.addEventListener('input', () => this.#typed());
        byId('skip').addEventListener('click', () => this.field.focus());
        this.field.addEventListener('scroll', () => (byId('word-marks').scrollTop = this.field.scrollTop));
        byId('take').addEventListener('click', () => app.hasWord('The word stays as it is') && app.store.change({ word: app.answers.form }));
        byId('undo').addEventListener('click', () => app.goBack());
        byId('redo').addEventListener('click', () => app.goBack(true));
        byId('clear').addEventListener('click', () => app.store.change({ word: [] }));
        byId('remove').addEventListener('click', () => this.remove(app.ui.selected));
        byId('earlier').addEventListener('click', () => this.move(app.ui.selected, app.ui.selected - 1));
        byId('later').addEventListener('click', () => this.move(app.ui.selected, app.ui.selected + 1));
        byId('add').addEventListener('keydown', event => event.key === 'Enter' && this.#addTyped());
        byId('add-button').addEventListener('click', () => this.#addTyped());
        byId('both').addEventListener('change', () => app.show({ both: byId('both').checked }));
    }

    /** Adds a step at the end; a refusal is said beside the field and changes nothing. */
    add(step) {
        const { library, state, store } = this.app;
        if (this.fault) return this.#sayAdd(NO_WORD);
        const word = added(state.word, step);
        const { refusal } = attempt(() => library.window(state.kind, state.rank, word));
        if (refusal) return this.#sayAdd(toldText(refusal, { step, rank: state.rank }));
        this.app.ui.selected = word.length - 1;
        store.change({ word });
        return true;
    }

    #addTyped() {
        const { letters, strange } = parsedWord(byId('add').value);
        if (strange || letters.length !== 1) return this.#sayAdd('Type one number of a step.');
        if (this.add(letters[0])) byId('add').value = '';
    }

    #sayAdd(text) {
        setText(byId('add-message'), text);
        put(byId('add'), 'ariaInvalid', text !== '');
    }

    remove(at) {
        const { ui, state, store } = this.app;
        if (at < 0) return;
        if (this.fault) return this.#sayAdd(NO_WORD);
        ui.selected = Math.min(at, state.word.length - 2);
        store.change({ word: removed(state.word, at) });
    }

    move(from, to) {
        const { ui, state, store } = this.app;
        if (from < 0 || to < 0 || to >= state.word.length || from === to) return;
        if (this.fault) return this.#sayAdd(NO_WORD);
        ui.selected = to;
        store.change({ word: moved(state.word, from, to) });
    }

    #typed() {
        const { library, state, store } = this.app;
        const { letters, fault } = judged(library, state.kind, state.rank, this.field.value);
        this.fault = fault;
        if (!fault) this.app.passNotice();
        // The same letters with other spaces between them are no change.
        if (letters && !sameLetters(letters, state.word)) {
            this.typed = letters;
            store.change({ word: letters });
        } else this.#showFault();
        this.app.updatePanelSoon();
        this.app.draft.writeSoon();
    }

    /** What stands in the field and is no word, or null. */
    get refusedText() {
        return this.fault ? this.field.value : null;
    }

    type(text) {
        this.field.value = text;
        this.#typed();
    }

    /** Takes refused text out of the field, which then has the word again; returns whether there was any. */
    takeBack() {
        if (!this.fault) return false;
        this.fault = null;
        this.field.value = spaced(this.app.state.word);
        this.#showFault();
        this.#sayAdd('');
        this.app.updatePanelSoon();
        return true;
    }

    /** Puts the cursor at what is wrong in the field. */
    goToFault() {
        this.field.focus();
        this.field.setSelectionRange(this.fault?.start ?? 0, this.fault?.end ?? 0);
    }

    /** What stands beside text that is no word is about the last word. */
    #sayLetters() {
        const { word, names } = this.app.state;
        const letters = lengthText(word.length, 'letter', names);
        setText(byId('letters'), this.fault ? `Last word: ${letters}` : letters);
    }

    /** The wrong letter is marked behind the text, at its place. */
    #showFault() {
        const { fault, field } = this;
        const text = field.value;
        put(field, 'ariaInvalid', Boolean(fault));
        enable(byId('undo'), this.app.store.canUndo || Boolean(fault));
        const part = (start, end) => escaped(text.slice(start, end));
        const marks = byId('word-marks');
        if (!fault) marks.replaceChildren();
        else {
            marks.innerHTML = `${part(0, fault.start)}<mark>${part(fault.start, fault.end)}</mark>${part(fault.end)}`;
            // To ask for this lays the text out, which takes long where it is long.
            marks.scrollTop = field.scrollTop;
        }
        this.#sayLetters();
        setText(byId('word-message'), fault ? `${fault.told} The picture stays as it was.` : '');
    }

    /** The word as text. Text that was refused stays as it was typed until the word changes; another rig may accept it. */
    #updateField(state) {
        const { word } = state;
        const changed = word !== this.of;
        const refitted = this.fault && this.rig !== rigOf(state);
        [this.of, this.rig] = [word, rigOf(state)];
        if (refitted) return void setTimeout(() => this.#typed());
        if (!changed) return;
        // A word that was typed stands there as it was typed.
        if (word !== this.typed) [this.field.value, this.typed] = [spaced(word), null];
        this.fault = null;
        this.#showFault();
    }

    update() {
        const { state, answers, store, ui } = this.app;
        this.#updateField(state);
        this.#sayAdd('');
        enable(byId('undo'), store.canUndo || Boolean(this.fault));
        enable(byId('redo'), store.canRedo);
        enable(byId('clear'), state.word.length > 0);
        enable(byId('remove'), ui.selected >= 0);
        enable(byId('earlier'), ui.selected >= 1);
        enable(byId('later'), ui.selected >= 0 && ui.selected < state.word.length - 1);
        this.#sayLetters();
        byId('unkept').hidden = !store.wordUnsaved;
        this.#updateForm(state, answers);
    }

    #updateForm(state, { form, same, crossings }) {
        const taken = sameLetters(form, state.word);
        setText(byId('form'), form.length > 400 ? shortened(form, 400) : wordText(form));
        setText(byId('form-letters'), lengthText(form.length, 'letter', state.names));
        enable(byId('take'), !taken);
        const shows = same ? 'Shows the same on every screen.' : 'Does NOT show the same.';
        setText(byId('form-same'), taken ? 'The word is its shortest version.' : shows);
        const { inversions, negativeSumPairs, negatives, total } = crossings;
        const time = timeText(total, state.names);
        setText(byId('crossings-plain'), `Length ${grouped(total)}${time && `, ${time}`}: ${grouped(inversions)} plain, ${grouped(negativeSumPairs)}`);
        // A bare 0 beside mirrored views would read as a mistake.
        setText(byId('crossings-mirrored'), `, ${grouped(negatives)} mirrored${state.kind === 'D' ? ' (kind D counts none)' : ''}.`);
    }
}
