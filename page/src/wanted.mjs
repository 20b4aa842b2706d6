// The wanted picture: sources put on screens and mirrored by hand, and the library's word that leads there.
import { button, fromMarkup, make, refusalLine, setText } from './dom.mjs';
import { attempt } from './library.mjs';
import { labelled } from './names.mjs';
import { toldText } from './plain.mjs';
import { rigOf } from './rig.mjs';
import { colourOf, viewMarkup } from './strands.mjs';
import { term } from './terms.mjs';
import { shortened } from './text.mjs';
import { lengthText, timeText } from './times.mjs';

/** A source put on a screen, both from 1: what was there goes where the source was, so that every source stays on one screen. */
export function withSource(window, source, screen) {
    const from = window.findIndex(entry => Math.abs(entry) === source);
    const to = screen - 1;
    const changed = window.slice();
    [changed[from], changed[to]] = [changed[to], changed[from]];
    return changed;
}

export function withMirrored(window, screen) {
    return window.map((entry, at) => (at === screen - 1 ? -entry : entry));
}

/** The steps whose modules have not failed. */
export function stepsLeft({ rank, failed }) {
    return Array.from({ length: rank }, (_, at) => at + 1).filter(step => !failed.includes(step));
}

/** The word over the steps left that leads to the wanted window, or the library's refusal. */
export function wayTo(library, state, wanted) {
    const { kind, rank, word, wantedFrom } = state;
    const from = wantedFrom === 'present' ? library.window(kind, rank, word) : library.straight(kind, rank);
    return attempt(() => library.between(kind, rank, stepsLeft(state), from, wanted));
}

/** Takes a word that was the answer to a state, unless the question has changed since or the word is refused; returns whether it was taken. */
export function useWord(app, asked, word) {
    const { library, state, store } = app;
    const same = ['kind', 'rank', 'word', 'wanted', 'failed', 'wantedFrom'].every(part => state[part] === asked[part]);
    if (!same || !app.hasWord('The word stays as it is')) return false;
    const { refusal } = attempt(() => library.window(state.kind, state.rank, word));
    if (refusal) app.notice(`The word stays as it is. ${toldText(refusal)}`);
    else store.change({ word });
    return !refusal;
}

export class WantedPanel {
    constructor(app, root) {
        this.app = app;
        this.fields = make('div', {});
        this.follows = make('p', { id: 'wanted-follows', role: 'status' });
        this.settings = make('div', { class: 'bar' });
        this.starts = make('div', {});
        // What reads the screen aloud hears changes only of an element that stays.
        this.answer = make('div', { class: 'answer', 'aria-live': 'polite' });
        root.append(this.fields, this.follows, this.settings, this.starts, this.answer);
    }

    get wanted() {
        const { state, answers } = this.app;
        return state.wanted ?? answers.window;
    }

    /** A change of the wanted picture; one that was meant for another rig, drawn a moment ago, is none. */
    #change(change) {
        if (this.rig === rigOf(this.app.state)) this.app.store.change({ wanted: change(this.wanted) });
    }

    update() {
        const { app } = this;
        const answer = wayTo(app.library, app.state, this.wanted);
        this.rig = rigOf(app.state);
        this.fields.replaceChildren(
            make('p', {}, 'Drag a source to a screen, or choose it in the list. Click a view to mirror it. ' +
                'What was on the screen goes where the source was.'),
            this.#tokens(),
            this.#cards(answer.refusal),
        );
        setText(this.follows, followsText(app.state.wanted));
        this.settings.replaceChildren(...this.#settings());
        this.starts.replaceChildren(this.#starts());
        this.answer.replaceChildren(this.#answer(answer));
    }

    #tokens() {
        const { library, state } = this.app;
        const token = source => make('li', { class: `token ${colourOf(source)}`, 'data-source': source, title: 'Drag it to a screen' },
            labelled(state.names, 'source', source));
        return make('ul', { class: 'tokens', 'aria-label': 'sources' }, library.straight(state.kind, state.rank).map(token));
    }

    #cards(refusal) {
        const { names } = this.app.state;
        const culprit = entry => (refusal?.number === 10 || refusal?.number === 11) && entry < 0;
        return make('ol', { class: 'cards' }, this.wanted.map((entry, at) => {
            const screen = at + 1;
            const name = labelled(names, 'screen', screen);
            const mirror = make('button', {
                type: 'button',
                class: 'mirror',
                'data-key': `mirror-${screen}`,
                'aria-pressed': String(entry < 0),
                'aria-label': `mirror the view on screen ${name}`,
                title: 'Click to mirror',
                onclick: () => this.#change(window => withMirrored(window, screen)),
            }, fromMarkup(viewMarkup(Math.abs(entry), entry < 0)), make('span', {}, entry < 0 ? 'mirrored' : 'as it is'));
            return make('li', { class: culprit(entry) ? 'card culprit' : 'card', 'data-screen': screen, 'data-entry': entry },
                make('span', { class: 'card-name' }, `Screen ${name}`), mirror, this.#choice(screen, entry, name));
        }));
    }

    /** With many lanes the lists are filled when they are opened: they have as many lines as there are lanes, squared. */
    #choice(screen, entry, name) {
        const { names, kind, rank } = this.app.state;
        const here = Math.abs(entry);
        const sources = this.app.library.straight(kind, rank);
        const option = source => make('option', { value: source, selected: source === here }, labelled(names, 'source', source));
        const choice = make('select', {
            'aria-label': `source on screen ${name}`,
            'data-key': `source-${screen}`,
            onchange: () => this.#change(window => withSource(window, Number(choice.value), screen)),
        });
        const fill = () => choice.options.length < sources.length && choice.replaceChildren(...sources.map(option));
        choice.append(option(here));
        if (sources.length <= 16) fill();
        for (const type of ['pointerdown', 'focus']) choice.addEventListener(type, fill);
        return choice;
    }

    #starts() {
        const { app } = this;
        const { state } = app;
        const from = (value, text) => make('label', { class: 'choice' }, make('input', {
            type: 'radio', name: 'wanted-from', value, checked: state.wantedFrom === value, 'data-key': `from-${value}`,
            onchange: () => app.store.change({ wantedFrom: value }),
        }), text);
        return make('fieldset', { class: 'inline bar' }, make('legend', {}, 'Lead there from'),
            from('present', 'the picture above'), from('straight', 'the straight picture'), term('straight', 'What is straight?', { 'data-key': 'straight' }));
    }

    #settings() {
        const { app } = this;
        const { library, state } = app;
        return [
            button('Set all screens straight', () => this.#change(() => library.straight(state.kind, state.rank))),
            button('Set all screens as in the picture above', () => this.#change(() => app.answers.window)),
            // Off, it stays for the keyboard that has just pressed it.
            button('Let it follow the picture above', () => this.#change(() => null), { 'aria-disabled': state.wanted === null ? 'true' : null }),
        ];
    }

    #answer({ value, refusal }) {
        const { app } = this;
        const { state } = app;
        if (refusal) return refusalLine(refusal, state);
        const present = state.wantedFrom === 'present';
        const start = present ? 'picture above' : 'straight picture';
        if (value.length === 0) return make('p', {}, `The ${start} is the wanted one: no step is needed.`);
        // With no steps yet both buttons would do the same.
        const take = present && state.word.length > 0
            ? button('Add these steps to the word', () => useWord(app, state, [...state.word, ...value]), { class: 'main' })
            : button('Use these steps as the word', () => useWord(app, state, value), { class: 'main' });
        const text = `${lengthText(value.length, 'step', state.names)}${timeText(1, state.names) && ','} lead${value.length === 1 ? 's' : ''} there: `;
        return make('p', {}, text, make('strong', { class: 'word' }, shortened(value, 200)), ' ', take);
    }
}

/** Whether the wanted picture stays. */
function followsText(wanted) {
    return wanted === null ? 'The wanted picture is the picture above until you change it here; from then on it stays.'
        : 'The wanted picture was changed here and stays, whatever becomes of the picture above.';
}
