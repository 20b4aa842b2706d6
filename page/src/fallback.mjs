// Fallback by what failed: what the modules left can still show, and on which screens that differs. Every answer is the library's.
import { button, make, refusalParts, setText } from './dom.mjs';
import { labelled } from './names.mjs';
import { pictureMarkup } from './strands.mjs';
import { counted, listed, shortened } from './text.mjs';
import { lengthText } from './times.mjs';
import { stepsLeft, useWord, wayTo } from './wanted.mjs';
import { sameLetters } from './words.mjs';

/** So many screens are named one by one, and so many lanes drawn. */
const [MOST_NAMED, MOST_DRAWN] = [12, 20];

const TITLES = {
    start: 'The longest start of the preset that needs no failed module',
    word: 'The word without its failed steps',
    form: 'The shortest version without its failed steps',
};

export function splitOf(library, state) {
    return library.split(state.kind, state.rank, stepsLeft(state), state.word);
}

/** The screens on which two windows differ, from 1. */
export function differing(one, two) {
    return one.map((_, at) => at + 1).filter(screen => one[screen - 1] !== two[screen - 1]);
}

/**
 * What the modules left can show of the present preset, the picture with the fewest screens that differ first: by the first word of
 * the split, and by the word and its shortest version without the failed steps. Each picture has all words that show it, the shortest
 * first.
 */
export function picturesLeft(library, state, { form, window }) {
    const { kind, rank, word, failed } = state;
    const { first, second } = splitOf(library, state);
    const kept = letters => Array.from(letters).filter(step => !failed.includes(step));
    const pictures = [];
    for (const [title, letters] of [['start', first], ['word', kept(word)], ['form', kept(form)]]) {
        const shown = library.window(kind, rank, letters);
        const known = pictures.find(picture => sameLetters(picture.window, shown));
        const same = known?.words.find(other => sameLetters(other.word, letters));
        if (same) same.titles.push(title);
        else if (known) known.words.push({ titles: [title], word: letters });
        else pictures.push({ window: shown, words: [{ titles: [title], word: letters }], rest: title === 'start' ? second : [] });
    }
    for (const picture of pictures) {
        picture.screens = differing(picture.window, window);
        picture.words.sort((one, two) => one.word.length - two.word.length);
        picture.isFallback = library.fallback(kind, rank, word, picture.words[0].word) !== null;
    }
    return pictures.sort((one, two) => one.screens.length - two.screens.length);
}

/** What a screen shows instead of something else, in names. */
export function insteadText(names, screen, now, before) {
    const source = entry => labelled(names, 'source', Math.abs(entry));
    const way = entry => (entry < 0 ? 'mirrored' : 'as it is');
    const name = `Screen ${labelled(names, 'screen', screen)}`;
    if (Math.abs(now) === Math.abs(before)) return `${name} shows ${source(now)} ${way(now)} instead of ${way(before)}`;
    const shown = entry => `${source(entry)}${entry < 0 ? ' mirrored' : ''}`;
    return `${name} shows ${shown(now)} instead of ${shown(before)}`;
}

/** How often the word uses failed modules, and what follows from it. */
export function failedText({ rank, word, failed }) {
    if (failed.length === 0) return 'None is ticked: every picture can be shown. Tick a module to see what is left without it.';
    const times = word.filter(step => failed.includes(step)).length;
    const one = failed.length === 1;
    const all = failed.length === rank ? ' Without any module only the straight picture can be shown.' : '';
    const many = failed.length > 8 ? `${failed.length} modules have` : `Modules ${listed(failed)} have`;
    const modules = one ? `Module ${failed[0]} has` : all ? 'All modules have' : many;
    const uses = times === 0 ? `The word does not use ${one ? 'it' : 'them'}: it can be shown as it is.`
        : `The word uses ${one ? 'it' : 'them'} ${['', 'once', 'twice'][times] ?? `${times} times`}: it cannot be shown as it is.`;
    return `${modules} failed. ${uses}${all}`;
}

/** What can still be shown, drawn anew for each change; `head` and `root` stay. */
export class WaysLeft {
    constructor(app) {
        this.app = app;
        this.head = make('p', { id: 'failed-head', role: 'status', tabindex: -1 });
        this.root = make('div', { id: 'ways-left' });
        /** The key of the button that was pressed last, until its answer is drawn. */
        this.pressed = null;
    }

    update() {
        const { state } = this.app;
        setText(this.head, failedText(state));
        const parts = () => [...this.#wanted(), make('h3', {}, 'What can still be shown of the present preset'), ...this.#pictures()];
        this.root.replaceChildren(...(state.failed.length === 0 ? [] : parts()));
        // What was used may be gone, with the button that was pressed.
        const same = [...this.root.querySelectorAll('button')].find(element => element.dataset.key === this.pressed);
        if (this.pressed) (same ?? this.head).focus({ preventScroll: true });
        this.pressed = null;
    }

    /** The button that takes a word. One that would change nothing stays for the keyboard. */
    #use(word, what) {
        const { app } = this;
        const asked = app.state;
        const same = sameLetters(word, asked.word);
        const text = same ? 'In use' : 'Use it';
        const press = () => useWord(app, asked, word) && (this.pressed = what);
        return button(text, press, { 'aria-label': `${text}: ${what}`, 'data-key': what, 'aria-disabled': same ? 'true' : null });
    }

    #word(word) {
        const length = word.length === 0 ? '' : `, ${lengthText(word.length, 'step', this.app.state.names)}`;
        return [make('span', { class: 'word' }, shortened(word, 40)), `${length} `];
    }

    #pictures() {
        const { library, state, answers } = this.app;
        return picturesLeft(library, state, answers).map(picture => make('section', { class: 'way' },
            make('div', { class: 'way-text' },
                picture.words.map(({ titles, word }) => {
                    const title = titleOf(titles, word);
                    return [make('h4', {}, title), make('p', {}, ...this.#word(word), this.#use(word, title))];
                }).flat(),
                this.#differences(picture),
                make('p', { class: 'quiet' }, restText(picture, state), fallbackVerdict(picture))),
            picture.window.length <= MOST_DRAWN && this.#drawing(picture)));
    }

    #drawing({ words: [{ titles, word }] }) {
        const { library, state } = this.app;
        const holder = make('div', { class: 'way-picture' });
        holder.innerHTML = pictureMarkup(library, { ...state, word }, { width: 320, lane: 20, column: 22, title: `picture: ${titleOf(titles, word)}` });
        return holder;
    }

    #differences({ window, screens }) {
        const { state, answers } = this.app;
        const { names, wanted } = state;
        const some = screens.length === 0 ? 'It shows the same as the picture above on every screen.'
            : `It differs from the picture above on ${screens.length === window.length ? 'all' : `${screens.length} of`} ${counted(window.length, 'screen')}:`;
        const lines = screens.slice(0, MOST_NAMED).map(screen =>
            make('li', {}, insteadText(names, screen, window[screen - 1], answers.window[screen - 1])));
        const more = screens.length > MOST_NAMED ? [make('li', {}, `and ${screens.length - MOST_NAMED} more: ${listed(screens.slice(MOST_NAMED))}`)] : [];
        return [make('p', {}, some), lines.length > 0 && make('ul', {}, lines, more),
            wanted !== null && make('p', {}, wantedText(names, differing(window, wanted)))].filter(Boolean);
    }

    /**
     * The way to the wanted picture. As long as that follows the picture above, or is that picture and failed modules keep it from being
     * shown, only the way from the straight one is a question.
     */
    #wanted() {
        const { library, state, answers } = this.app;
        const followed = state.wanted === null;
        const head = followed ? 'The way to the picture above over the modules left' : 'The way to the wanted picture over the modules left';
        const unshown = !followed && sameLetters(state.wanted, answers.window) && state.word.some(step => state.failed.includes(step));
        const starts = followed || unshown ? ['straight'] : ['present', 'straight'];
        const ways = starts.map(start => ({ start, ...wayTo(library, { ...state, wantedFrom: start }, state.wanted ?? answers.window) }));
        const [one, two] = ways.map(({ refusal }) => refusal?.number);
        // What is refused from both is said once.
        const lines = one && one === two ? [refusedLine('From the picture above and from the straight picture: ', ways[0].refusal, state)] : ways.map(way => this.#way(way));
        return [make('h3', {}, head), ...lines];
    }

    #way({ start, value, refusal }) {
        const { state } = this.app;
        const present = start === 'present';
        const from = `From the ${present ? 'picture above' : 'straight picture'}: `;
        if (refusal) return refusedLine(from, refusal, state);
        if (value.length === 0) return make('p', {}, from, 'no step is needed, it is this picture already.');
        const word = present ? [...state.word, ...value] : value;
        const behind = present && word.some(step => state.failed.includes(step)) ? 'The word keeps the failed steps that come before. ' : '';
        return make('p', {}, from, ...this.#word(value), behind, this.#use(word, `the way ${from.toLowerCase().slice(0, -2)}`));
    }
}

function titleOf(titles, word) {
    if (word.length === 0) return 'The straight picture';
    return listed(titles.map((key, at) => (at === 0 ? TITLES[key] : TITLES[key].replace('The', 'the'))));
}

function refusedLine(from, refusal, state) {
    return make('p', { class: 'refusal', 'data-refusal': refusal.number }, from, ...refusalParts(refusal, state));
}

/** What the split leaves out. */
function restText({ rest }, { names }) {
    if (rest.length === 0) return '';
    return `Left out: ${shortened(rest, 60)} (${lengthText(rest.length, 'step', names)}), which only a failed module can begin. `;
}

function fallbackVerdict({ isFallback }) {
    return isFallback ? 'It is a fallback: pulling steps out of the shortest version leaves this picture.'
        : 'It is no fallback: pulling steps out of the shortest version never leaves this picture.';
}

function wantedText(names, screens) {
    if (screens.length === 0) return 'It shows the wanted picture.';
    const few = screens.slice(0, MOST_NAMED).map(screen => labelled(names, 'screen', screen));
    const more = screens.length > MOST_NAMED ? [`${screens.length - MOST_NAMED} more`] : [];
    return `From the wanted picture it differs on ${screens.length === 1 ? 'screen' : 'screens'} ${listed([...few, ...more])}.`;
}
