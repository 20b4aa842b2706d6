// Why a word shrinks: the rewriting line by line, replayed with the library's single rewrite.
import { button, byId, enable, make, setText } from './dom.mjs';
import { pictureMarkup } from './strands.mjs';
import { term } from './terms.mjs';
import { counted, grouped, shortened, spaced } from './text.mjs';
import { lengthText } from './times.mjs';

/** So many lines can be looked at. Words with more have millions: the list of those is made on request only. */
export const MOST_LINES = 60000;
/** A left side has at most so many letters, twice the greatest rank: the library is lent no more of the word. */
const LONGEST_SIDE = 128;
/** Every so many lines a word is kept, so that a jump replays fewer. */
const KEPT = 500;
/** So many letters of a word are shown in front of the part that is replaced, and behind it. */
const AROUND = 24;

/** The rewriting of a preset. `line(k)` is its k-th line, from 0; the words between are replayed. */
export class Rewriting {
    #kept;

    constructor(library, { kind, rank, word }) {
        this.library = library;
        this.rig = [kind, rank];
        const { steps, word: form } = library.rewriteToEnd(kind, rank, word);
        this.count = steps.length;
        this.steps = steps.slice(0, MOST_LINES);
        this.form = form;
        this.#kept = new Map([[0, Array.from(word)]]);
    }

    /** One rewrite of a word, in place, by the library at a place: the rule, and the lengths of its sides. */
    #rewrite(word, place) {
        const here = word.slice(place, place + LONGEST_SIDE);
        const { family, i, j, word: after } = this.library.rewrite(...this.rig, here, 0);
        // Where the length stays, the two sides differ in their last letter, and nothing differs behind them.
        const left = after.length < here.length ? 2 : here.findLastIndex((letter, at) => letter !== after[at]) + 1;
        const right = left - (here.length - after.length);
        if (left === right) for (let at = 0; at < left; at++) word[place + at] = after[at];
        else word.splice(place, left, ...after.slice(0, right));
        return { family, i, j, left, right };
    }

    /** The word after so many lines. */
    wordAfter(lines) {
        let at = lines - lines % KEPT;
        while (!this.#kept.has(at)) at -= KEPT;
        const word = this.#kept.get(at).slice();
        while (at < lines) {
            this.#rewrite(word, this.steps[at].place);
            at += 1;
            if (at % KEPT === 0) this.#kept.set(at, word.slice());
        }
        return word;
    }

    line(number) {
        const before = this.wordAfter(number);
        const after = before.slice();
        const { place } = this.steps[number];
        return { place, before, after, ...this.#rewrite(after, place) };
    }
}

/** A rule in words. The run is the left side but for its last letter. */
export function ruleText({ family, place, before, left, after }) {
    const side = before.slice(place, place + left);
    const [first, last] = [side[0], side.at(-1)];
    if (family === 1) return `${first} twice in a row shows nothing new: both go`;
    if (family === 2) return `${first} and ${last} change places`;
    if (family === 5) return `${spaced(side)} becomes ${spaced(after.slice(place, place + left))}`;
    const moved = after[place];
    const becomes = moved === last ? '' : ` and becomes ${moved}`;
    return `the ${last} behind the run ${spaced(side.slice(0, -1))} moves in front of it${becomes}`;
}

/** A word around a part of it that stands out, which is shown by an element of this name; and its length as text. */
function marked(word, place, length, name, told) {
    const [from, end] = [Math.max(place - AROUND, 0), place + length];
    const part = (first, last) => (first < last ? spaced(word.slice(first, last)) : '');
    return make('p', { class: 'word line' },
        `${from > 0 ? '… ' : ''}${part(from, place)}${place > 0 ? ' ' : ''}`, make(name, {}, part(place, end) || '(nothing)'),
        ` ${part(end, Math.min(end + AROUND, word.length))}${end + AROUND < word.length ? ' …' : ''} `,
        make('span', { class: 'quiet' }, ` ${told}`));
}

export class WhyPanel {
    constructor(app, root) {
        this.app = app;
        this.at = 0;
        this.timer = null;
        const go = (id, text, step) => button(text, () => this.#go(this.at + step), { id });
        this.slider = make('input', {
            type: 'range', id: 'why-slider', min: 0, 'aria-label': 'line of the rewriting',
            oninput: () => this.#go(Number(this.slider.value)),
        });
        this.lines = make('div', { id: 'why-lines' });
        this.controls = make('div', { class: 'bar' }, go('why-back', '◀ Back', -1), go('why-forward', 'Forward ▶', 1),
            button('Play', () => this.#play(), { id: 'why-play' }), this.slider, make('output', { id: 'why-place' }));
        root.append(make('p', { id: 'why-head' }), this.controls, this.lines);
    }

    #go(at) {
        this.#stop();
        this.#show(at);
    }

    #show(at) {
        this.at = Math.min(Math.max(at, 0), this.rewriting?.steps.length ?? 0);
        this.#draw();
    }

    #stop() {
        clearInterval(this.timer);
        this.timer = null;
        setText(byId('why-play'), 'Play');
    }

    /** Plays the lines from here, or from the start where it is at the end. */
    #play() {
        if (this.timer) return this.#stop();
        if (this.at >= this.rewriting.steps.length) this.#show(0);
        setText(byId('why-play'), 'Pause');
        this.timer = setInterval(() => {
            this.#show(this.at + 1);
            if (this.at >= this.rewriting.steps.length) this.#stop();
        }, 900);
    }

    update() {
        const { library } = this.app;
        const { kind, rank, word } = this.app.state;
        const { preset } = this;
        if (preset?.kind === kind && preset.rank === rank && preset.word === word) return this.#draw();
        this.#stop();
        // The preset that the panel shows: the state may be ahead of it for a moment.
        this.preset = { kind, rank, word };
        [this.rewriting, this.at] = [null, 0];
        const count = library.rewriteSteps(kind, rank, word);
        if (count <= MOST_LINES) this.rewriting = new Rewriting(library, this.preset);
        this.#head(count);
        this.#draw();
    }

    #head(count) {
        const head = byId('why-head');
        const lines = `${counted(count, 'line')} lead${count === 1 ? 's' : ''} from the word to its shortest version.`;
        const part = count > MOST_LINES ? ` The first ${grouped(MOST_LINES)} can be looked at.` : '';
        setText(head, count === 0 ? 'No rule fits anywhere: the word is its shortest version already.'
            : `${lines} Each replaces the marked part by one that shows the same.${part}`);
        this.controls.hidden = !this.rewriting || count === 0;
        if (this.rewriting) return;
        head.append(' ', button('Show them', () => {
            this.rewriting = new Rewriting(this.app.library, this.preset);
            this.#head(count);
            this.#draw();
        }));
    }

    #draw() {
        const { rewriting, at } = this;
        if (!rewriting || rewriting.count === 0) return this.lines.replaceChildren();
        const last = rewriting.steps.length;
        [this.slider.max, this.slider.value] = [last, at];
        enable(byId('why-back'), at > 0);
        enable(byId('why-forward'), at < last);
        setText(byId('why-place'), at === last ? 'end' : `line ${grouped(at + 1)} of ${grouped(rewriting.count)}`);
        this.lines.replaceChildren(...(at === last ? this.#end() : this.#line(rewriting.line(at))));
    }

    #end() {
        const { form, count, steps } = this.rewriting;
        const hidden = count > steps.length ? `The lines after line ${grouped(steps.length)} are not shown. ` : '';
        const text = `${hidden}After ${counted(count, 'line')} this is the shortest version, ${this.#length(form)}: `;
        return [make('p', {}, text, make('span', { class: 'word' }, shortened(form, 120))), this.#picture(form, null, 0)];
    }

    #length(word) {
        return lengthText(word.length, 'letter', this.app.state.names);
    }

    #line(line) {
        const { place, before, after, left, right, family } = line;
        const places = new Set(Array.from({ length: left }, (_, at) => place + at));
        return [
            make('p', { id: 'why-rule' }, make('strong', {}, ruleText(line)),
                make('span', { class: 'quiet' }, ' (', term('family', `rule family ${family}`, { 'data-key': 'family' }), ')')),
            marked(before, place, left, 'mark', this.#length(before)),
            marked(after, place, right, 'b', this.#length(after)),
            this.#picture(before, places, place),
        ];
    }

    #picture(word, marks, around) {
        const width = Math.max(this.lines.clientWidth, 280);
        const title = 'the word of this line, with the replaced part marked';
        const holder = make('div', {});
        holder.innerHTML = pictureMarkup(this.app.library, { ...this.preset, word }, { width, marks, around, title });
        return holder;
    }
}
