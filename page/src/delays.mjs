// Delays: what one step takes, how many pictures of the rig have each length, as bars with a scale, and the longest one.
import { make, put, refusalLine, setText } from './dom.mjs';
import { attempt } from './library.mjs';
import { tag } from './markup.mjs';
import { NO_NAMES, delayFault, delayOf, withDelay } from './names.mjs';
import { pictureMarkup } from './strands.mjs';
import { counted, grouped, shortened } from './text.mjs';
import { lengthText, timeText } from './times.mjs';

/** The height of the bars, and what is above them. */
const [HIGH, TOP] = [220, 12];

/** Round numbers up the scale: 1, 2 or 5 times a power of ten apart, five at most. */
export function ticksOf(most) {
    const fits = step => most / step <= 4n;
    let power = 1n;
    while (!fits(power * 5n)) power *= 10n;
    const step = [power, power * 2n, power * 5n].find(fits);
    const ticks = [];
    for (let tick = 0n; tick <= most; tick += step) ticks.push(tick);
    return ticks;
}

/** One of two large numbers as a share of the other, from 0 to 1, exactly enough to draw. */
export function share(part, whole) {
    return whole === 0n ? 0 : Number(part * 1000000n / whole) / 1000000;
}

/** Every how many lengths one is written below the bars, so that none touches the next. */
function everyOf(texts, width) {
    const wide = Math.max(34, ...texts.map(text => 8 * text.length + 16));
    return [1, 2, 5, 10, 20, 50, 100].find(gap => texts.length / gap * wide <= width) ?? texts.length;
}

/**
 * The bars, of which that of the present length is marked, or those of a set of lengths. With names that have a delay the lengths are
 * told in milliseconds too.
 */
export function barsMarkup(counts, width, present, names = NO_NAMES) {
    const marked = present instanceof Set ? present : new Set([present]);
    const most = counts.reduce((one, two) => (one > two ? one : two));
    const ticks = ticksOf(most);
    const left = 16 + 8 * grouped(ticks.at(-1)).length;
    const step = (width - left - 10) / counts.length;
    const times = counts.map((_, length) => timeText(length, names));
    const every = everyOf(times.map(text => text.replace(' ms', '')), width - left);
    const lines = times[0] === '' ? 1 : 2;
    const y = count => TOP + HIGH * (1 - share(count, most));
    const scale = ticks.map(tick => tag('line', { class: 'tick', x1: left, x2: width - 4, y1: y(tick), y2: y(tick) }) +
        tag('text', { x: left - 6, y: y(tick) + 4, 'text-anchor': 'end' }, grouped(tick)));
    const bars = counts.map((count, length) => tag('rect', {
        class: marked.has(length) ? 'bar present' : 'bar',
        x: left + (length + 0.1) * step,
        y: y(count),
        width: step * 0.8,
        height: Math.max(TOP + HIGH - y(count), 1),
    }, tag('title', {}, `length ${length}${times[length] && `, ${times[length]}`}: ${counted(count, 'picture')}`)));
    const x = length => left + (length + 0.5) * step;
    // On paper a colour says nothing alone.
    const points = [...(present instanceof Set ? marked : [])].map(length => {
        const top = y(counts[length]) - 3;
        return tag('path', { class: 'dot', style: 'fill: var(--ink)', d: `M${x(length)} ${top}L${x(length) - 4} ${top - 8}H${x(length) + 4}Z` });
    });
    const written = (text, length, line) => tag('text', { x: x(length), y: TOP + HIGH + 18 * line, 'text-anchor': 'middle' }, text);
    // One that would end outside the drawing is left out.
    const fits = length => length % every === 0 && x(length) + 4 * times[length].length <= width;
    const lengths = counts.map((_, length) => (!fits(length) ? ''
        : written(length, length, 1) + (lines === 1 ? '' : written(times[length].replace(' ms', ''), length, 2))));
    const high = TOP + HIGH + 22 + 18 * lines;
    const label = 'pictures of the rig by their length';
    const frame = { class: 'bars', role: 'img', 'aria-label': label, viewBox: `0 0 ${width} ${high}`, width, height: high };
    const about = lines === 1 ? 'length: steps of the shortest version' : 'length: steps, and milliseconds';
    const below = tag('text', { x: Math.max(Math.min(left, width - 8 * about.length), 0), y: high - 4 }, about);
    return tag('svg', frame, [...scale, ...bars, ...points, ...lengths, below].join(''));
}

export class DelaysPanel {
    constructor(app, root) {
        this.app = app;
        this.root = make('div', {});
        this.field = make('input', {
            type: 'text', id: 'step-time', inputmode: 'decimal', autocomplete: 'off', spellcheck: 'false', 'aria-describedby': 'step-time-message step-time-about',
            onchange: () => this.#typed(),
        });
        this.message = make('p', { id: 'step-time-message', class: 'refusal', role: 'alert', hidden: true });
        /** The names and the book that refused text was typed at: it stays as long as these do. Books without names share theirs. */
        this.refused = null;
        /** The delay that the field was given last. */
        this.given = '';
        root.append(
            make('div', { class: 'bar' }, make('label', { class: 'field' }, make('span', {}, 'One step takes'), this.field, make('span', {}, 'ms')),
                make('span', { id: 'step-time-about', class: 'quiet' }, 'In milliseconds, kept with the names of the rig. If it is empty, lengths are in steps alone.')),
            this.message, this.root);
    }

    /** A wrong number is told at the field and changes nothing. */
    #typed() {
        const { state, store } = this.app;
        const text = this.field.value.trim();
        const fault = text === '' ? null : delayFault(text);
        this.refused = fault ? { names: state.names, book: state.book } : null;
        this.#say(fault ? `'${text}' is not a number of milliseconds that can be kept. Type one above 0 such as 2.5: up to four digits, and up to three more after a point. Nothing was changed.` : '');
        const names = fault ? state.names : withDelay(state.names, text);
        if (names !== state.names) store.change({ names });
    }

    #say(text) {
        setText(this.message, text);
        this.message.hidden = text === '';
        put(this.field, 'ariaInvalid', text !== '');
    }

    /** What is being typed stays, unless the names have got another delay meanwhile. */
    #updateField({ names, book }) {
        if (this.refused?.names === names && this.refused.book === book) return;
        const delay = delayOf(names);
        const stays = document.activeElement === this.field && delay === this.given && !this.refused;
        this.refused = null;
        this.#say('');
        if (!stays) put(this.field, 'value', delay);
        this.given = delay;
    }

    update() {
        const { app, root } = this;
        const { kind, rank, names } = app.state;
        this.#updateField(app.state);
        const { value, refusal } = attempt(() => app.library.delayTable(kind, rank));
        if (refusal) return root.replaceChildren(refusalLine(refusal, { kind, rank }, `This rig is ${kind}${rank}.`));
        const { counts, normalForm: longest } = value;
        const width = Math.max(root.clientWidth, 280);
        const told = length => `${length}${timeText(length, names) && ` (${timeText(length, names)})`}`;
        const all = counts.reduce((sum, count) => sum + count, 0n);
        const present = app.answers.form.length;
        const [bars, picture] = [make('div', {}), make('div', {})];
        bars.innerHTML = barsMarkup(counts, width, present, names);
        picture.innerHTML = pictureMarkup(app.library, { kind, rank, word: longest }, { width, title: 'the picture that needs the most steps' });
        root.replaceChildren(
            make('p', {}, `Kind ${kind}, rank ${rank}: ${counted(all, 'picture')}. The present one has length ${told(present)}, marked; ` +
                `the greatest length is ${told(counts.length - 1)}.`),
            bars, table(counts, names),
            make('h3', {}, 'The picture that needs the most steps'),
            make('p', {}, `${lengthText(longest.length, 'letter', names)}: `, make('span', { class: 'word' }, shortened(longest, 120))),
            picture);
    }
}

/** The same as a table, for those who do not see the bars. */
function table(counts, names) {
    const time = length => timeText(length, names);
    const heads = ['Length', ...(time(1) ? ['Time'] : []), 'Pictures'].map(text => make('th', { scope: 'col' }, text));
    const cells = (count, length) => [String(length), ...(time(1) ? [time(length)] : []), grouped(count)];
    const rows = counts.map((count, length) => make('tr', {}, cells(count, length).map(text => make('td', {}, text))));
    return make('details', {}, make('summary', {}, 'The numbers'),
        make('table', { class: 'numbers' }, make('thead', {}, make('tr', {}, heads)), make('tbody', {}, rows)));
}
