// The picture on the page: sources on the left, strands, the gaps that add steps, screens on the right; and what the pointer and
// the keyboard do in it.
import { byId, button, fromMarkup, make, put, setText } from './dom.mjs';
import { nameField, rigOf } from './rig.mjs';
import { colourOf, measuresOf, partOf, pictureMarkup, strandsMarkup, viewMarkup } from './strands.mjs';
import { actionText, grouped } from './text.mjs';
import { lengthText } from './times.mjs';
import { tag } from './markup.mjs';
import { labelled } from './names.mjs';
import { firstDifference } from './words.mjs';
import { grabStep } from './grabbing.mjs';

const NARROWEST = 28;

/** How far apart lanes and steps are, by the number of lanes and the width that there is. */
export function spacing(lanes, width) {
    // As narrow as the style's narrowest layout, less what is around the picture.
    const narrow = width < 690;
    if (lanes > 16) return { lane: 26, column: narrow ? 30 : 32, fold: narrow ? 24 : 56, size: 'dense' };
    return { lane: narrow ? 66 : 56, column: narrow ? 28 : 44, fold: narrow ? 24 : 56, size: 'wide' };
}

/** A step's width: narrower than it could be if all steps can be seen then, but never too narrow for two digits. */
export function fittedColumn(total, column, width) {
    const fitting = Math.floor(width / (total + 1));
    if (fitting >= NARROWEST) return Math.min(column, fitting);
    return Math.min(column, NARROWEST + 4);
}

/** The steps that fit: all, or a part with room for the bands in front and behind, and always a column for the step to come. */
export function visibleSteps(total, wanted, { column, fold }, width) {
    const whole = Math.floor(width / column) - 1;
    if (total <= whole) return { first: 0, count: total };
    const count = Math.max(Math.floor((width - 2 * fold) / column) - 1, 1);
    return { first: Math.max(Math.min(wanted, total - count), 0), count };
}

export class Picture {
    constructor(app) {
        this.app = app;
        this.root = byId('board');
        this.strands = byId('strands');
        this.steps = byId('steps');
        this.range = byId('range');
        this.range.addEventListener('input', () => app.show({ first: Number(this.range.value) }));
        this.root.addEventListener('pointerover', event => this.#trace(this.#strandAt(event.target)));
        this.root.addEventListener('pointerleave', () => this.#trace(0));
        this.root.addEventListener('focusin', event => this.#trace(this.#strandAt(event.target)));
        this.root.addEventListener('focusout', () => this.#trace(0));
        this.steps.addEventListener('keydown', event => this.#key(event));
        this.names = byId('names');
        this.names.addEventListener('toggle', () => this.#listNames());
        grabStep(this);
        new ResizeObserver(() => this.strands.clientWidth !== this.measures?.width && this.update()).observe(this.strands);
    }

    /** The source whose strand an element belongs to, or 0. */
    #strandAt(element) {
        return Number(element.closest('[data-strand]')?.dataset.strand ?? 0);
    }

    #trace(source) {
        if (source === this.traced) return;
        this.traced = source;
        this.root.classList.toggle('tracing', source > 0);
        for (const element of this.root.querySelectorAll('[data-strand]')) {
            element.classList.toggle('traced', Number(element.dataset.strand) === source);
        }
    }

    /** Makes what depends on the rig alone: labels, gaps and screens. */
    #rebuild(lanes) {
        const { app } = this;
        const { kind, rank } = app.state;
        this.rig = rigOf(app.state);
        const numbers = Array.from({ length: lanes }, (_, at) => at + 1);
        this.sourceFields = numbers.map(number => nameField(app, 'source', number));
        byId('sources').replaceChildren(...numbers.map((number, at) => {
            const attributes = { class: `token ${colourOf(number)}`, 'data-source': number, title: 'Drag it to a screen' };
            return make('li', { 'data-strand': number }, make('span', attributes, String(number)), this.sourceFields[at]);
        }));
        this.screens = numbers.map(number => this.#screen(number));
        byId('screens').replaceChildren(...this.screens.map(screen => screen.item));
        this.#listNames();
        byId('gaps').replaceChildren(...app.library.actions(kind, rank).slice(1).map((action, at) => this.#gap(at + 1, action)));
    }

    /** The names once more, below the picture: where it is too narrow to have them in it. */
    #listNames() {
        const holder = this.names.querySelector('.columns');
        if (!this.names.open) return holder.replaceChildren();
        const numbers = this.screens.map(screen => screen.number);
        const list = keyword => make('ol', {}, numbers.map(number => {
            const field = nameField(this.app, keyword, number);
            field.update();
            return make('li', {}, make('span', { class: 'number' }, String(number)), field);
        }));
        holder.replaceChildren(make('div', {}, 'Sources', list('source')), make('div', {}, 'Screens', list('screen')));
    }

    #screen(number) {
        const field = nameField(this.app, 'screen', number);
        const view = make('span', { class: 'view-place' });
        const source = make('span', { class: 'source' });
        const turned = make('span', { class: 'turned' });
        const what = make('span', { class: 'what' }, field, make('span', { class: 'shows' }, source, turned));
        const item = make('li', { 'data-screen': number }, make('span', { class: 'number' }, String(number)), view, what);
        return { number, field, view, source, turned, item, entry: 0 };
    }

    /** A gap between two lanes, or the last lane, as the button that adds its step. */
    #gap(step, action) {
        const { app } = this;
        const label = `add step ${step}: ${actionText(action)}`;
        const text = `+${step}${action.mirrors ? ' •' : ''}`;
        const gap = button(text, () => app.composing.add(step), { class: 'gap', 'aria-label': label, title: label });
        // The last step of B and D is close to the one before it, in D on the same lanes: its button stands further down.
        const dense = spacing(app.answers.window.length, Infinity).size === 'dense';
        const low = action.lanes.at(-1) + (dense ? 1.02 : 0.65);
        gap.style.setProperty('--at', action.mirrors ? low : (action.lanes[0] + action.lanes.at(-1) + 1) / 2);
        const ghost = shown => this.#ghost(shown ? action : null);
        for (const type of ['pointerenter', 'focus']) gap.addEventListener(type, () => ghost(true));
        for (const type of ['pointerleave', 'blur']) gap.addEventListener(type, () => ghost(false));
        return gap;
    }

    /** The crossing to come, where the next step will stand. */
    #ghost(action) {
        const holder = this.strands.querySelector('.ghost');
        if (!holder || !this.measures) return;
        const m = this.measures;
        const x = Math.min(m.x(this.part.letters.length), m.end - m.column);
        const [first, last] = action ? [m.y(action.lanes[0]), m.y(action.lanes.at(-1))] : [0, 0];
        const cross = action?.crosses ? `<path d="M${x} ${first}L${x + m.column} ${last}M${x} ${last}L${x + m.column} ${first}"/>` : '';
        const dot = action?.mirrors ? `<circle cx="${x + m.column / 2}" cy="${(first + last) / 2}" r="6"/>` : '';
        holder.innerHTML = action ? cross + dot : '';
    }

    /** Brings the place where the word changed into sight, if it was not. */
    follow(old, word) {
        const { ui } = this.app;
        const at = firstDifference(old, word);
        if (at === old.length && at === word.length) return;
        if (at < ui.first) ui.first = Math.max(at - 2, 0);
        else if (at >= ui.first + this.room) ui.first = at - this.room + 2;
    }

    update() {
        const { app } = this;
        const { library, state, ui, answers } = app;
        const lanes = library.straight(state.kind, state.rank).length;
        if (this.rig !== rigOf(state)) this.#rebuild(lanes);
        const space = spacing(lanes, this.root.clientWidth);
        put(this.root.style, 'cssText', `--lane: ${space.lane}px; --lanes: ${lanes};`);
        put(this.root.dataset, 'size', space.size);
        const width = Math.max(this.strands.clientWidth, 60);
        const tail = byId('gaps').clientWidth;
        space.column = fittedColumn(state.word.length, space.column, width - tail);
        const { first, count } = visibleSteps(state.word.length, ui.first, space, width - tail);
        ui.first = first;
        this.room = visibleSteps(Infinity, 0, space, width - tail).count;
        this.part = partOf(library, state, first, count);
        this.measures = measuresOf(this.part, { ...space, width, tail });
        this.#draw(width);
        this.#drawSteps();
        this.#drawScreens(answers.window);
        for (const field of this.sourceFields) field.update();
        [...byId('gaps').children].forEach((gap, at) => gap.classList.toggle('failed', state.failed.includes(at + 1)));
        this.#drawRange(count, state.word.length);
        this.#drawForm(space.lane, width);
    }

    #draw(width) {
        const { height } = this.measures;
        const grabs = this.part.letters.map((_, at) => this.#grab(at)).join('');
        const label = 'the strands from the sources to the screens';
        const frame = { width, height, viewBox: `0 0 ${width} ${height}`, role: 'img', 'aria-label': label };
        const drop = tag('line', { class: 'drop', y1: 0, y2: height, visibility: 'hidden' });
        this.strands.innerHTML = tag('svg', frame, strandsMarkup(this.part, this.measures) + grabs + tag('g', { class: 'ghost' }) + drop);
        this.traced = 0;
        this.root.classList.remove('tracing');
    }

    /** Where a crossing can be taken hold of. */
    #grab(at) {
        const m = this.measures;
        const action = this.app.library.actions(this.app.state.kind, this.app.state.rank)[this.part.letters[at]];
        const [first, last] = [m.y(action.lanes[0]), m.y(action.lanes.at(-1))];
        const place = this.part.first + at;
        return tag('rect', {
            class: place === this.app.ui.selected ? 'grab selected' : 'grab', 'data-at': place,
            x: m.x(at) + 4, y: first - 8, width: m.column - 8, height: last - first + 16, rx: 6,
        });
    }

    #drawSteps() {
        const { part, measures: m } = this;
        const { state, ui } = this.app;
        const actions = this.app.library.actions(state.kind, state.rank);
        const focused = this.steps.contains(document.activeElement);
        const reachable = ui.selected >= part.first && ui.selected < part.last ? ui.selected : part.last - 1;
        const chips = part.letters.map((letter, at) => {
            const place = part.first + at;
            const failed = state.failed.includes(letter);
            const chip = make('button', {
                type: 'button',
                class: failed ? 'chip failed' : 'chip',
                'data-at': place,
                tabindex: place === reachable ? 0 : -1,
                'aria-pressed': String(place === ui.selected),
                'aria-label': `step ${grouped(place + 1)} of ${grouped(part.total)}: module ${letter}, ${actionText(actions[letter])}${failed ? ', failed' : ''}`,
            }, String(letter));
            chip.style.left = `${m.x(at) + m.column / 2}px`;
            return chip;
        });
        const more = (text, left, first) => {
            const jump = button(text, () => this.app.show({ first }), { class: 'more', 'aria-label': `show other steps: ${text}` });
            jump.style.left = `${left}px`;
            return jump;
        };
        const shown = part.letters.length;
        if (m.left) chips.unshift(more(`‹${m.left > 40 ? grouped(part.first) : ''}`, m.left / 2, Math.max(part.first - shown, 0)));
        if (m.right) chips.push(more(`${m.right > 40 ? grouped(part.total - part.last) : ''}›`, m.end - m.right / 2, part.last));
        this.steps.replaceChildren(...chips);
        // With the last step gone the keyboard goes to where a step is added.
        if (focused) (this.steps.querySelector('.chip[tabindex="0"]') ?? byId('add')).focus();
    }

    #drawScreens(window) {
        const { names } = this.app.state;
        for (const screen of this.screens) {
            const entry = window[screen.number - 1];
            const source = Math.abs(entry);
            if (entry !== screen.entry) screen.view.replaceChildren(fromMarkup(viewMarkup(source, entry < 0)));
            screen.entry = entry;
            put(screen.item.dataset, 'strand', source);
            put(screen.item.dataset, 'entry', entry);
            setText(screen.source, labelled(names, 'source', source));
            setText(screen.turned, entry < 0 ? 'mirrored' : '');
            put(screen.source, 'title', screen.source.textContent);
            screen.field.update();
        }
    }

    #drawRange(count, total) {
        const part = count < total;
        byId('range-field').hidden = !part;
        if (!part) return;
        put(this.range, 'max', total - count);
        put(this.range, 'value', this.app.ui.first);
        setText(byId('range-text'), `Steps ${grouped(this.part.first + 1)} to ${grouped(this.part.last)} of ${grouped(total)}`);
    }

    /** The normal form below the word, drawn alike: the two end alike. */
    #drawForm(lane, width) {
        const { library, state, ui, answers } = this.app;
        byId('form-picture').hidden = !ui.both;
        if (!ui.both) return;
        const inside = Math.max(byId('form-picture').clientWidth, 200);
        const title = `the shortest version, ${lengthText(answers.form.length, 'letter', state.names)}`;
        byId('form-drawing').innerHTML = pictureMarkup(library, { ...state, word: answers.form },
            { width: inside, lane: Math.min(lane, 32), column: width < 300 ? 28 : 32, title });
    }

    /** Arrows go from step to step; with Alt they move the step; Delete takes it away. */
    #key(event) {
        const { app } = this;
        const at = Number(event.target.dataset.at ?? -1);
        const side = { ArrowLeft: -1, ArrowRight: 1 }[event.key];
        if (at < 0) return;
        if (event.key === 'Delete' || event.key === 'Backspace') app.composing.remove(at);
        else if (side && event.altKey) app.composing.move(at, at + side);
        else if (side) this.select(Math.min(Math.max(at + side, 0), app.state.word.length - 1));
        else return;
        event.preventDefault();
    }

    /** Marks a step and no other, without drawing anew: the element that the pointer holds has to stay. */
    mark(at) {
        this.app.ui.selected = at;
        for (const element of this.root.querySelectorAll('[data-at]')) {
            const here = Number(element.dataset.at) === at;
            if (element.matches('.chip')) element.setAttribute('aria-pressed', String(here));
            else element.classList.toggle('selected', here);
        }
    }

    select(at) {
        const { ui } = this.app;
        ui.selected = at;
        if (at >= 0 && at < this.part.first) ui.first = at;
        if (at >= this.part.last) ui.first = at - this.part.letters.length + 1;
        this.app.show({});
    }
}

