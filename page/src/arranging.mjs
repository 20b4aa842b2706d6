// Arranging the screens of the cabin: by mouse and touch, by the keyboard, or by numbers that are typed.
import { button, labelledField, make, put, setText } from './dom.mjs';
import { CABIN, labelled, placesOf, withPlace } from './names.mjs';
import { SIDES, largestFirst, moved, percent, placeText, placesIn, sized, typedPlace } from './places.mjs';

/** A key moves by one percent; what is dragged stands at halves of one. */
const [KEY_STEP, DRAG_STEP] = [10, 5];
const ARROWS = { ArrowLeft: [-1, 0], ArrowRight: [1, 0], ArrowUp: [0, -1], ArrowDown: [0, 1] };
const SIDE_NAMES = { left: 'Left', top: 'Top', width: 'Width', height: 'Height' };

function stepped(thousandths) {
    return Math.round(thousandths / DRAG_STEP) * DRAG_STEP;
}

/** The handles over a drawing of the cabin and the fields below it. `redraw` draws the screens anew while one is held. */
export class Arranging {
    /** The place of the screen that is being dragged or moved by a key, not yet in the names: one drag is one step to undo. */
    #held = null;
    #start = null;
    #handles = [];
    /** What was typed and refused, by side: it stays to be mended as long as its screen is chosen and its book is open. */
    #refused = new Map();
    #book = null;
    /** The names that the last sentence was about: with others it is over. */
    #saidOf = null;

    constructor(app, redraw) {
        [this.app, this.redraw] = [app, redraw];
        this.chosen = 1;
        this.layer = make('div', { class: 'cabin-handles', role: 'group', 'aria-label': 'places of the screens: arrows move by 1 %, with Shift they size' });
        this.choice = make('select', { 'data-key': 'placed', onchange: () => this.#choose(Number(this.choice.value)) });
        this.inputs = Object.fromEntries(SIDES.map(side => [side, make('input', {
            type: 'text', inputmode: 'decimal', size: 5, autocomplete: 'off', 'aria-describedby': 'place-message', onchange: () => this.#typed(side),
        })]));
        this.message = make('p', { id: 'place-message', class: 'refusal-text', role: 'alert' });
        this.said = make('p', { class: 'quiet', role: 'status' });
        this.root = make('div', { class: 'cabin-arranging' },
            make('p', {}, 'Drag a screen to where it stands in the cabin, and the round handle at its corner to size it. With the keyboard, arrow keys move it by 1 %, and Shift with an arrow key sizes it.'),
            make('div', { class: 'bar' }, labelledField('Screen', this.choice),
                SIDES.map(side => labelledField(`${SIDE_NAMES[side]} %`, this.inputs[side]))),
            this.message, this.said,
            make('div', { class: 'bar' },
                button('Back to the grid', () => this.#toGrid()), button('Undo the last change', () => app.goBack())));
        this.layer.addEventListener('pointerdown', event => this.#grab(event));
        this.layer.addEventListener('pointermove', event => this.#drag(event));
        this.layer.addEventListener('pointerup', event => this.#drag(event) || this.#release());
        this.layer.addEventListener('pointercancel', () => this.#giveUp());
        this.layer.addEventListener('keydown', event => this.#key(event));
        this.layer.addEventListener('keyup', event => event.key in ARROWS && this.#release());
        this.layer.addEventListener('focusout', () => this.#start || this.#release());
        this.layer.addEventListener('focusin', event => event.target.dataset.screen && this.#choose(Number(event.target.dataset.screen)));
    }

    /** The places as they are seen: with the one that is held. */
    get places() {
        const places = placesIn(this.app.state.names, this.lanes);
        if (this.#held) places[this.#held.screen - 1] = this.#held.place;
        return places;
    }

    get lanes() {
        return this.app.answers.window.length;
    }

    #choose(screen) {
        if (screen !== this.chosen) this.#refused.clear();
        this.chosen = screen;
        this.update();
    }

    #hold(screen, place) {
        this.#held = { screen, place };
        this.redraw();
        this.update();
    }

    /** What is held goes into the names. */
    #release() {
        const held = this.#held;
        [this.#held, this.#start] = [null, null];
        if (!held) return;
        this.#refused.clear();
        this.#keep(held.screen, held.place);
    }

    #giveUp() {
        [this.#held, this.#start] = [null, null];
        this.redraw();
        this.update();
    }

    #keep(screen, place) {
        const { state, store } = this.app;
        const names = withPlace(state.names, screen, place);
        if (names !== state.names) store.change({ names });
        this.#say(`Screen ${labelled(names, 'screen', screen)}: ${placeText(place)}.`);
    }

    /** A sentence about the places as they are now. */
    #say(text) {
        setText(this.said, text);
        this.#saidOf = this.app.state.names;
    }

    #grab(event) {
        const handle = event.target.closest('[data-screen]');
        if (!handle || event.button !== 0) return;
        const screen = Number(handle.dataset.screen);
        this.#release();
        this.#choose(screen);
        handle.focus({ preventScroll: true });
        handle.setPointerCapture(event.pointerId);
        const change = event.target.closest('.cabin-corner') ? sized : moved;
        this.#start = { screen, change, place: this.places[screen - 1], x: event.clientX, y: event.clientY, pointer: event.pointerId };
        event.preventDefault();
    }

    #drag(event) {
        const start = this.#start;
        if (start?.pointer !== event.pointerId) return;
        const { width, height } = this.layer.getBoundingClientRect();
        const [right, down] = [(event.clientX - start.x) / width, (event.clientY - start.y) / height].map(share => stepped(share * CABIN));
        if (this.#held || right !== 0 || down !== 0) this.#hold(start.screen, start.change(start.place, right, down));
    }

    #key(event) {
        const screen = Number(event.target.dataset.screen ?? 0);
        if (event.key === 'Escape' && this.#held) return this.#giveUp();
        const way = ARROWS[event.key];
        if (!screen || !way || event.ctrlKey || event.altKey || event.metaKey || this.#start) return;
        event.preventDefault();
        const [right, down] = way.map(part => part * KEY_STEP);
        this.#hold(screen, (event.shiftKey ? sized : moved)(this.places[screen - 1], right, down));
    }

    /** A number is taken, with those refused before that fit beside it now; or it is refused: the field keeps it, and nothing changes. */
    #typed(side) {
        const text = this.inputs[side].value;
        let { place } = typedPlace(this.places[this.chosen - 1], side, text);
        this.#refused.delete(side);
        if (!place) this.#refused.set(side, text);
        for (const [other, refused] of place ? [...this.#refused] : []) {
            const again = typedPlace(place, other, refused).place;
            if (again) this.#refused.delete(other);
            place = again ?? place;
        }
        if (place) this.#keep(this.chosen, place);
        this.update();
    }

    #toGrid() {
        const { state, store } = this.app;
        const shown = [...placesOf(state.names).keys()].filter(screen => screen <= this.lanes);
        const names = shown.reduce((left, screen) => withPlace(left, screen, null), state.names);
        if (names !== state.names) store.change({ names });
        this.#say(shown.length > 0 ? 'All screens stand in the grid again. Undo brings their places back.' : 'All screens stand in the grid.');
    }

    /** What was said or refused in another book, or of places that have changed since, is over. */
    #forget({ book, names }) {
        if (this.#book !== book) this.#refused.clear();
        if (this.#book !== book || this.#saidOf !== names) setText(this.said, '');
        this.#book = book;
    }

    /** Handles and fields as the places are now; they stay the same elements, so that none is lost under a finger. */
    update() {
        const { names } = this.app.state;
        this.#forget(this.app.state);
        if (this.#handles.length !== this.lanes) this.#makeHandles();
        if (this.chosen > this.lanes) this.chosen = 1;
        const { places } = this;
        const depth = new Map(largestFirst(places).map((number, at) => [number, at]));
        places.forEach((place, at) => {
            const handle = this.#handles[at];
            const box = SIDES.map(side => `${side}: ${percent(place[side])}%`);
            put(handle.style, 'cssText', [...box, `z-index: ${at + 1 === this.chosen ? places.length : depth.get(at + 1)}`].join('; '));
            handle.setAttribute('aria-label', `place of screen ${labelled(names, 'screen', at + 1)}`);
            handle.setAttribute('aria-description', placeText(place));
            handle.classList.toggle('chosen', at + 1 === this.chosen);
        });
        this.#updateFields(places[this.chosen - 1]);
    }

    #makeHandles() {
        const numbers = Array.from({ length: this.lanes }, (_, at) => at + 1);
        this.#handles = numbers.map(number => make('button', { type: 'button', class: 'cabin-handle', 'data-screen': number },
            make('span', { class: 'cabin-corner', 'aria-hidden': 'true' })));
        this.layer.replaceChildren(...this.#handles);
    }

    #updateFields(place) {
        const { names } = this.app.state;
        const options = Array.from({ length: this.lanes }, (_, at) => labelled(names, 'screen', at + 1));
        if (this.choice.options.length !== options.length) this.choice.replaceChildren(...options.map((_, at) => make('option', { value: at + 1 })));
        options.forEach((text, at) => setText(this.choice.options[at], text));
        put(this.choice, 'value', this.chosen);
        const faults = SIDES.filter(side => this.#refused.has(side)).map(side => [side, typedPlace(place, side, this.#refused.get(side)).fault]);
        // What fits by now, after an undo, is refused no longer.
        for (const [side, fault] of faults) if (!fault) this.#refused.delete(side);
        setText(this.message, faults.filter(([, fault]) => fault).map(([side, fault]) => `${SIDE_NAMES[side]} is still ${percent(place[side])} %. ${fault}`).join(' '));
        for (const side of SIDES) {
            const input = this.inputs[side];
            const refused = this.#refused.has(side);
            if (refused) input.setAttribute('aria-invalid', 'true');
            else input.removeAttribute('aria-invalid');
            if (document.activeElement !== input) put(input, 'value', refused ? this.#refused.get(side) : percent(place[side]));
        }
    }
}
