// Words of the page that may be new to its reader: each has a short explanation, which is seen where the pointer or the focus is.
import { make } from './dom.mjs';

export const TERMS = {
    rank: 'How large the rig is: the number of its steps, which are numbered from 1. A rig of kind A has one lane more than its rank, kinds B and D have as many.',
    word: 'The steps of a preset in the order in which they are taken: their numbers, with spaces between.',
    letters: 'A letter is one step in a word. A step that stands there twice counts twice.',
    shortest: 'The shortest word that shows the same on every screen. Where several are equally short it is always the same one. In documents it is called the normal form.',
    window: 'What the screens show, in one line: the number of the source on screen 1, on screen 2 and so on, with a minus where it is mirrored.',
    straight: 'Every source on the screen with its own number, and none mirrored: what is shown before any step.',
    against: 'Pairs of lanes that meet because one of them is mirrored. Plain pairs meet because they change their order. Together they are the steps of the shortest version; in kind B each mirrored lane is one step more.',
    family: 'The rules come in seven families, numbered as in the documents of the library. What the rule does here is said in front.',
    edition: 'How a book is written in its file. The first edition is for rigs of up to 32 lanes, the second for up to 64. Converting keeps every preset.',
};

/** A word with its explanation. */
export function term(key, text, attributes = {}) {
    return make('span', { class: 'term', 'data-term': key, tabindex: 0, 'aria-describedby': `about-${key}`, ...attributes }, text);
}

export class Terms {
    constructor() {
        this.tip = make('div', { id: 'tip', role: 'tooltip', hidden: true });
        const texts = Object.entries(TERMS).map(([key, text]) => make('span', { id: `about-${key}` }, text));
        document.body.append(make('div', { hidden: true }, texts), this.tip);
        const at = event => event.target.closest?.('[data-term]');
        addEventListener('pointerover', event => (at(event) ? this.#show(at(event)) : this.tip.contains(event.target) || this.#leave()));
        addEventListener('focusin', event => (at(event) ? this.#show(at(event)) : this.#hide()));
        addEventListener('focusout', () => this.#hide());
        addEventListener('keydown', event => event.key === 'Escape' && this.#hide());
        addEventListener('scroll', () => this.#leave(), { passive: true, capture: true });
    }

    /** Right below the word, so that the pointer can go over to it, or above where there is no room; inside the page in any case. */
    #show(word) {
        const { tip } = this;
        tip.textContent = TERMS[word.dataset.term];
        tip.hidden = false;
        const box = word.getBoundingClientRect();
        const left = Math.max(Math.min(box.left, document.documentElement.clientWidth - tip.offsetWidth - 8), 8);
        const below = box.bottom + tip.offsetHeight <= innerHeight;
        [tip.style.left, tip.style.top] = [`${left}px`, `${below ? box.bottom : box.top - tip.offsetHeight}px`];
    }

    /** The pointer has gone, or the page has moved below it; the focus may be at a word still. */
    #leave() {
        const focused = document.activeElement?.closest('[data-term]');
        if (!focused) this.#hide();
        else if (!this.tip.hidden) this.#show(focused);
    }

    #hide() {
        this.tip.hidden = true;
    }
}
