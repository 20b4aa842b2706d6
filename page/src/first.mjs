// The first start: example rigs to choose from, or an empty one. It is seen until something is chosen or begun, and a button of the
// book's panel brings it back.
import { button, byId, make } from './dom.mjs';
import { EXAMPLES, exampleState } from './examples.mjs';
import { isFirstVisit, rememberVisit } from './memory.mjs';
import { FIRST_STATE } from './state.mjs';

const EMPTY = 'Empty rig';

export class FirstStart {
    constructor(app) {
        this.app = app;
        this.root = byId('examples');
        const choice = (title, about, onclick, at) => make('li', {},
            button(title, onclick, { 'aria-describedby': `example-${at}` }), make('p', { class: 'quiet', id: `example-${at}` }, about));
        this.close = button('Close the examples', () => this.#closed());
        this.root.append(
            make('h2', { id: 'examples-head' }, 'Begin with an example, or with an empty rig'),
            make('ul', {},
                EXAMPLES.map((example, at) => choice(example.title, example.about, () => this.#take(example.title, exampleState(app.library, example)), at)),
                choice(EMPTY, 'Without names and presets, for your own cabin: choose its kind and rank above. The examples stay at hand under Book.',
                    () => this.#empty(), EXAMPLES.length)),
            this.close);
        if (isFirstVisit()) this.#show(false);
    }

    #show(again) {
        [this.again, this.close.hidden, this.root.hidden] = [again, !again, false];
    }

    /** Brings the choice back. */
    bringBack() {
        this.#show(true);
        this.root.querySelector('button').focus();
        this.root.scrollIntoView({ block: 'nearest' });
    }

    /** Once something is chosen or worked on the choice goes, and does not come back by itself. */
    leave() {
        if (this.root.hidden) return;
        this.root.hidden = true;
        rememberVisit();
    }

    #closed() {
        this.leave();
        this.app.tabs.choose('book');
        byId('bring-examples').focus();
    }

    /** On a first visit the rig is empty as it is. */
    #empty() {
        if (this.again) return this.#take(EMPTY, FIRST_STATE);
        this.leave();
        byId('picture').focus();
    }

    #take(title, state) {
        const { app } = this;
        app.shelf.replaceAll(state, title, () => {
            this.leave();
            if (title !== EMPTY) app.noticeOnce(`${state.book.name} is an example with names and two presets: change it as you like. Undo goes back to what was here before.`);
            app.tabs.choose('cabin');
            byId('picture').focus();
        });
    }
}
