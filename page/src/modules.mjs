// Modules: those that have failed, what can be shown without them, and a fallback by pulling steps out.
import { button, make, refusalLine } from './dom.mjs';
import { judged } from './composing.mjs';
import { WaysLeft } from './fallback.mjs';
import { attempt } from './library.mjs';
import { rigOf } from './rig.mjs';
import { pictureMarkup } from './strands.mjs';
import { actionText, counted, spaced } from './text.mjs';
import { lengthText } from './times.mjs';

/** The places of the present normal form whose steps are kept for the simpler preset, or null where there is no fallback. */
export function fallbackOf(library, { kind, rank, word }, simpler) {
    return library.fallback(kind, rank, word, simpler);
}

/** A step ticked, or unticked. */
export function toggled(failed, step) {
    return failed.includes(step) ? failed.filter(other => other !== step) : [...failed, step].sort((a, b) => a - b);
}

export class ModulesPanel {
    constructor(app, root) {
        this.app = app;
        this.refused = null;
        this.ticks = make('div', { class: 'modules', role: 'group', 'aria-label': 'modules that have failed' });
        this.left = new WaysLeft(app);
        this.field = make('input', {
            type: 'text', id: 'simpler', class: 'word', spellcheck: 'false', autocomplete: 'off', placeholder: 'no steps: the straight picture', oninput: () => this.#typed(),
        });
        this.fallback = make('div', { class: 'answer', 'aria-live': 'polite' });
        root.append(
            make('h3', {}, 'Which modules have failed?'),
            make('p', {}, 'Tick them, and those that may not be used. In the picture above their steps are struck through, and no way to a picture uses them.'),
            this.ticks,
            this.left.head,
            this.left.root,
            make('h3', {}, 'Fallback: is a simpler preset left when steps are pulled out?'),
            make('div', { class: 'bar' },
                make('label', { class: 'field grow' }, make('span', {}, 'Word of the simpler preset'), this.field),
                button('Use the wanted picture', () => this.#takeWanted()),
                button('Use the straight picture', () => app.store.change({ simpler: [] }))),
            this.fallback,
        );
    }

    #takeWanted() {
        const { library, state, answers, store } = this.app;
        const { value, refusal } = attempt(() => library.formOfWindow(state.kind, state.rank, state.wanted ?? answers.window));
        if (!refusal) return store.change({ simpler: value });
        this.#refuse(refusalLine(refusal, state));
    }

    /** A refusal stays, with the text as it was typed, until the simpler word, the wanted picture or the rig changes. */
    #refuse(line) {
        const { kind, rank, simpler, wanted } = this.app.state;
        this.refused = { kind, rank, simpler, wanted };
        this.fallback.replaceChildren(line);
    }

    get #stays() {
        const { app, refused } = this;
        return refused !== null && Object.keys(refused).every(part => refused[part] === app.state[part]);
    }

    #typed() {
        const { library, state, store } = this.app;
        const { letters, fault } = judged(library, state.kind, state.rank, this.field.value);
        this.field.setAttribute('aria-invalid', String(Boolean(fault)));
        this.refused = null;
        if (letters) return store.change({ simpler: letters });
        this.#refuse(make('p', { class: 'refusal', role: 'alert' }, fault.told));
    }

    update() {
        this.#updateTicks();
        this.left.update();
        this.#updateFallback();
    }

    #updateTicks() {
        const { app } = this;
        const { kind, rank, failed } = app.state;
        // A change that was meant for another rig, drawn a moment ago, is none.
        const set = list => rigOf(app.state) === kind + rank && app.store.change({ failed: list });
        const all = Array.from({ length: rank }, (_, at) => at + 1);
        const actions = app.library.actions(kind, rank);
        this.ticks.replaceChildren(
            ...all.map(step => make('label', { class: 'module', title: actionText(actions[step]) }, make('input', {
                type: 'checkbox',
                checked: failed.includes(step),
                'aria-label': `module ${step} has failed (${actionText(actions[step])})`,
                // Two presses may come faster than the boxes are drawn anew.
                onchange: () => set(toggled(app.state.failed, step)),
            }), make('span', {}, String(step)))),
            button('None has failed', () => set([])), button('All have failed', () => set(all)));
    }

    #updateFallback() {
        const { library, state, answers } = this.app;
        if (this.#stays) return;
        this.refused = null;
        if (document.activeElement !== this.field) this.field.value = spaced(state.simpler);
        this.field.setAttribute('aria-invalid', 'false');
        const kept = fallbackOf(library, state, state.simpler);
        const parts = [make('p', { id: 'fallback-answer' }, fallbackText(kept, answers.form.length, state.names))];
        if (kept !== null) parts.push(this.#picture(kept));
        this.fallback.replaceChildren(...parts);
    }

    /** The present normal form with the steps kept marked. */
    #picture(kept) {
        const { library, state, answers } = this.app;
        const holder = make('div', {});
        holder.innerHTML = pictureMarkup(library, { ...state, word: answers.form }, {
            width: Math.max(this.fallback.clientWidth, 280),
            marks: new Set(kept),
            around: kept[0] ?? 0,
            title: `the shortest version with ${counted(kept.length, 'step')} kept`,
        });
        return holder;
    }
}

/** Whether there is a fallback, and which steps of a normal form of this length are kept. */
function fallbackText(kept, length, names) {
    if (kept === null) return 'No: pulling steps out of the present shortest version never leaves this preset.';
    if (kept.length === 0) return 'Yes: pull out all steps of the shortest version.';
    const places = kept.length > 60 ? '' : `: number ${kept.map(place => place + 1).join(', ')}`;
    return `Yes: of the shortest version (${lengthText(length, 'step', names)}) keep the marked ${lengthText(kept.length, 'step', names)}, in order${places}.`;
}
