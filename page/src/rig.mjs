// The rig: its kind in words, its rank, and the names of its sources and screens.
import { byId, make, put, setText } from './dom.mjs';
import { attempt } from './library.mjs';
import { nameOf, withName } from './names.mjs';
import { toldText } from './plain.mjs';
import { counted } from './text.mjs';

export const KINDS = {
    A: 'A: lanes are exchanged',
    B: 'B: the last step mirrors the last lane',
    D: 'D: the last step exchanges the last two lanes and mirrors both',
};

/** Kind and rank as one text. */
export function rigOf({ kind, rank }) {
    return `${kind}${rank}`;
}

/** What remains of a state in another rig: the word if the rig takes it, and the failed steps that it has. The wanted picture is one of its rig. */
export function inRig(library, state, kind, rank) {
    const { refusal } = attempt(() => library.window(kind, rank, state.word));
    const simpler = attempt(() => library.window(kind, rank, state.simpler)).refusal ? [] : state.simpler;
    const wanted = rigOf(state) === rigOf({ kind, rank }) ? state.wanted : null;
    return {
        change: { kind, rank, word: refusal ? [] : state.word, failed: state.failed.filter(step => step <= rank), wanted, simpler },
        refusal,
    };
}

/** The rank that a kind takes nearest to one that was asked for. */
export function nearestRank(library, kind, rank) {
    const ranks = library.ranks(kind);
    return ranks.includes(rank) ? rank : rank < ranks[0] ? ranks[0] : ranks.at(-1);
}

export class RigFields {
    constructor(app) {
        this.app = app;
        this.kind = byId('kind');
        this.rank = byId('rank');
        for (const [kind, text] of Object.entries(KINDS)) this.kind.append(make('option', { value: kind }, text));
        this.kind.addEventListener('change', () => this.#take(this.kind.value, nearestRank(app.library, this.kind.value, app.state.rank)));
        this.rank.addEventListener('change', () => this.#typed());
    }

    /** A rank that the kind does not take is refused by the library and changes nothing. */
    #typed() {
        const rank = Number(this.rank.value);
        const { library, state } = this.app;
        const wrong = !Number.isInteger(rank) || rank < 0 || rank > 255 ? 255 : rank;
        const { refusal } = attempt(() => library.window(state.kind, wrong, []));
        if (!refusal) return this.#take(state.kind, rank);
        this.#say(toldText(refusal, { kind: state.kind, ranks: library.ranks(state.kind) }));
        this.rank.setAttribute('aria-invalid', 'true');
    }

    #take(kind, rank) {
        const { change, refusal } = inRig(this.app.library, this.app.state, kind, rank);
        this.app.store.change(change);
        if (refusal) this.#say(`The word does not fit this rig and was set aside; Undo brings it back. ${toldText(refusal, { rank })}`);
    }

    #say(text) {
        setText(byId('rig-message'), text);
        byId('rig-message').hidden = text === '';
    }

    update() {
        const { library, state } = this.app;
        this.#say('');
        this.rank.removeAttribute('aria-invalid');
        put(this.kind, 'value', state.kind);
        put(this.kind, 'title', KINDS[state.kind]);
        const ranks = library.ranks(state.kind);
        put(this.rank, 'min', ranks[0]);
        put(this.rank, 'max', ranks.at(-1));
        put(this.rank, 'value', state.rank);
        setText(byId('lanes'), counted(library.straight(state.kind, state.rank).length, 'lane'));
    }
}

/** What is typed is a name as it is, or the field and a sentence say what became of it. */
function sayChanged(app, field, keyword, number) {
    const name = nameOf(app.state.names, keyword, number);
    if (field.value.trim() === name) return;
    field.value = name;
    app.notice(`A name is one line of at most 80 characters: ${keyword} ${number} is named '${name}' now.`);
}

/** The field for the name of a source, a screen or a preset. */
export function nameField(app, keyword, number) {
    const field = make('input', {
        class: 'name',
        type: 'text',
        'aria-label': `name of ${keyword} ${number}`,
        placeholder: `${keyword} ${number}`,
        spellcheck: 'false',
        onchange: () => {
            const names = withName(app.state.names, keyword, number, field.value);
            if (names !== app.state.names) app.store.change({ names });
            sayChanged(app, field, keyword, number);
        },
    });
    field.update = () => {
        const name = nameOf(app.state.names, keyword, number);
        if (document.activeElement !== field && field.value !== name) field.value = name;
        put(field, 'title', name);
    };
    return field;
}

