// Presets removed, moved, duplicated and replaced: the book is the library's, and every name stays with its preset.
import assert from 'node:assert/strict';
import { test } from 'node:test';
import { matching, settled, withDuplicate, withMoved, withReplaced, withoutPreset } from '../src/editing.mjs';
import { nameOf, readNames, writeNames } from '../src/names.mjs';
import { FIRST_STATE, presetOf } from '../src/state.mjs';
import { dice, library } from './library.mjs';

/** A book whose preset k is the word of k + 1 steps, named by that length, and a name of no preset. */
function stateOf(count, kept = null) {
    let bytes = new Uint8Array(0);
    let text = '# ours\n';
    for (let at = 0; at < count; at++) {
        bytes = library.append(2, bytes, 'D', 5, Array(at + 1).fill(1));
        text += `preset ${at} length ${at + 1}\n`;
    }
    const names = readNames(new TextEncoder().encode(`${text}preset 90 none\n`));
    return { ...FIRST_STATE, names, kept: kept === null ? null : presetOf({ kind: 'D', rank: 5, word: Array(kept + 1).fill(1) }, kept), book: { name: 'x', edition: 2, bytes } };
}

const lengths = state => library.presets(2, state.book.bytes).map(preset => preset.word.length);
const after = (state, change) => ({ ...state, ...change });

test('whatever is done, every name and the kept preset stay with their word', () => {
    const random = dice(11);
    for (let run = 0; run < 200; run++) {
        let { state } = settled(library, stateOf(1 + random(6), 0));
        for (let step = 0; step < 4; step++) {
            const count = library.bookCheck(2, state.book.bytes);
            const way = random(2);
            if (count > 1 && way === 0) state = after(state, withoutPreset(library, state, random(count)));
            else state = after(state, withMoved(library, state, random(count), random(count)));
            lengths(state).forEach((length, number) => assert.equal(nameOf(state.names, 'preset', number), `length ${length}`));
            if (state.kept) assert.equal(lengths(state)[state.kept.number], state.kept.word.length);
            else assert.ok(!lengths(state).includes(1));
        }
        assert.equal(nameOf(state.names, 'preset', 90), '');
        assert.match(new TextDecoder().decode(writeNames(state.names)), /^# ours\n/);
    }
});

test('names of presets that the book does not have go before it is changed, and are told', () => {
    const { state, dropped } = settled(library, stateOf(2));
    assert.equal(dropped, "The name of preset 90 'none' was dropped: the book did not have it. ");
    assert.equal(new TextDecoder().decode(writeNames(state.names)), '# ours\npreset 0 length 1\npreset 1 length 2\n');
    assert.deepEqual(settled(library, state), { state, dropped: '' });
    const two = readNames(new TextEncoder().encode('preset 2 a\npreset 7 b\n'));
    assert.match(settled(library, { ...state, names: two }).dropped, /^The names of presets 2 'a', 7 'b' were dropped/);
});

test('a copy stands behind its preset and says that it is one', () => {
    const state = stateOf(3, 2);
    const copied = after(state, withDuplicate(library, state, library.presets(2, state.book.bytes)[1]));
    assert.deepEqual(lengths(copied), [1, 2, 2, 3]);
    assert.deepEqual([0, 1, 2, 3].map(number => nameOf(copied.names, 'preset', number)), ['length 1', 'length 2', 'length 2 (copy)', 'length 3']);
    assert.equal(copied.kept.number, 3);
});

test('a replaced preset keeps its number and name', () => {
    const state = { ...stateOf(3), word: [5, 2, 5, 2, 5] };
    const replaced = after(state, withReplaced(library, state, 1));
    assert.deepEqual(lengths(replaced), [1, 5, 3]);
    assert.equal(nameOf(replaced.names, 'preset', 1), 'length 2');
    assert.deepEqual(replaced.kept, { number: 1, kind: 'D', rank: 5, word: [5, 2, 5, 2, 5] });
    assert.throws(() => withReplaced(library, { ...state, kind: 'A', rank: 1, word: [1] }, 1), { number: 21 });
});

test('presets are found by number, name, rig and steps', () => {
    const state = stateOf(12);
    const found = text => matching(library.presets(2, state.book.bytes), state.names, text).map(preset => preset.number);
    assert.deepEqual(found('length 3'), [2]);
    assert.deepEqual(found('LENGTH  1'), [0, 9, 10, 11]);
    assert.deepEqual(found('LENGTH 12'), [11]);
    assert.deepEqual(found('d5').length, 12);
    assert.deepEqual(found(' 1 1 1 1 1  1 1 1 1 1 1'), [10, 11]);
    assert.deepEqual(found('7'), [6, 7]);
    assert.deepEqual(found('b8'), []);
});
