// Words as they are typed and changed, and where a refusal lies in them.
import assert from 'node:assert/strict';
import { test } from 'node:test';
import { toldText } from '../src/plain.mjs';
import { judged } from '../src/composing.mjs';
import { inRig, nearestRank } from '../src/rig.mjs';
import { FIRST_STATE, Store } from '../src/state.mjs';
import { actionText, counted, parsedWord, shortened } from '../src/text.mjs';
import { firstDifference, moved, removed } from '../src/words.mjs';
import { library } from './library.mjs';

test('spaces and commas separate, and what is no number is told with its place', () => {
    assert.deepEqual(parsedWord('4 4,2\n 15').letters, [4, 4, 2, 15]);
    assert.deepEqual(parsedWord('').letters, []);
    assert.deepEqual(parsedWord('1 x2 3').strange, { text: 'x2', start: 2, end: 4 });
    assert.deepEqual(parsedWord('1 -2 999999 1.5').strange.text, '1.5');
    assert.deepEqual(parsedWord('1 −2 999').letters, [1, 0, 255]);
});

test('the letter that a word is refused for is marked at its place', () => {
    const { letters, fault } = judged(library, 'D', 5, '1 2 12 6 9');
    assert.equal(letters, null);
    const refusal = { number: 8, text: library.message(8) };
    assert.deepEqual({ ...fault }, { start: 4, end: 6, at: 2, number: 8, told: toldText(refusal, { step: '12', at: 2, rank: 5 }) });
    assert.equal(judged(library, 'D', 5, '0').fault.at, 0);
    assert.equal(judged(library, 'D', 5, '1 0').fault.at, 1);
    const long = judged(library, 'A', 3, Array(4100).fill(1).join(' ')).fault;
    assert.deepEqual([long.number, long.at], [7, 4096]);
    const both = judged(library, 'A', 3, [9, ...Array(4099).fill(1)].join(' ')).fault;
    assert.deepEqual([both.number, both.at], [7, 4096]);
    assert.deepEqual(judged(library, 'A', 3, '3 2 1').letters, [3, 2, 1]);
});

test('steps are moved and removed', () => {
    assert.deepEqual(removed([1, 2, 3], 1), [1, 3]);
    assert.deepEqual(moved([1, 2, 3], 0, 2), [2, 3, 1]);
    assert.deepEqual(moved([1, 2, 3], 2, 0), [3, 1, 2]);
    assert.equal(firstDifference([1, 2, 3], [1, 4, 3]), 1);
    assert.equal(firstDifference([1, 2], [1, 2, 3]), 2);
});

test('numbers and actions in words', () => {
    assert.equal(counted(1, 'letter'), '1 letter');
    assert.equal(counted(4096n, 'letter'), '4,096 letters');
    assert.equal(shortened([1, 2, 3, 4, 5, 6], 4), '1 2 … 5 6');
    assert.equal(actionText(library.actions('D', 5)[5]), 'exchanges lanes 4 and 5 and mirrors both');
    assert.equal(actionText(library.actions('B', 5)[5]), 'mirrors lane 5');
    assert.equal(actionText(library.actions('A', 3)[3]), 'exchanges lanes 3 and 4');
});

test('ranks are those that the library takes', () => {
    assert.deepEqual(['A', 'B', 'D'].map(kind => [library.ranks(kind)[0], library.ranks(kind).at(-1)]), [[1, 63], [2, 64], [4, 64]]);
    assert.deepEqual([nearestRank(library, 'D', 1), nearestRank(library, 'A', 64), nearestRank(library, 'B', 9)], [4, 63, 9]);
});

test('a word goes along to another rig if that takes it', () => {
    const state = { ...FIRST_STATE, word: [5, 4], failed: [2, 5], simpler: [5] };
    assert.deepEqual(inRig(library, state, 'B', 5).change.word, [5, 4]);
    const { change, refusal } = inRig(library, state, 'D', 4);
    assert.deepEqual([change.word, change.failed, change.simpler, refusal.number], [[], [2], [], 8]);
});

test('a word is kept as the preset of one rig, and not before it was', () => {
    const store = new Store();
    store.change({ word: [1, 2] });
    store.change({ failed: [1] });
    store.markWordKept(7);
    assert.deepEqual([store.preset, store.wordUnsaved], [7, false]);
    store.change({ rank: 6 });
    assert.deepEqual([store.preset, store.wordUnsaved], [null, true]);
    store.undo();
    assert.equal(store.preset, 7);
    store.undo();
    assert.deepEqual([store.preset, store.wordUnsaved], [null, true]);
});

test('every change can be undone and redone, and what is not saved is known', () => {
    const store = new Store();
    assert.ok(!store.canUndo && !store.unsaved);
    store.change({ word: [1] });
    store.change({ word: [1, 2], kind: 'B' });
    assert.ok(store.unsaved);
    store.markWordKept();
    assert.ok(!store.unsaved);
    store.undo();
    assert.deepEqual([store.state.word, store.state.kind, store.unsaved], [[1], 'D', true]);
    store.undo();
    store.undo();
    assert.ok(!store.unsaved && !store.canUndo && store.canRedo);
    store.redo();
    store.change({ word: [3] });
    assert.ok(!store.canRedo);
    store.change({ book: { ...store.state.book, bytes: Uint8Array.of(0, 0) }, word: [] });
    assert.ok(store.bookUnsaved && store.unsaved);
    store.markBookSaved();
    assert.ok(!store.bookUnsaved && !store.unsaved);
});
