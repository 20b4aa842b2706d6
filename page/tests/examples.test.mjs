// The example rigs, and what is said of a picture.
import assert from 'node:assert/strict';
import { test } from 'node:test';
import { pictureText } from '../src/about.mjs';
import { EXAMPLES, exampleState, namesTextOf } from '../src/examples.mjs';
import { nameOf, writeNames } from '../src/names.mjs';
import { library } from './library.mjs';

test('an example has a name for each source and screen, a place for each screen, and presets that the library takes', () => {
    assert.deepEqual(EXAMPLES.map(({ kind }) => kind).sort(), ['A', 'B', 'D']);
    for (const example of EXAMPLES) {
        const state = exampleState(library, example);
        const lanes = library.straight(state.kind, state.rank).length;
        assert.equal(example.title.match(/\d+/)[0], String(lanes));
        for (const keyword of ['source', 'screen']) {
            const names = Array.from({ length: lanes }, (_, at) => nameOf(state.names, keyword, at + 1));
            assert.ok(names.every(name => name !== '') && new Set(names).size === lanes, String(names));
        }
        const presets = library.presets(2, state.book.bytes);
        assert.deepEqual(presets.map(({ kind, rank, word }) => Array.from(library.window(kind, rank, word))), example.presets.map(([, shows]) => shows));
        assert.deepEqual(presets.map(({ number }) => nameOf(state.names, 'preset', number)), example.presets.map(([name]) => name));
        assert.deepEqual(Array.from(presets[0].word), state.word);
        assert.equal(new TextDecoder().decode(writeNames(state.names)), namesTextOf(example));
    }
});

test('screens stand in the cabin and do not cover each other', () => {
    for (const { screens } of EXAMPLES) {
        const boxes = screens.map(([, place]) => place.split(' ').map(Number));
        for (const [left, top, width, height] of boxes) assert.ok(width >= 20 && height >= 20 && left + width <= 1000 && top + height <= 1000);
        boxes.forEach(([left, top, width, height], at) => boxes.slice(at + 1).forEach(([l, t, w, h]) =>
            assert.ok(l >= left + width || left >= l + w || t >= top + height || top >= t + h, `${screens[at]}`)));
    }
});

test('a picture is told in two sentences', () => {
    assert.match(pictureText([], [1, 2, 3]), /^Each line leads a source.* No step is taken yet: .* no view is mirrored\.$/);
    const rest = (word, window) => pictureText(word, window).split('right. ')[1];
    assert.equal(rest([1], [2, 1]), '1 step is taken from left to right; no view is mirrored.');
    assert.equal(rest([2, 1, 2], [1, -2]), '3 steps are taken from left to right; the view on screen 2 is mirrored.');
    assert.equal(rest([5], [1, 2, 3, -5, -4]), '1 step is taken from left to right; the views on screens 4 and 5 are mirrored.');
    assert.equal(rest([1], [-1, -2, -3, -4, -5, -6, -7]), '1 step is taken from left to right; 7 views are mirrored.');
});
