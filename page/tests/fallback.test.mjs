// What the modules left can show: every answer is the library's, and the texts name what differs.
import assert from 'node:assert/strict';
import { test } from 'node:test';
import { differing, failedText, insteadText, picturesLeft } from '../src/fallback.mjs';
import { NO_NAMES, withName } from '../src/names.mjs';
import { FIRST_STATE } from '../src/state.mjs';
import { stepsLeft } from '../src/wanted.mjs';
import { RIGS, dice, library, randomWord } from './library.mjs';

function left(state) {
    const { kind, rank, word } = state;
    const answers = { form: library.normalForm(kind, rank, word), window: library.window(kind, rank, word) };
    return { ...answers, pictures: picturesLeft(library, state, answers) };
}

test('each picture left is shown by words without a failed step, with the screens that differ and the verdict on a fallback', () => {
    const random = dice(7);
    for (const [kind, rank] of RIGS) {
        for (let run = 0; run < 12; run++) {
            const failed = stepsLeft({ rank, failed: [] }).filter(() => random(4) === 0);
            const state = { ...FIRST_STATE, kind, rank, word: randomWord(random, rank, 3 + random(40)), failed };
            const { form, window, pictures } = left(state);
            const { first, second } = library.split(kind, rank, stepsLeft(state), state.word);
            const told = Object.fromEntries(pictures.flatMap(({ words }) => words.flatMap(({ titles, word }) => titles.map(title => [title, word]))));
            assert.deepEqual(told.start, first);
            assert.deepEqual(told.word, state.word.filter(step => !failed.includes(step)));
            assert.deepEqual(told.form, form.filter(step => !failed.includes(step)));
            for (const { words, window: shown, screens, isFallback, rest } of pictures) {
                for (const { word } of words) {
                    assert.ok(word.every(step => !failed.includes(step)));
                    assert.deepEqual(library.window(kind, rank, word), shown);
                    assert.equal(isFallback, library.fallback(kind, rank, state.word, word) !== null);
                }
                assert.deepEqual(screens, window.flatMap((entry, at) => (entry === shown[at] ? [] : [at + 1])));
                const lengths = words.map(({ word }) => word.length);
                assert.deepEqual(lengths, lengths.toSorted((one, two) => one - two));
                const isStart = words.some(({ titles }) => titles.includes('start'));
                assert.deepEqual(rest, isStart ? second : []);
            }
            const counts = pictures.map(({ screens }) => screens.length);
            assert.deepEqual(counts, counts.toSorted((one, two) => one - two));
        }
    }
});

test('a word that is no shortest version can leave what is no fallback of it', () => {
    const { pictures } = left({ ...FIRST_STATE, word: [1, 2, 1, 2, 1, 2], failed: [2] });
    const byWord = Object.fromEntries(pictures.map(({ words, isFallback }) => [words[0].word.join(' '), isFallback]));
    assert.deepEqual(byWord, { '': true, '1 1 1': false });
});

test('with all modules failed the straight picture is left, and with none of the word the picture itself', () => {
    const { pictures } = left({ ...FIRST_STATE, word: [5, 2, 3], failed: [1, 2, 3, 4, 5] });
    assert.deepEqual(pictures.map(({ window, words }) => [window, words.map(({ word }) => word)]), [[[1, 2, 3, 4, 5], [[]]]]);
    const [same, ...others] = left({ ...FIRST_STATE, word: [5, 2, 3], failed: [1] }).pictures;
    assert.deepEqual([same.screens, same.rest, others], [[], [], []]);
});

test('what differs is told in names', () => {
    const names = withName(withName(NO_NAMES, 'source', 5, 'rear view'), 'screen', 2, 'left mirror');
    assert.equal(insteadText(names, 2, -5, 3), 'Screen 2 left mirror shows 5 rear view mirrored instead of 3');
    assert.equal(insteadText(names, 2, 5, -5), 'Screen 2 left mirror shows 5 rear view as it is instead of mirrored');
    assert.deepEqual(differing([1, -2, 3], [1, 2, 3]), [2]);
});

test('which modules have failed, and whether the word can be shown', () => {
    const text = (word, failed) => failedText({ rank: 5, word, failed });
    assert.match(text([1, 2], []), /^None is ticked: .* Tick a module/);
    assert.equal(text([1, 2, 2], [2]), 'Module 2 has failed. The word uses it twice: it cannot be shown as it is.');
    assert.equal(text([1, 2], [3]), 'Module 3 has failed. The word does not use it: it can be shown as it is.');
    assert.match(text([1, 2, 1], [1, 2]), /^Modules 1 and 2 have failed\. The word uses them 3 times/);
    assert.match(text([1], [1, 2, 3, 4, 5]), /^All modules have failed\. .* only the straight picture can be shown\.$/);
    const many = Array.from({ length: 40 }, (_, at) => at + 1);
    assert.match(failedText({ rank: 64, word: [], failed: many }), /^40 modules have failed\./);
});
