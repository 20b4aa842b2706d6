// The panels' answers: each is the library's.
import assert from 'node:assert/strict';
import { test } from 'node:test';
import { barsMarkup, share, ticksOf } from '../src/delays.mjs';
import { splitOf } from '../src/fallback.mjs';
import { fallbackOf, toggled } from '../src/modules.mjs';
import { SENTENCES } from '../src/proved.mjs';
import { FIRST_STATE } from '../src/state.mjs';
import { wayTo, withMirrored, withSource } from '../src/wanted.mjs';
import { Rewriting, ruleText } from '../src/why.mjs';
import { RIGS, dice, library, randomWord } from './library.mjs';

test('a source put on a screen changes places with what was there', () => {
    assert.deepEqual(withSource([1, 2, 3, 4, 5], 1, 4), [4, 2, 3, 1, 5]);
    assert.deepEqual(withSource([-2, 1, 3], 2, 3), [3, 1, -2]);
    assert.deepEqual(withMirrored([1, -2, 3], 2), [1, 2, 3]);
});

test('the way to a wanted picture leads there over the allowed steps, or is refused in words', () => {
    const random = dice(2);
    for (const [kind, rank] of RIGS) {
        for (const wantedFrom of ['straight', 'present']) {
            const state = { ...FIRST_STATE, kind, rank, word: randomWord(random, rank, 9), wantedFrom };
            const wanted = library.window(kind, rank, randomWord(random, rank, 25));
            const { value } = wayTo(library, state, wanted);
            const before = wantedFrom === 'present' ? state.word : [];
            assert.deepEqual(library.window(kind, rank, [...before, ...value]), wanted);
        }
    }
    const numberOf = (state, wanted) => wayTo(library, { ...FIRST_STATE, ...state }, wanted).refusal.number;
    assert.equal(numberOf({}, [-1, 2, 3, 4, 5]), 11);
    assert.equal(numberOf({ kind: 'A', rank: 2 }, [-1, 2, 3]), 10);
    assert.equal(numberOf({ kind: 'A', rank: 2, failed: [1] }, [2, 1, 3]), 19);
});

test('the split is the product of its parts, and the first needs no failed module', () => {
    const random = dice(3);
    for (const [kind, rank] of RIGS) {
        const state = { ...FIRST_STATE, kind, rank, word: randomWord(random, rank, 40), failed: [1 + random(rank)] };
        const { first, second } = splitOf(library, state);
        assert.ok(first.every(step => !state.failed.includes(step)));
        assert.ok(library.same(kind, rank, [...first, ...second], state.word));
    }
    assert.deepEqual(toggled([1, 3], 2), [1, 2, 3]);
    assert.deepEqual(toggled([1, 2, 3], 2), [1, 3]);
});

test('the steps kept of a fallback show the simpler preset', () => {
    const state = { ...FIRST_STATE, word: [4, 4, 2, 5, 3, 5, 1, 2] };
    const form = library.normalForm('D', 5, state.word);
    const kept = fallbackOf(library, state, [2, 5]);
    assert.ok(library.same('D', 5, kept.map(place => form[place]), [2, 5]));
    assert.equal(fallbackOf(library, state, [4]), null);
    assert.deepEqual(fallbackOf(library, state, []), []);
});

test('the rewriting is replayed to its end, line by line and by jumps', () => {
    const random = dice(4);
    for (const [kind, rank] of RIGS) {
        const word = randomWord(random, rank, 60);
        const rewriting = new Rewriting(library, { kind, rank, word });
        const count = rewriting.steps.length;
        assert.deepEqual(rewriting.wordAfter(count), library.normalForm(kind, rank, word));
        for (let look = 0; look < 20 && count > 0; look++) {
            const at = random(count);
            const { place, before, after, left, family } = rewriting.line(at);
            assert.deepEqual(before, rewriting.wordAfter(at));
            assert.deepEqual(after, rewriting.wordAfter(at + 1));
            assert.equal(after.length, rewriting.steps[at].length);
            assert.equal(family, rewriting.steps[at].family);
            // The left side alone is what the right side replaces: in front of it and behind it nothing changed.
            const right = left - (before.length - after.length);
            assert.deepEqual(after.slice(0, place), before.slice(0, place));
            assert.deepEqual(after.slice(place + right), before.slice(place + left));
            assert.ok(library.same(kind, rank, before.slice(place, place + left), after.slice(place, place + right)));
        }
    }
});

test('every rule is told without brackets', () => {
    const random = dice(5);
    const told = new Map();
    for (const [kind, rank] of [['A', 3], ['B', 5], ['D', 5], ['D', 4]]) {
        for (let run = 0; run < 40; run++) {
            const rewriting = new Rewriting(library, { kind, rank, word: randomWord(random, rank, 40) });
            rewriting.steps.forEach((_, at) => {
                const line = rewriting.line(at);
                told.set(line.family, ruleText(line));
            });
        }
    }
    assert.deepEqual([...told.keys()].sort(), [1, 2, 3, 4, 5, 6, 7]);
    for (const text of told.values()) assert.doesNotMatch(text, /[[\]]|undefined|NaN/);
    assert.equal(ruleText({ family: 3, place: 0, before: [1, 2, 1], left: 3, after: [2, 1, 2] }), 'the 1 behind the run 1 2 moves in front of it and becomes 2');
});

test('the scale of the delays has round numbers, and shares are exact enough to draw', () => {
    assert.deepEqual(ticksOf(7n), [0n, 2n, 4n, 6n]);
    assert.deepEqual(ticksOf(1n), [0n, 1n]);
    assert.deepEqual(ticksOf(100n), [0n, 50n, 100n]);
    for (const most of [1n, 9n, 10n, 11n, 12345678901234567890n]) {
        const ticks = ticksOf(most);
        assert.ok(ticks.length >= 2 && ticks.length <= 6 && ticks.at(-1) <= most);
    }
    assert.equal(share(1n, 4n), 0.25);
    const { counts } = library.delayTable('B', 5);
    assert.equal((barsMarkup(counts, 600, 3).match(/<rect/g) ?? []).length, counts.length);
    assert.equal((barsMarkup(counts, 600, 3).match(/bar present/g) ?? []).length, 1);
});

test('what is proved is said in five sentences', () => assert.equal(SENTENCES.length, 5));
