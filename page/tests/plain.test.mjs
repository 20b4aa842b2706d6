// What is said to the person: a sentence beside each refusal, and an explanation of each word that may be new.
import assert from 'node:assert/strict';
import { readFileSync, readdirSync } from 'node:fs';
import { test } from 'node:test';
import { plainText, toldText } from '../src/plain.mjs';
import { TERMS } from '../src/terms.mjs';
import { library, root } from './library.mjs';

const NUMBERS = Array.from({ length: 21 }, (_, at) => at + 1);
/** Words of the library's sentences that are not the instructor's. */
const STRANGE = /entry|entries|offset|trailer|\bc\b|negative|bit\b|undefined|null|NaN|\[|letter/i;

test('each refusal says what is wrong and what to do, in other words than the library', () => {
    const seen = new Set();
    for (const number of NUMBERS) {
        for (const where of [{}, { preset: 3 }, { kind: 'D', rank: 5, step: '9', at: 2, ranks: [4, 5], failed: [1, 2] }, { kind: 'A', first: true }]) {
            const text = plainText(number, where);
            assert.ok(text.split(/[.:] /).length >= 2 && text.endsWith('.'), text);
            assert.doesNotMatch(text, STRANGE);
            assert.notEqual(text, library.message(number));
        }
        seen.add(plainText(number));
    }
    assert.equal(seen.size, 21);
});

test('what is known is said: the step and its place, the preset, the rank, the modules', () => {
    assert.match(plainText(8, { step: '9', at: 2, rank: 5 }), /^Step 9, number 3 of the word, does not exist in this rig: its steps are 1 to 5\./);
    assert.match(plainText(6, { kind: 'D', ranks: [4, 64] }), /Kind D takes 4 to 64\./);
    assert.match(plainText(18, { preset: 7 }), /Preset 7 has more/);
    assert.match(plainText(19, { failed: [2] }), /^Without module 2, /);
    assert.match(plainText(19, { failed: [2, 4] }), /^Without modules 2 and 4, /);
    const refusal = { number: 13, text: library.message(13) };
    assert.ok(toldText(refusal).endsWith(`(Refusal 13: ${library.message(13)})`));
});

test('the words that may be new are explained, and every word that is marked is', () => {
    for (const key of ['rank', 'word', 'letters', 'window', 'straight', 'against', 'family', 'edition']) assert.ok(TERMS[key].length < 220, key);
    const sources = readdirSync(`${root}page/src`).map(file => readFileSync(`${root}page/src/${file}`, 'utf8')).join('');
    const used = [...sources.matchAll(/data-term="(\w+)"|\bterm\('(\w+)'|: '(word|window|shortest)'/g)].map(match => match[1] ?? match[2] ?? match[3]);
    assert.deepEqual([...new Set(used)].sort(), Object.keys(TERMS).sort());
});

test('the normal form is the shortest version on the page', () => {
    for (const file of ['page.html', 'composing.mjs', 'why.mjs', 'modules.mjs', 'sheet.mjs', 'delays.mjs', 'proved.mjs']) {
        const said = readFileSync(`${root}page/src/${file}`, 'utf8').split('\n').filter(line => !/^\s*(\/\/|\/\*|\*)/.test(line));
        assert.doesNotMatch(said.join('\n'), /[nN]ormal form|Take it/, file);
    }
});
