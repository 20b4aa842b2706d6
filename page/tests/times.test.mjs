// Milliseconds: exact for every delay that names can have, and nothing where they have none.
import assert from 'node:assert/strict';
import { test } from 'node:test';
import { barsMarkup } from '../src/delays.mjs';
import { NO_NAMES, withDelay } from '../src/names.mjs';
import { presetRows } from '../src/report.mjs';
import { FIRST_STATE } from '../src/state.mjs';
import { lengthText, microseconds, millisecondsText, timeText } from '../src/times.mjs';
import { dice, library } from './library.mjs';

test('times are exact, without the errors of fractions in base two', () => {
    assert.equal(millisecondsText(3, '0.1'), '0.3 ms');
    assert.equal(millisecondsText(6, '2.5'), '15 ms');
    assert.equal(millisecondsText(0, '2.5'), '0 ms');
    assert.equal(millisecondsText(4096, '9999.999'), '40,959,995.904 ms');
    assert.equal(millisecondsText(1, '007.050'), '7.05 ms');
    assert.equal(microseconds('0.001'), 1);
    const random = dice(11);
    for (let run = 0; run < 500; run++) {
        const [whole, part, steps] = [random(10000), random(1000), random(4097)];
        const all = BigInt(steps) * (BigInt(whole) * 1000n + BigInt(part));
        const text = millisecondsText(steps, `${whole}.${String(part).padStart(3, '0')}`);
        const [ms, fraction = ''] = text.replace(' ms', '').replaceAll(',', '').split('.');
        assert.equal(BigInt(ms) * 1000n + BigInt(fraction.padEnd(3, '0')), all, text);
    }
});

test('a length has its time behind it only where the names have a delay', () => {
    const names = withDelay(NO_NAMES, '2.5');
    assert.equal(lengthText(6, 'step', names), '6 steps, 15 ms');
    assert.equal(lengthText(1, 'letter', names), '1 letter, 2.5 ms');
    assert.equal(lengthText(6, 'step', NO_NAMES), '6 steps');
    assert.equal(timeText(6, NO_NAMES), '');
});

test('the scale of the delays and the sheet have milliseconds too', () => {
    const names = withDelay(NO_NAMES, '2.5');
    const { counts } = library.delayTable('D', 5);
    const markup = barsMarkup(counts, 900, 6, names);
    assert.match(markup, /<title>length 6, 15 ms: /);
    assert.match(markup, /steps, and milliseconds/);
    assert.doesNotMatch(barsMarkup(counts, 900, 6, NO_NAMES), /millisecond| ms/);
    const state = { ...FIRST_STATE, word: [4, 4, 2, 5, 3, 5, 1, 2], names };
    const text = presetRows(library, names, state).map(([name, ...parts]) => `${name}: ${parts.map(part => part.text ?? part).join('')}`).join('\n');
    for (const part of ['8 steps (20 ms) as stored', '6 (15 ms) as the shortest version', 'Length: 6 (15 ms): 3 plain']) assert.ok(text.includes(part), part);
});

test('the numbers below the bars never touch', () => {
    const { counts } = library.delayTable('B', 16);
    for (const width of [280, 600, 1200, 3800]) {
        const markup = barsMarkup(counts, width, 3, withDelay(NO_NAMES, '1234.567'));
        const texts = [...markup.matchAll(/<text x="([\d.]+)" y="(\d+)" text-anchor="middle">([\d.,]+)</g)].map(([, x, y, text]) => ({ x: Number(x), y, wide: 8 * text.length }));
        const rows = [...new Set(texts.map(({ y }) => y))].map(y => texts.filter(text => text.y === y));
        assert.equal(rows.length, 2);
        for (const row of rows) row.slice(1).forEach((text, at) => assert.ok(text.x - row[at].x >= (text.wide + row[at].wide) / 2, `${width}`));
    }
});
