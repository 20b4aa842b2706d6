// The sheet: its lines, its pictures on paper and what stands in its margins.
import assert from 'node:assert/strict';
import { createHash } from 'node:crypto';
import { test } from 'node:test';
import { cssString } from '../src/margins.mjs';
import { NO_NAMES, readNames } from '../src/names.mjs';
import { frontRows, presetRows, screenLines } from '../src/report.mjs';
import { PAPER, columnsOf, rowsMarkup } from '../src/rows.mjs';
import { sha256 } from '../src/sha256.mjs';
import { FIRST_STATE } from '../src/state.mjs';
import { library } from './library.mjs';

const textOf = rows => rows.map(([name, ...parts]) => `${name}: ${parts.map(part => part.text ?? part).join('')}`).join('\n');

test('the sheet says what the record needs', () => {
    const names = readNames(new TextEncoder().encode('source 5 rear view\nscreen 2 left mirror\n'));
    const state = { ...FIRST_STATE, word: [4, 4, 2, 5, 3, 5, 1, 2], names };
    const text = textOf(presetRows(library, names, state));
    for (const part of ['5 lanes', '4 4 2 5 3 5 1 2 (8 letters)', '5 2 3 5 1 2 (6 letters)', '3 −5 1 4 −2', '6: 3 plain pairs, 3 pairs against a mirrored lane, 0 mirrored lanes (kind D counts none)', 'no window of D5 needs more than 20']) {
        assert.ok(text.includes(part), part);
    }
    assert.deepEqual(screenLines(names, library.window('D', 5, state.word))[1], ['2 left mirror', '5 rear view', 'mirrored']);
    const about = { version: '1.2.3', hash: 'abc' };
    const front = textOf(frontRows(state, { about, date: 'today', remarks: 'seen', preset: null }));
    for (const part of ['1.2.3', 'abc', 'in no book yet', 'Remarks: seen', createHash('sha256').update('source 5 rear view\nscreen 2 left mirror\n').digest('hex')]) {
        assert.ok(front.includes(part), part);
    }
    const book = { ...state.book, bytes: Uint8Array.of(0, 0) };
    const kept = textOf(frontRows({ ...state, book }, { about, date: 'today', remarks: '', presets: 3 }));
    assert.ok(kept.includes(createHash('sha256').update(book.bytes).digest('hex')) && kept.includes('3 presets, 2 bytes'));
});

test('a delay puts milliseconds on the sheet', () => {
    const names = readNames(new TextEncoder().encode('delay 2.5\n'));
    const text = textOf(presetRows(library, names, { ...FIRST_STATE, word: [4, 4, 2, 5, 3, 5, 1, 2] }));
    assert.ok(text.includes('8 steps (20 ms) as stored, 6 (15 ms) as the shortest version; no window of D5 needs more than 20 (50 ms)'), text);
});

test('hashes are those of SHA-256', () => {
    for (let length = 0; length < 200; length++) {
        const bytes = Uint8Array.from({ length }, (_, at) => at * 37 + length);
        assert.equal(sha256(bytes), createHash('sha256').update(bytes).digest('hex'));
    }
});

test('no name ends a string of CSS', () => {
    assert.equal(cssString('"\\</style>\n'), '"\\22 \\5c \\3c \\2f style\\3e \\a "');
    assert.equal(cssString('a b-1'), '"a b-1"');
});

test('the rows of a picture fit the paper, with no small text, and end with the window', () => {
    const long = 'W'.repeat(80);
    const named = readNames(new TextEncoder().encode(Array.from({ length: 64 }, (_, at) => `source ${at + 1} ${long}\nscreen ${at + 1} ${long}\n`).join('')));
    for (const names of [NO_NAMES, named]) {
        for (const [kind, rank, count] of [['A', 5, 3], ['B', 8, 100], ['D', 16, 300], ['B', 20, 50], ['B', 64, 1000]]) {
            const word = Array.from({ length: count }, (_, at) => at * 37 % rank + 1);
            const rows = rowsMarkup(library, { kind, rank, word }, names);
            for (const { markup } of rows) {
                assert.ok(Number(/ width="([\d.]+)"/.exec(markup)[1]) <= PAPER);
                for (const [, size] of markup.matchAll(/--text: (\d+)px/g)) assert.ok(Number(size) >= 11);
            }
            assert.ok(rows.length < count);
            const lanes = library.straight(kind, rank).length;
            const columns = columnsOf(word, library.actions(kind, rank), lanes, 9, true);
            assert.deepEqual(library.window(kind, rank, columns.flat(2)), library.window(kind, rank, word));
            assert.ok(columns.every(row => row.length <= 9));
        }
    }
});
