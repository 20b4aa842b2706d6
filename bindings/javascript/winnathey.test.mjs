// Tests of winnathey.mjs: every function, every refusal, wrong arguments, and the stored answers of the C test. Run
// with `node --test bindings/javascript/winnathey.test.mjs`. The library is target/targets/wasm32/winnathey.wasm, or the file
// that WINNATHEY_WASM names.
import assert from 'node:assert/strict';
import { readFileSync } from 'node:fs';
import { test } from 'node:test';
import { fileURLToPath } from 'node:url';

import { runTable, said } from '../../tests/calls_table.mjs';
import { KINDS, MAX_BOOK, MAX_LANES, MAX_NORMAL_FORM, MAX_WORD, Refusal, Refused, Winnathey, load } from './winnathey.mjs';

const root = new URL('../../', import.meta.url);
const wasm = process.env.WINNATHEY_WASM ?? fileURLToPath(new URL('target/targets/wasm32/winnathey.wasm', root));
const w = await load(wasm);

/** The number of the refusal that a call throws. */
function refusal(call) {
    try {
        call();
    } catch (error) {
        assert.ok(error instanceof Refusal, String(error));
        assert.equal(error.name, 'Refusal');
        assert.equal(error.text, w.refusalMessage(error.number));
        const place = error.place === null ? '' : ` (preset ${error.place} of the list)`;
        assert.equal(error.message, `refused ${error.number}: ${error.text}${place}`);
        return error.number;
    }
    return 0;
}

const D5 = [4, 4, 2, 5, 3, 5, 1, 2];
const BOOK = [2, 2, 4, 0, 1, 2, 1, 2, 3, 5, 6, 0, 5, 2, 3, 5, 1, 2, 0, 0, 8, 0, 2, 0];
const SECOND = [2, 2, 2, 4, 0, 1, 2, 1, 2, 3, 5, 5, 6, 0, 5, 2, 3, 5, 1, 2, 0, 0, 9, 0, 2, 0];
const TOO_LONG = new Uint8Array(MAX_WORD + 1).fill(1);

// ---- loading

test('loads from a path, a URL, bytes and a module', async () => {
    const url = new URL(`file://${wasm}`);
    const bytes = readFileSync(wasm);
    const view = new Uint8Array(bytes);
    for (const source of [wasm, url, url.href, bytes, view, view.buffer, await WebAssembly.compile(bytes)]) {
        assert.equal((await load(source)).lengthOfWord('A', 2, [1, 2, 1]), 3);
    }
    const data = `data:application/wasm;base64,${bytes.toString('base64')}`;
    assert.equal((await load(data)).lengthOfWord('A', 2, [1, 2, 1]), 3);
    await assert.rejects(load(`${wasm}.none`), { code: 'ENOENT' });
});

test('the module imports nothing, and exports the functions of the header, its memory and where that is free', async () => {
    const module = await WebAssembly.compile(readFileSync(wasm));
    const header = readFileSync(new URL('include/winnathey.h', root), 'utf8');
    const declared = [...header.matchAll(/^int64_t (winnathey_\w+)\(/gm)].map(([, name]) => name);
    assert.ok(declared.length >= 32);
    assert.deepEqual(WebAssembly.Module.imports(module), []);
    const exported = WebAssembly.Module.exports(module).map(({ name }) => name);
    assert.deepEqual(exported.sort(), ['__heap_base', 'memory', ...declared].sort());
});

test('the version is that of the file VERSION', () => {
    assert.equal(w.version(), readFileSync(new URL('VERSION', root), 'utf8').trim());
});

test('the constants are those of the header', () => {
    const header = readFileSync(new URL('include/winnathey.h', root), 'utf8');
    const defined = name => Number(header.match(new RegExp(`#define WINNATHEY_${name} (\\d+)`))[1]);
    assert.deepEqual(
        [MAX_LANES, MAX_WORD, MAX_NORMAL_FORM, MAX_BOOK],
        ['MAX_LANES', 'MAX_WORD', 'MAX_NORMAL_FORM', 'MAX_BOOK'].map(defined),
    );
    assert.deepEqual(['A', 'B', 'D'].map(kind => KINDS[defined(`KIND_${kind}`)]), ['A', 'B', 'D']);
});

// ---- every function

test('words', () => {
    assert.deepEqual(w.windowOfWord('D', 5, D5), [3, -5, 1, 4, -2]);
    assert.deepEqual(w.windowOfWord(3, 5, Uint8Array.from(D5)), [3, -5, 1, 4, -2]);
    assert.deepEqual(w.normalFormOfWord('D', 5, D5), [5, 2, 3, 5, 1, 2]);
    assert.deepEqual(w.normalFormOfWord('B', 2, [1, 2, 1, 2]), [2, 1, 2, 1]);
    assert.deepEqual(w.productOfWords('A', 2, [1, 2], [1]), [2, 1, 2]);
    assert.deepEqual(w.inverseOfWord('A', 2, [1, 2]), [2, 1]);
    assert.equal(w.lengthOfWord('B', 2, [1, 2, 1, 2]), 4);
    assert.deepEqual(w.crossingsOfWord('D', 5, D5), { inversions: 3, negativeSumPairs: 3, negatives: 0, total: 6 });
    assert.deepEqual(w.crossingsOfWord('B', 2, [1, 2, 1, 2]), { inversions: 1, negativeSumPairs: 1, negatives: 2, total: 4 });
    assert.equal(w.same('A', 2, [1, 2, 1], 'A', 2, [2, 1, 2]), true);
    assert.equal(w.same('A', 2, [1], 'B', 3, [1]), true);
    assert.equal(w.same('A', 2, [1], 'A', 2, [2]), false);
    assert.deepEqual(w.better('A', 2, [2, 1, 2], [1, 2, 1]), [2, 1, 2]);
    assert.deepEqual(w.better('A', 2, [1, 2, 1], [2, 1, 2]), [2, 1, 2]);
    assert.deepEqual(w.better('A', 2, [1, 1, 1], [1]), [1]);
    assert.deepEqual(w.better('A', 2, [], [1, 1]), []);
    assert.equal(w.better('A', 2, [1], [2]), null);
    assert.equal(refusal(() => w.better('A', 2, [9], [9])), 8);
    assert.equal(refusal(() => w.better('A', 2, [1], TOO_LONG)), 7);
    assert.equal(refusal(() => w.better('A', 64, [], [])), 6);
});

test('letters of kinds in either case, words, windows and steps as texts', () => {
    for (const kind of ['D', 'd', 3]) {
        for (const word of [D5, '4 4 2 5 3 5 1 2', '4,4,2,5,3,5,1,2', ' 4, 4 ,2 5\t3 5 1 2 ']) {
            assert.deepEqual(w.normalFormOfWord(kind, 5, word), [5, 2, 3, 5, 1, 2]);
            assert.equal(w.rewriteToEnd(kind, 5, word).steps.length, w.rewriteSteps(kind, 5, word));
        }
        assert.equal(w.lengthOfWindow(kind, 5, '3 -5 1 4 -2'), 6);
        assert.deepEqual(w.inverseOfWindow(kind, 5, '3,-5,1,4,-2'), w.inverseOfWindow('D', 5, [3, -5, 1, 4, -2]));
    }
    assert.deepEqual(w.windowOfWord('a', 1, ''), [1, 2]);
    assert.deepEqual(w.windowOfWord('b', 2, '2'), [1, -2]);
    assert.deepEqual(w.split('A', 2, '1', '1 2 1'), { first: [1], second: [2, 1] });
    assert.deepEqual(w.between('A', 2, '1,2', '1 2 3', '2 3 1'), [1, 2]);
    assert.deepEqual(w.append(1, [], 'b', 2, '1,2'), w.append(1, [], 'B', 2, [1, 2]));
    for (const text of ['1 +1', '1 -1', '1,,1', '1,', '1 256', '1 x', '1 1.0', '1 1e0', '1 0x1', '1 \u0661', '1 99999999999999999999']) {
        assert.throws(() => w.windowOfWord('A', 2, text), { name: 'RangeError', message: /^word\[1\] is not an integer from 0 to 255: "/ }, text);
    }
    for (const text of ['1 128', '1 -129', '1 --1', '1 - 1', '1 +1']) {
        assert.throws(() => w.lengthOfWindow('A', 2, text), { name: 'RangeError', message: /^window\[1\] is not an integer from -128 to 127: "/ }, text);
    }
    for (const text of ['1 0', '1 65', '1-2', '1 -2']) {
        assert.throws(() => w.split('A', 2, text, []), { name: 'RangeError', message: /^allowed\[[01]\] is not an integer from 1 to 64: "/ }, text);
    }
    assert.throws(() => w.bookCheck(1, '0 0'), { name: 'TypeError', message: 'book is not a list: "0 0"' });
});

test('texts are read as tests/texts has it, which holds every language to one rule', () => {
    const long = Array.from({ length: 500 }, (_, i) => 1 + (i * 37) % 64);
    const calls = {
        word: ['first', word => w.better('B', 64, word, word)],
        window: ['window', (window, lanes) => w.inverseOfWindow('B', lanes, window)],
        steps: ['allowed', steps => w.split('B', 64, steps, long)],
    };
    const lines = readFileSync(new URL('tests/texts', root), 'utf8').split('\n').slice(0, -1);
    const rows = lines.filter(line => !line.startsWith('#')).map(line => line.split(' | '));
    assert.ok(rows.length > 50);
    for (const [of, text, due] of rows) {
        const [name, call] = calls[of];
        if (due.startsWith('wrong ')) {
            const said = error => error.name === 'RangeError' && error.message.startsWith(`${name}[${due.slice(6)}] is not `);
            assert.throws(() => call(JSON.parse(text), 2), said, text);
        } else {
            const numbers = due.split(' ').filter(Boolean).map(Number);
            assert.deepEqual(call(JSON.parse(text), numbers.length), call(numbers, numbers.length), text);
        }
    }
    assert.deepEqual(w.better('A', 2, `${'0'.repeat(5000)}1`, '1'), [1]);
    for (const digits of [`1${'0'.repeat(5000)}`, '9'.repeat(5000)]) {
        assert.throws(() => w.windowOfWord('A', 2, digits), { name: 'RangeError', message: /^word\[0\] is not an integer from 0 to 255: "[0-9]+ \.\.$/ });
    }
});

test('whatever stands for an argument, the error names the argument', () => {
    const bare = Object.create(null);
    const throwing = { toString() { throw new Error('no text'); } };
    for (const value of [bare, throwing, Symbol('s'), 1n, null, undefined, true, () => 1, new Array(10000).fill(7)]) {
        const errors = {
            kind: () => w.windowOfWord(value, 2, []),
            rank: () => w.windowOfWord('A', value, []),
            'word[1]': () => w.windowOfWord('A', 2, [1, value]),
            'window[0]': () => w.lengthOfWindow('A', 2, [value, 2, 3]),
            place: () => w.rewrite('A', 2, [1], value),
            number: () => w.preset(1, BOOK, value),
            'an allowed step': () => w.split('A', 2, [value], []),
        };
        for (const [name, call] of Object.entries(errors)) {
            assert.throws(call, error => error.name === 'TypeError' && error.message.startsWith(`${name} is not a number: `) && error.message.length < 120);
        }
        assert.throws(() => w.bookCheck(value, BOOK), error => error.name === 'RangeError' && error.message.startsWith('the edition is not 1 or 2: '));
        if (Array.isArray(value)) continue;
        assert.throws(() => w.windowOfWord('A', 2, value), error => error.name === 'TypeError' && error.message.startsWith('word is not a list: '));
        assert.throws(() => w.bookCheck(1, value), error => error.name === 'TypeError' && error.message.startsWith('book is not a list: '));
        assert.throws(() => w.split('A', 2, value, []), error => error.name === 'TypeError' && error.message.startsWith('the allowed steps are not a list: '));
    }
    assert.throws(() => w.windowOfWord(bare, 2, []), { message: 'kind is not a number: an object' });
    for (const length of [1.5, NaN, -1, '2', undefined]) {
        const list = new Proxy([1, 2], { get: (target, key) => (key === 'length' ? length : target[key]) });
        assert.throws(() => w.windowOfWord('A', 2, list), { name: 'TypeError' });
    }
});

test('a list may call the library while it is read', async () => {
    const long = Array.from({ length: 1500 }, (_, i) => 1 + (i * 37) % 64);
    const second = w.convert(1, BOOK);
    const calls = [
        (l, lent) => l.windowOfWord('D', 5, lent(D5)),
        (l, lent) => l.productOfWords('D', 5, lent(D5), lent([1, 2, 5])),
        (l, lent) => l.same('D', 5, lent(D5), 'D', 5, lent([5, 2, 3, 5, 1, 2])),
        (l, lent) => l.better('D', 5, lent(D5), lent([5, 2, 3, 5, 1, 2])),
        (l, lent) => l.productOfWindows('D', 5, lent([3, -5, 1, 4, -2]), lent([2, 1, 3, 5, 4])),
        (l, lent) => l.between('D', 5, lent([1, 2, 3, 4, 5]), lent([1, 2, 3, 4, 5]), lent([3, -5, 1, 4, -2])),
        (l, lent) => l.fallback('D', 5, lent(D5), lent([5, 2])),
        (l, lent) => l.split('D', 5, lent([1, 2, 3]), lent(D5)),
        (l, lent) => l.rewrite('D', 5, lent(D5), 0),
        (l, lent) => l.rewriteToEnd('D', 5, lent(D5)),
        (l, lent) => l.rewriteToEnd('D', 64, lent(long)),
        (l, lent) => l.preset(1, lent(BOOK), 1),
        (l, lent) => l.presets(2, lent(second)),
        (l, lent) => l.append(1, lent(BOOK), 'D', 5, lent(D5)),
        (l, lent) => l.appendAll(1, lent(BOOK), lent([{ kind: 'D', rank: 5, word: lent(D5) }, { kind: 'B', rank: 2, word: lent([1, 2]) }])),
        (l, lent) => l.replace(1, lent(BOOK), 0, 'D', 5, lent(D5)),
        (l, lent) => l.moveTo(2, lent(second), 0, 1),
        (l, lent) => l.convert(1, lent(BOOK)),
        (l, lent) => l.convert(1, lent(new Uint8Array(w.appendAll(1, BOOK, Array(50).fill({ kind: 'A', rank: 2, word: [1, 2, 1] }))))),
    ];
    // By hand, without the module, a long rewriting makes the memory grow.
    const byHand = async () => new Winnathey((await WebAssembly.instantiate(readFileSync(wasm))).instance.exports);
    for (const library of [w, await byHand()]) {
        const others = l => {
            l.productOfWords('B', 64, [64, 63, 62, 61, 60, 59, 58, 57], [9, 8, 7, 6, 5, 4, 3, 2, 1]);
            l.append(2, SECOND, 'A', 9, [9, 9, 9, 9]);
        };
        for (const [at, call] of calls.entries()) {
            let reads = 0;
            const lent = list => new Proxy(list, {
                get: (target, key) => {
                    const value = Reflect.get(target, key);
                    if (reads % 7 === 0 || key === 'length') others(library);
                    if (reads++ % 500 === 0) library.rewriteToEnd('D', 64, long);
                    return typeof value === 'function' ? value.bind(target) : value;
                },
            });
            assert.deepEqual(call(library, lent), call(w, list => list), `call ${at}`);
            assert.ok(reads > 1);
        }
    }
});

test('windows', () => {
    assert.deepEqual(w.normalFormOfWindow('D', 5, [3, -5, 1, 4, -2]), [5, 2, 3, 5, 1, 2]);
    assert.deepEqual(w.productOfWindows('A', 2, [2, 3, 1], [2, 3, 1]), [3, 1, 2]);
    assert.deepEqual(w.inverseOfWindow('A', 2, [2, 3, 1]), [3, 1, 2]);
    assert.equal(w.lengthOfWindow('B', 2, [-1, -2]), 4);
    assert.deepEqual(w.crossingsOfWindow('B', 2, Int8Array.of(-1, -2)), { inversions: 1, negativeSumPairs: 1, negatives: 2, total: 4 });
});

test('the delay table, with counts above 2^53', () => {
    assert.deepEqual(w.delayTable('A', 2), { counts: [1n, 2n, 2n, 1n], window: [3, 2, 1], normalForm: [2, 1, 2] });
    const { counts, window, normalForm } = w.delayTable('A', 19);
    assert.equal(counts.length, 191);
    assert.equal(counts.reduce((a, b) => a + b), 2432902008176640000n); // 20!
    assert.deepEqual(window, Array.from({ length: 20 }, (_, i) => 20 - i));
    assert.equal(normalForm.length, 190);
    const largest = w.delayTable('B', 16);
    assert.deepEqual([largest.counts.length, largest.window.length, largest.normalForm.length], [257, 16, 256]);
});

test('rewriting', () => {
    assert.deepEqual(w.rewrite('A', 3, [1, 3, 3], 1), { family: 1, i: 3, j: 0, word: [1] });
    assert.equal(w.rewrite('A', 3, [1, 2], 0), null);
    assert.equal(w.rewriteSteps('A', 3, [1, 3, 3]), 3);
    const { steps, word } = w.rewriteToEnd('A', 3, [1, 3, 3]);
    assert.deepEqual(word, [1]);
    let replayed = [1, 3, 3];
    for (const { family, place, length } of steps) {
        const step = w.rewrite('A', 3, replayed, place);
        assert.deepEqual([step.family, step.word.length], [family, length]);
        replayed = step.word;
    }
    assert.deepEqual(replayed, word);
});

test('a rewriting for which the memory has to grow', () => {
    const long = Array.from({ length: 1500 }, (_, i) => 1 + (i * 37) % 64);
    const { steps, word } = w.rewriteToEnd('D', 64, long);
    assert.equal(steps.length, w.rewriteSteps('D', 64, long));
    assert.ok(steps.length > 100000);
    assert.deepEqual(word, w.normalFormOfWord('D', 64, long));
    assert.equal(steps.at(-1).length, word.length);
});

test('shortest words', () => {
    assert.deepEqual(w.fallback('B', 2, [1, 2, 1, 2], [2]).length, 1);
    const form = w.normalFormOfWord('A', 2, [1, 2, 1]);
    const kept = w.fallback('A', 2, [1, 2, 1], [1, 2]);
    assert.equal(w.same('A', 2, kept.map(place => form[place]), 'A', 2, [1, 2]), true);
    assert.equal(w.fallback('A', 2, [1], [2]), null);
    assert.deepEqual(w.split('A', 2, [1], [1, 2, 1]), { first: [1], second: [2, 1] });
    assert.deepEqual(w.split('B', 64, Array.from({ length: 64 }, (_, i) => i + 1), [64, 1]), { first: [64, 1], second: [] });
    assert.deepEqual(w.split('A', 2, new Set(), [1, 2]), { first: [], second: [1, 2] });
    assert.deepEqual(w.between('A', 2, [2, 1], [1, 2, 3], [2, 3, 1]), [1, 2]);
    assert.deepEqual(w.between('A', 2, [], [2, 3, 1], [2, 3, 1]), []);
});

test('books', () => {
    assert.equal(w.bookCheck(1, BOOK), 2);
    assert.equal(w.bookCheck(2, SECOND), 2);
    assert.equal(w.bookCheck(1, []), 0);
    assert.deepEqual(w.preset(1, BOOK, 1), { kind: 'D', rank: 5, word: [5, 2, 3, 5, 1, 2] });
    assert.deepEqual(w.preset(2, Uint8Array.from(SECOND), 0), { kind: 'B', rank: 2, word: [1, 2, 1, 2] });
    assert.deepEqual(w.append(1, w.append(1, [], 'B', 2, [1, 2, 1, 2]), 'D', 5, [5, 2, 3, 5, 1, 2]), Uint8Array.from(BOOK));
    assert.deepEqual(w.append(2, w.append(2, [], 2, 2, [1, 2, 1, 2]), 3, 5, [5, 2, 3, 5, 1, 2]), Uint8Array.from(SECOND));
    assert.deepEqual(w.convert(1, BOOK), Uint8Array.from(SECOND));
    assert.deepEqual(w.convert(2, SECOND), Uint8Array.from(BOOK));
    assert.deepEqual(w.convert(1, []), new Uint8Array(0));
});

test('lists of presets, refused ones among them', () => {
    const second = { number: 1, refusal: null, kind: 'D', rank: 5, word: [5, 2, 3, 5, 1, 2] };
    const listed = w.presets(1, BOOK);
    assert.equal(listed.length, 2);
    assert.deepEqual(listed[1], second);
    assert.deepEqual(w.presets(1, BOOK, 1), [second]);
    assert.deepEqual(w.presets(1, BOOK, 0, 1), [listed[0]]);
    assert.deepEqual(w.presets(1, BOOK, 2), []);
    assert.deepEqual(w.presets(1, BOOK, 0, 0), []);
    assert.deepEqual(w.presets(2, []), []);
    assert.equal(refusal(() => w.presets(1, BOOK, 3)), 4);
    const changed = Uint8Array.from(BOOK);
    changed[4] = 3;
    const [refused, kept] = w.presets(1, changed);
    assert.equal(refused.number, 0);
    assert.ok(refused.refusal instanceof Refusal);
    assert.equal(refused.refusal.number, 8);
    assert.deepEqual(kept, second);
});

// ---- edits of books

/** The cases that all bindings are held to. */
function storedEdits() {
    const letters = text => {
        const [letter, times] = text.split('x');
        return times ? new Array(Number(times)).fill(Number(letter)) : text.split('.').filter(Boolean).map(Number);
    };
    const presetOf = text => {
        const [, kind, rank, word] = text.match(/^([ABD])(\d+):(.*)$/);
        return { kind, rank: Number(rank), word: letters(word) };
    };
    const lines = readFileSync(new URL('tests/books/edits', root), 'utf8').trimEnd().split('\n');
    return lines.filter(line => !line.startsWith('#')).map(line => {
        const [, edition, hex, name, list, outcome] = line.match(/^(\d) (\S+) (\w+)((?: \S+)*) = (.*)$/);
        const parts = list.split(' ').slice(1).map(part => (part.includes(':') ? presetOf(part) : Number(part)));
        return { line, edition: Number(edition), book: Uint8Array.from(Buffer.from(hex.replace('-', ''), 'hex')), name, parts, outcome };
    });
}

function edited({ edition, book, name, parts }) {
    switch (name) {
        case 'remove': return w.remove(edition, book, parts[0]);
        case 'move_to': return w.moveTo(edition, book, ...parts);
        case 'replace': return w.replace(edition, book, parts[0], parts[1].kind, parts[1].rank, parts[1].word);
        default: return w.appendAll(edition, book, parts);
    }
}

test('edits of books are as stored', () => {
    const cases = storedEdits();
    assert.ok(cases.length > 100);
    for (const stored of cases) {
        const before = Uint8Array.from(stored.book);
        let outcome;
        try {
            outcome = Buffer.from(edited(stored)).toString('hex') || '-';
        } catch (error) {
            assert.ok(error instanceof Refusal, String(error));
            outcome = `refused ${error.number}${error.place === null ? '' : ` at ${error.place}`}`;
        }
        assert.equal(outcome, stored.outcome, stored.line);
        assert.deepEqual(stored.book, before);
    }
});

test('many presets at once are those appended one by one', () => {
    for (const edition of [1, 2]) {
        const words = [[1, 2, 1, 2], '', Uint8Array.of(2), new Array(100).fill(1)];
        const presets = Array.from({ length: 400 }, (_, i) => ({ kind: i % 2 ? 'B' : 2, rank: 2, word: words[i % 4] }));
        let book = new Uint8Array(0);
        for (const { kind, rank, word } of presets) book = w.append(edition, book, kind, rank, word);
        assert.deepEqual(w.appendAll(edition, [], presets), book);
        const half = w.appendAll(edition, [0, 0], presets.slice(0, 200));
        assert.deepEqual(w.appendAll(edition, half, presets.slice(200)), book);
        // Whatever yields presets may call the library, and is stopped where the book is full.
        const yielding = function* () {
            for (let i = 0; ; i++) yield { kind: 'D', rank: 5, word: w.normalFormOfWord('D', 5, [1 + i % 5, 1 + i % 3]) };
        };
        assert.equal(refusal(() => w.appendAll(edition, [], yielding())), 13);
        // To the last byte.
        const head = edition === 1 ? 4 : 5;
        const longest = { kind: 'A', rank: 2, word: new Uint8Array(4096).fill(1) };
        const rest = new Array(MAX_BOOK - 2 - 15 * (4096 + head + 2) - head - 2).fill(1);
        const full = w.appendAll(edition, [], [...new Array(15).fill(longest), { kind: 'A', rank: 2, word: rest }]);
        assert.equal(full.length, MAX_BOOK);
        const over = [...new Array(15).fill(longest), { kind: 'A', rank: 2, word: [...rest, 1] }];
        assert.throws(() => w.appendAll(edition, [], over), { name: 'Refusal', number: Refused.BOOK_FULL, place: 15 });
        assert.equal(refusal(() => w.appendAll(edition, full, [{ kind: 'A', rank: 2, word: [] }])), 13);
        assert.equal(refusal(() => w.replace(edition, full, 15, 'A', 2, [...rest, 1])), 13);
        assert.equal(w.replace(edition, full, 15, 'A', 2, rest.slice(1)).length, MAX_BOOK - 1);
    }
    assert.throws(() => w.appendAll(1, [], 5), TypeError);
    assert.throws(() => w.appendAll(1, [], [{ kind: 'A', rank: 2, word: [256] }]), RangeError);
    assert.throws(() => w.remove(1, BOOK, -1), { name: 'RangeError', message: /^number is not/ });
    assert.throws(() => w.moveTo(1, BOOK, 0, '1'), { name: 'TypeError', message: /^to is not a number/ });
});

// ---- memory

test('the memory does not grow, whatever is called', async () => {
    const fresh = await load(wasm);
    const size = () => fresh.exports.memory.buffer.byteLength;
    const stands = size();
    const long = Array.from({ length: 1500 }, (_, i) => 1 + (i * 37) % 64);
    const book = fresh.appendAll(1, [], Array.from({ length: 10922 }, () => ({ kind: 'A', rank: 2, word: [] })));
    assert.equal(book.length, 10922 * 6 + 2);
    for (let i = 0; i < 20; i++) {
        assert.ok(fresh.rewriteToEnd('D', 64, long).steps.length > 100000);
        assert.equal(fresh.presets(1, book).length, 10922);
        fresh.convert(1, BOOK);
        for (let j = 0; j < 500; j++) fresh.normalFormOfWord('D', 64, long);
    }
    assert.equal(size(), stands);
    assert.ok(stands <= 1 << 20, String(stands));
    // By hand, without the module, it has nowhere else to go.
    const { instance } = await WebAssembly.instantiate(readFileSync(wasm));
    assert.deepEqual(new Winnathey(instance.exports).rewriteToEnd('D', 64, long), fresh.rewriteToEnd('D', 64, long));
});

test('no more of a list is read than the library has to see', () => {
    const endless = value => new Proxy([], { get: (_, key) => (key === 'length' ? 2 ** 40 : key === Symbol.iterator ? undefined : value) });
    assert.equal(refusal(() => w.windowOfWord('A', 2, endless(1))), 7);
    assert.equal(refusal(() => w.lengthOfWindow('A', 2, endless(1))), 9);
    assert.equal(refusal(() => w.bookCheck(1, endless(0))), 1);
    const steps = function* () {
        for (;;) yield 1;
    };
    assert.throws(() => w.split('A', 2, steps(), []), { name: 'RangeError', message: 'there are more than 4096 allowed steps' });
});

// ---- every refusal

test('every refusal, by its number and message', () => {
    const full = new Uint8Array(65533);
    full.set([1, 2, 0xf5, 0xff]); // one record of 65,525 letters
    full[65531] = 1;
    const refused = {
        1: () => w.bookCheck(1, [0]),
        2: () => w.bookCheck(1, [1, 0]),
        3: () => w.bookCheck(2, [0, 0, 0]),
        4: () => w.preset(1, BOOK, 2),
        5: () => w.windowOfWord(4, 2, []),
        6: () => w.windowOfWord('D', 3, []),
        7: () => w.normalFormOfWord('A', 2, TOO_LONG),
        8: () => w.lengthOfWord('A', 2, [3]),
        9: () => w.lengthOfWindow('A', 2, [1, 2]),
        10: () => w.inverseOfWindow('B', 2, [1, 1]),
        11: () => w.normalFormOfWindow('D', 4, [-1, 2, 3, 4]),
        12: () => w.rewrite('A', 2, [1], 1),
        13: () => w.append(1, full, 'A', 2, []),
        16: () => w.split('A', 2, [3], []),
        17: () => w.preset(2, [1, 2, 2, 0, 0, 0, 0, 1, 0], 0),
        18: () => w.convert(2, w.append(2, [], 'B', 33, [])),
        19: () => w.between('A', 2, [1], [1, 2, 3], [1, 3, 2]),
        20: () => w.delayTable('B', 17),
        21: () => w.append(1, BOOK, 'A', 1, []),
    };
    for (const [number, call] of Object.entries(refused)) assert.equal(refusal(call), Number(number));

    // The two that concern short outputs, for which the functions above always have room.
    const { memory, __heap_base, winnathey_window_of_word, winnathey_rewrite_to_end } = w.exports;
    const at = __heap_base.value;
    new Uint8Array(memory.buffer, at, 2).set([1, 1]);
    assert.equal(winnathey_window_of_word(1, 2, at, 2n, at + 8, 2n), -14n);
    assert.equal(winnathey_rewrite_to_end(1, 2, at, 2n, 0, 0n, 0, 0n, 0, 0n, at + 8, 2n, at + 16, 1n), -15n);

    const names = readFileSync(new URL('include/winnathey.h', root), 'utf8').matchAll(/^#define WINNATHEY_REFUSED_(\w+) (\d+)$/gm);
    assert.deepEqual({ ...Refused }, Object.fromEntries([...names].map(([, name, number]) => [name, Number(number)])));
    assert.ok(Object.isFrozen(Refused));

    const seen = [...Object.keys(refused).map(Number), 14, 15].sort((a, b) => a - b);
    assert.deepEqual(seen, Array.from({ length: 21 }, (_, i) => i + 1));
});

test('the messages are those of CALLS.md', () => {
    const page = readFileSync(new URL('docs/CALLS.md', root), 'utf8');
    const section = page.split('\n## Refusals\n')[1].split('\n## ')[0];
    const rows = [...section.matchAll(/^\| (\d+) \| (.*) \|$/gm)];
    assert.equal(rows.length, 21);
    for (const [, number, message] of rows) assert.equal(w.refusalMessage(Number(number)), message);
    for (const number of [0, 22, 261, 0xffffffff]) assert.equal(w.refusalMessage(number), '');
    assert.throws(() => w.refusalMessage(-1), RangeError);
});

test('a refused call leaves the library as it was', () => {
    for (let i = 0; i < 3; i++) {
        assert.equal(refusal(() => w.normalFormOfWord('D', 5, [6])), 8);
        assert.deepEqual(w.normalFormOfWord('D', 5, D5), [5, 2, 3, 5, 1, 2]);
    }
});

// ---- what never reaches the library

test('what is no kind, rank, byte, step, place or edition is named', () => {
    const wrong = [
        [() => w.windowOfWord('C', 2, []), RangeError, /^kind is not 'A', 'B' or 'D': "C"$/],
        [() => w.windowOfWord(null, 2, []), TypeError, /^kind is not a number: null$/],
        [() => w.windowOfWord('A', -1, []), RangeError, /^rank is not an integer from 0 to 4294967295: -1$/],
        [() => w.windowOfWord('A', '2', []), TypeError, /^rank is not a number: "2"$/],
        [() => w.windowOfWord('A', 2, [1, 256]), RangeError, /^word\[1\] is not an integer from 0 to 255: 256$/],
        [() => w.windowOfWord('A', 2, [1.5]), RangeError, /^word\[0\] is not/],
        [() => w.windowOfWord('A', 2, [NaN]), RangeError, /^word\[0\] is not/],
        [() => w.windowOfWord('A', 2, ['1']), TypeError, /^word\[0\] is not a number: "1"$/],
        [() => w.windowOfWord('A', 2, [1n]), TypeError, /^word\[0\] is not a number: 1$/],
        [() => w.windowOfWord('A', 2, [, 1]), TypeError, /^word\[0\] is not a number: undefined$/],
        [() => w.windowOfWord('A', 2), TypeError, /^word is not a list: undefined$/],
        [() => w.windowOfWord('A', 2, 12), TypeError, /^word is not a list: 12$/],
        [() => w.windowOfWord('A', 2, [true]), TypeError, /^word\[0\] is not a number: true$/],
        [() => w.windowOfWord('A', 2, [-1]), RangeError, /^word\[0\] is not an integer from 0 to 255: -1$/],
        [() => w.windowOfWord('AB', 2, []), RangeError, /^kind is not 'A', 'B' or 'D': "AB"$/],
        [() => w.windowOfWord(true, 2, []), TypeError, /^kind is not a number: true$/],
        [() => w.lengthOfWindow('A', 2, [1, 2, 128]), RangeError, /^window\[2\] is not an integer from -128 to 127: 128$/],
        [() => w.rewrite('A', 2, [1], -1), RangeError, /^place is not/],
        [() => w.rewrite('A', 2, [1], 2 ** 53), RangeError, /^place is not/],
        [() => w.split('A', 2, [0], []), RangeError, /^an allowed step is not an integer from 1 to 64: 0$/],
        [() => w.split('A', 2, [65], []), RangeError, /^an allowed step is not/],
        [() => w.split('A', 2, 3n, []), TypeError, /^the allowed steps are not a list: 3$/],
        [() => w.bookCheck(3, []), RangeError, /^the edition is not 1 or 2: 3$/],
        [() => w.bookCheck('first', []), RangeError, /^the edition is not 1 or 2: "first"$/],
    ];
    for (const [call, type, message] of wrong) {
        assert.throws(call, error => error.constructor === type && message.test(error.message), String(call));
    }
    // Numbers that could be kinds, ranks or letters are the library's to refuse.
    assert.equal(refusal(() => w.windowOfWord(0xffffffff, 2, [])), 5);
    assert.equal(refusal(() => w.windowOfWord('A', 0xffffffff, [])), 6);
    assert.equal(refusal(() => w.windowOfWord('A', 2, [0])), 8);
    assert.equal(refusal(() => w.lengthOfWindow('B', 2, [-128, 1])), 10);
});

// ---- random words, beside the definition of a window in plain JavaScript

test('20,000 random words show what the steps do one by one', () => {
    let state = 1;
    const below = n => (state = (Math.imul(state, 1664525) + 1013904223) >>> 0) % n;
    for (let round = 0; round < 20000; round++) {
        const kind = 'ABD'[below(3)];
        const least = { A: 1, B: 2, D: 4 }[kind];
        const rank = least + below(below(8) === 0 ? 60 : 8);
        const lanes = kind === 'A' ? rank + 1 : rank;
        const word = Array.from({ length: below(60) }, () => 1 + below(rank));
        const window = Array.from({ length: lanes }, (_, i) => i + 1);
        for (const step of word) {
            const [a, b] = [window[step - 1], window[step]];
            if (kind === 'A' || step < rank) [window[step - 1], window[step]] = [b, a];
            else if (kind === 'B') window[rank - 1] = -window[rank - 1];
            else [window[rank - 2], window[rank - 1]] = [-window[rank - 1], -window[rank - 2]];
        }
        assert.deepEqual(w.windowOfWord(kind, rank, word), window);
        const form = w.normalFormOfWord(kind, rank, word);
        assert.deepEqual(w.normalFormOfWindow(kind, rank, window), form);
        assert.deepEqual(w.windowOfWord(kind, rank, form), window);
        assert.equal(w.lengthOfWindow(kind, rank, window), form.length);
    }
});

// ---- the stored answers of the C test, by the module's own calls

test('the calls of tests/calls.c have their stored answers', () => {
    const source = readFileSync(new URL('tests/calls.c', root), 'utf8');
    const header = readFileSync(new URL('include/winnathey.h', root), 'utf8');
    const stored = readFileSync(new URL('tests/calls.stdout', root), 'utf8').trimEnd().split('\n');

    // What each call takes: i32 for numbers of 32 bits and pointers, i64 for the rest.
    const parameters = new Map([...header.matchAll(/^int64_t (winnathey_\w+)\(([^;]*)\);/gm)].map(([, name, list]) =>
        [name, list === 'void' ? [] : list.split(',').map(p => /\*/.test(p) || /uint32_t/.test(p) ? Number : BigInt)]));

    // The inputs: the constants of the file, and the two large books that its main makes.
    const inputs = new Map([...source.matchAll(/\b(\w+)\[\d*\] = \{([^}]*)\}/g)].map(([, name, list]) =>
        [name, list.split(',').map(Number)]));
    inputs.set('too_long', new Array(4097).fill(0));
    const full = new Array(65533).fill(0);
    [full[0], full[1], full[2], full[3], full[65531]] = [1, 1, 0xf5, 0xff, 1];
    inputs.set('full', full);
    const heads = new Array(56174).fill(0);
    for (let k = 0; k < 9362; k++) {
        heads[4 * k] = heads[4 * k + 1] = 2;
        heads[4 * 9362 + 2 * k] = (4 * k) & 0xff;
        heads[4 * 9362 + 2 * k + 1] = (4 * k) >> 8;
    }
    heads[56172] = 9362 & 0xff;
    heads[56173] = 9362 >> 8;
    inputs.set('heads', heads);
    const outputs = {
        lanes: Int8Array,
        bytes: Uint8Array,
        rule: Uint8Array,
        fields: BigUint64Array,
        counts: BigUint64Array,
        places: Uint16Array,
        sizes: Uint16Array,
    };
    const ROOM = 40;

    const { memory, __heap_base, ...calls } = w.exports;
    const at = new Map();
    let end = __heap_base.value;
    const place = (name, size) => {
        at.set(name, end = (end + 7) & ~7);
        end += size;
    };
    for (const name of Object.keys(outputs)) place(name, 8 * ROOM);
    for (const [name, list] of inputs) place(name, list.length);
    memory.grow(Math.max(0, Math.ceil((end - memory.buffer.byteLength) / 65536)));
    for (const [name, list] of inputs) new Uint8Array(memory.buffer).set(list.map(x => x & 0xff), at.get(name));

    const value = text => {
        if (at.has(text)) return BigInt(at.get(text));
        if (text === 'NULL') return 0n;
        if (text === 'ROOM') return BigInt(ROOM);
        if (text === 'UINT32_MAX') return 0xffffffffn;
        if (text === 'UINT64_MAX' || text === 'SIZE_MAX') return 0xffffffffffffffffn;
        if (text === 'UINT64_C(1) << 63') return 1n << 63n;
        if (text.startsWith('sizeof ')) return BigInt(inputs.get(text.slice(7)).length);
        return BigInt(text);
    };
    const called = new Set();
    for (const line of stored) {
        const message = line.match(/^refusal (\d+): (.*)$/);
        if (message) {
            assert.equal(w.refusalMessage(Number(message[1])), message[2]);
            continue; // it is written where the outputs lie, which are filled anew below
        }
        const [, text, name, list] = line.match(/^((\w+)\((.*)\)) = /);
        for (const output of Object.keys(outputs)) {
            const type = outputs[output];
            new Uint8Array(memory.buffer, at.get(output), ROOM * type.BYTES_PER_ELEMENT).fill(0x5a);
        }
        const types = parameters.get(name);
        const passed = (list === '' ? [] : list.split(', ')).map((text, i) => types[i](value(text)));
        const answer = Number(calls[name](...passed));
        let shown = `${text} = ${answer === -100 ? 'none fits' : answer === -101 ? 'no fallback' : answer}`;
        for (const [output, type] of Object.entries(outputs)) {
            const held = Array.from(new type(memory.buffer, at.get(output), ROOM));
            let written = ROOM;
            while (written > 0 && BigInt.asUintN(8, BigInt(held[written - 1])) === 0x5an) written--;
            if (written > 0) shown += `, ${output} ${held.slice(0, written).join(' ')}`;
        }
        assert.equal(shown, line);
        called.add(name);
    }
    assert.deepEqual([...called].sort(), [...parameters.keys()].sort());
});

test('the table of calls and answers', () => {
    console.log(said(runTable(readFileSync(new URL('tests/calls.jsonl', root), 'utf8'), w, Refusal), 'node'));
});

test('each type has its own comment', () => {
    const source = readFileSync(new URL('winnathey.mjs', import.meta.url), 'utf8');
    const comments = source.match(/\/\*\*[^]*?\*\//g).filter(comment => comment.includes('@typedef'));
    assert.ok(comments.length >= 12);
    for (const comment of comments) assert.match(comment, /^\/\*\*\n \* [A-Z][^@]*\n \* @typedef [^@]*\*\/$/);
});

test('another module is not taken for the library', async () => {
    const empty = Uint8Array.of(0, 0x61, 0x73, 0x6d, 1, 0, 0, 0);
    await assert.rejects(load(empty), { name: 'TypeError', message: 'the module is not winnathey.wasm' });
});

test('an instance can be wrapped by hand', async () => {
    const { instance } = await WebAssembly.instantiate(readFileSync(wasm));
    assert.deepEqual(new Winnathey(instance.exports).windowOfWord('A', 1, [1]), [2, 1]);
});
