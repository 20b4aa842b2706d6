// Books: what the page says of them is what the library says.
import assert from 'node:assert/strict';
import { readFileSync, readdirSync } from 'node:fs';
import { test } from 'node:test';
import { convertedName, countText, editionsOf, presetIn, refusedText, tooManyLanes, verdictsOf } from '../src/book.mjs';
import { isNamesFile } from '../src/files.mjs';
import { toldText } from '../src/plain.mjs';
import { manyBooks } from './books.mjs';
import { library, root } from './library.mjs';

test('the books of the tests are right and damaged ones of either edition', () => {
    const books = manyBooks();
    const refused = books.filter(book => book.editions.length === 0);
    assert.ok(books.length === 200 && refused.length > 40 && refused.length < 120);
    for (const edition of [1, 2]) assert.ok(books.filter(book => String(book.editions) === String(edition) && book.rows.length > 0).length > 30);
    assert.ok(books.some(book => book.rows.some(row => row.startsWith('refused'))));
});

test('the edition of a book is the one whose check passes; the few with two or none are told apart in words', () => {
    const first = library.append(1, [], 'D', 5, [5, 2]);
    const none = new Uint8Array(0);
    assert.deepEqual(editionsOf(verdictsOf(library, first)), [1]);
    assert.deepEqual(editionsOf(verdictsOf(library, library.convert(1, first))), [2]);
    assert.deepEqual(editionsOf(verdictsOf(library, none)), [1, 2]);
    assert.deepEqual(editionsOf(verdictsOf(library, [1])), []);
    assert.equal(countText(library, { edition: 1, bytes: first }), '1 preset, first edition');
    assert.equal(countText(library, { edition: 2, bytes: none }), '0 presets, second edition');
    const damaged = readFileSync(`${root}tests/books/refused/8-letter.first`);
    assert.match(countText(library, { edition: 1, bytes: damaged }), /1 of them damaged, first edition/);
    assert.equal(refusedText(verdictsOf(library, [1])), toldText({ number: 1, text: library.message(1) }));
    assert.equal(refusedText(verdictsOf(library, [9, 9, 9, 9])).split(library.message(2)).length, 2);
});

test('a converted book has a file name of its own', () => {
    assert.equal(convertedName('cabin.book', 2), 'cabin-second-edition.book');
    assert.equal(convertedName('cabin-second-edition.book', 1), 'cabin-first-edition.book');
    assert.equal(convertedName('cabin', 1), 'cabin-first-edition');
    assert.equal(convertedName('a.b.book', 1), 'a.b-first-edition.book');
});

test('stored books are opened as the edition they are', () => {
    const folder = `${root}tests/books/both/`;
    for (const file of readdirSync(folder)) {
        const edition = file.endsWith('.first') ? 1 : 2;
        const verdicts = verdictsOf(library, readFileSync(folder + file));
        assert.equal(verdicts[edition].refusal, null, file);
    }
});

test('the preset that stands in the way of a conversion is found', () => {
    let book = library.append(2, [], 'D', 5, [1]);
    book = library.append(2, book, 'B', 33, [1]);
    assert.equal(tooManyLanes(library, 2, book), 1);
    const damaged = readFileSync(`${root}tests/books/refused/8-letter.first`);
    assert.ok(tooManyLanes(library, 1, damaged) >= 0);
});

test('a preset is found in a book by its rig and its letters', () => {
    const bytes = library.append(2, library.append(2, [], 'D', 5, [1]), 'D', 5, [5, 2]);
    const number = (kind, rank, word) => presetIn(library, { edition: 2, bytes }, { kind, rank, word })?.number ?? null;
    assert.deepEqual([number('D', 5, [5, 2]), number('D', 6, [5, 2]), number('B', 5, [5, 2]), number('D', 5, [5])], [1, null, null, null]);
    assert.equal(presetIn(library, { edition: 2, bytes: [1] }, { kind: 'D', rank: 5, word: [] }), null);
});

test('names files are known by their name', () => {
    assert.ok(isNamesFile('cabin.book.names') && !isNamesFile('names.book'));
});
