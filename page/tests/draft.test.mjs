// The draft: what is worked on comes back as it was, and what cannot be read is none.
import assert from 'node:assert/strict';
import { test } from 'node:test';
import { draftOf, readDraft } from '../src/draft.mjs';
import { NO_NAMES, nameOf, withName } from '../src/names.mjs';
import { FIRST_STATE, presetOf } from '../src/state.mjs';
import { library } from './library.mjs';

const about = { saved: false, typed: null, time: 5 };

test('a state comes back as it was', () => {
    const bytes = library.append(2, [], 'D', 5, [5, 2]);
    const names = withName(NO_NAMES, 'source', 1, 'Kran \u{1f69c} hinten');
    const state = { ...FIRST_STATE, word: [5, 2], names, book: { name: 'cabin.book', edition: 2, bytes }, kept: presetOf({ kind: 'D', rank: 5, word: [5, 2] }, 0) };
    const draft = readDraft(library, draftOf(state, { ...about, typed: '5 2 x' }));
    assert.deepEqual([draft.time, draft.saved, draft.typed], [5, false, '5 2 x']);
    for (const part of ['kind', 'rank', 'word', 'book', 'kept']) assert.deepEqual(draft.state[part], state[part]);
    assert.equal(nameOf(draft.state.names, 'source', 1), 'Kran \u{1f69c} hinten');
    const large = { ...state, book: { name: 'x', edition: 2, bytes: new Uint8Array(0) }, word: Array(4096).fill(3) };
    assert.equal(readDraft(library, draftOf(large, about)).state.word.length, 4096);
});

test('nothing worked on, and what the library does not take, is no draft', () => {
    assert.equal(readDraft(library, draftOf(FIRST_STATE, about)), null);
    const text = draftOf({ ...FIRST_STATE, word: [1] }, about);
    assert.notEqual(readDraft(library, text), null);
    for (const wrong of ['', '{', 'null', '{}', text.replace('"rank":5', '"rank":3'), text.replace('[1]', '[9]'), text.replace('"bytes":""', '"bytes":"eA=="')]) {
        assert.equal(readDraft(library, wrong), null, wrong);
    }
});
