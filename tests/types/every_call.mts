// Every call of winnathey.mjs, with its types. tests/packages lets tsc check it strictly, and node runs what it becomes.
import { KINDS, MAX_BOOK, MAX_LANES, MAX_NORMAL_FORM, MAX_WORD, Refusal, Refused, Winnathey, load } from 'winnathey';
import type {
    Book, Crossings, DelayTable, Edition, Kind, ListedPreset, NewPreset, Preset, Rewrite, RewriteStep, Rewriting, Split, Steps, Window, Word,
} from 'winnathey';

function assert(holds: boolean, what: string): void {
    if (!holds) throw new Error(what);
}
function equal(one: ArrayLike<number> | null, other: ArrayLike<number> | null, what: string): void {
    assert(one !== null && other !== null && Array.from(one).join() === Array.from(other).join(), what);
}

const w: Winnathey = await load();
const kind: Kind = 'D';
const word: Word = [4, 4, 2, 5, 3, 5, 1, 2];
const simpler: Word = '5 2 3';
const identity: Window = Int8Array.of(1, 2, 3, 4, 5);
const allowed: Steps = new Set([1, 2, 3, 4, 5]);

// ---- words and windows
const window: number[] = w.windowOfWord(kind, 5, word);
const form: number[] = w.normalFormOfWord(kind, 5, word);
equal(w.normalFormOfWindow(kind, 5, window), form, 'the normal form of the window');
equal(w.productOfWindows(kind, 5, window, identity), window, 'the product with the identity');
equal(w.windowOfWord(kind, 5, w.inverseOfWord(kind, 5, word)), w.inverseOfWindow(kind, 5, window), 'the inverse');
const product: number[] = w.productOfWords(kind, 5, word, simpler);
const length: number = w.lengthOfWord(kind, 5, word) + w.lengthOfWindow(kind, 5, window);
const counts: Crossings = w.crossingsOfWord(kind, 5, word);
assert(length === counts.total + w.crossingsOfWindow(kind, 5, window).total, 'the lengths');
const table: DelayTable = w.delayTable(kind, 5);
assert(table.counts.reduce((sum: bigint, count: bigint) => sum + count) === 1920n, 'the windows of D5');
assert(w.same(kind, 5, word, 3, 5, form) && product.length > 0, 'the two look alike');
const better: number[] | null = w.better(kind, 5, word, form);
equal(better, form, 'the better word');

// ---- rewriting, fallbacks, allowed steps
const one: Rewrite | null = w.rewrite(kind, 5, word, 0);
const rewriting: Rewriting = w.rewriteToEnd(kind, 5, word);
const step: RewriteStep | undefined = rewriting.steps[0];
assert(one !== null && one.family === step?.family && w.rewriteSteps(kind, 5, word) === rewriting.steps.length, 'the rewriting');
const places: number[] | null = w.fallback(kind, 5, word, simpler);
const parts: Split = w.split(kind, 5, [1, 2], word);
assert(places !== null && parts.first.length + parts.second.length === form.length, 'fallback and split');
equal(w.between(kind, 5, allowed, identity, window), form, 'the path');

// ---- books
const edition: Edition = 1;
const added: NewPreset = { kind, rank: 5, word };
let book: Uint8Array = w.append(edition, [], kind, 5, word);
book = w.appendAll(edition, book, [added, { kind: 'B', rank: 2, word: '1 2 1 2' }]);
book = w.replace(edition, book, 0, 'A', 2, [1]);
book = w.moveTo(edition, book, 0, 2);
book = w.remove(edition, book, 0);
const converted: Book = w.convert(edition, book);
assert(w.bookCheck(2, converted) === 2, 'the converted book');
const last: Preset = w.preset(edition, book, 1);
assert(last.kind === KINDS[1] && last.rank === 2, 'the last preset');
const listed: ListedPreset[] = w.presets(edition, book, 1, 5);
for (const preset of listed) {
    if (preset.refusal === null) equal(preset.word, last.word, 'the listed preset');
    else assert(false, preset.refusal.message);
}

// ---- refusals, limits, the module itself
try {
    w.windowOfWord('B', 2, [1, 2, 3]);
    assert(false, 'no refusal');
} catch (error) {
    if (!(error instanceof Refusal)) throw error;
    const place: number | null = error.place;
    assert(error.number === Refused.LETTER && place === null && error.text === w.refusalMessage(error.number), 'the refusal');
}
equal([MAX_LANES, MAX_WORD, MAX_NORMAL_FORM, MAX_BOOK], [64, 4096, 4096, 65535], 'the limits');
assert(w.exports.memory instanceof WebAssembly.Memory && /^\d+\.\d+\.\d+$/.test(w.version()), 'the module');
