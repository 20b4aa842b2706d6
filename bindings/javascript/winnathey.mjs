/**
 * Winnathey for JavaScript: the proved library, compiled to WebAssembly, for node and browsers.
 *
 *     import { load, Refusal } from './winnathey.mjs';
 *
 *     const w = await load();
 *     w.normalFormOfWord('D', 5, [4, 4, 2, 5, 3, 5, 1, 2]);  // [5, 2, 3, 5, 1, 2]
 *     w.normalFormOfWord('d', 5, '4 4 2 5 3 5 1 2');         // the same
 *
 * Every function takes plain arrays, typed arrays or texts of decimal numbers, and returns new arrays; nothing is kept between
 * calls. A call that the library refuses throws a `Refusal` with the refusal's number and message; `Refused` has the
 * numbers by name. What is no kind, byte, step or place at all never reaches the library: it throws a `TypeError` or a
 * `RangeError` that names the argument.
 *
 * Only this file knows that the library has a memory of its own and counts in 64 bits. Inputs are copied to it,
 * outputs from it: every input is read before anything is written there, so that a list may call the library while it
 * is read. There is room for every answer, so that refusals 14 and 15, which concern short outputs, never
 * come. The memory does not grow: a rewriting that needs more is made in one that is given back.
 * @module winnathey
 */

/**
 * A kind, by its letter, large or small, or by its number: 1 is A, 2 is B, 3 is D. The library refuses any other
 * number (5).
 * @typedef {'A'|'B'|'D'|'a'|'b'|'d'|number} Kind
 */

/**
 * A word: up to 4,096 steps, each from 1 to the rank; as a text with blanks (spaces, tabs, line ends) or commas between
 * them, `'1 2 3'`.
 * @typedef {ArrayLike<number>|string} Word
 */

/**
 * A window: for each screen the source it shows, negative if mirrored; as a text `'3 -5 1 4 -2'`.
 * @typedef {ArrayLike<number>|string} Window
 */

/**
 * A set of allowed steps, as a list of steps from 1 to 64 in any order, or a text `'1 2 5'`.
 * @typedef {Iterable<number>|string} Steps
 */

/**
 * The bytes of a preset book, at most 65,535. The functions that make a book return a `Uint8Array`.
 * @typedef {ArrayLike<number>} Book
 */

/**
 * The edition of a book.
 * @typedef {1|2} Edition
 */

/**
 * The length of a normal form as its three counts: plain pairs, pairs against a mirrored lane, mirrored lanes, and
 * their sum.
 * @typedef {{inversions: number, negativeSumPairs: number, negatives: number, total: number}} Crossings
 */

/**
 * How many windows have each length, from 0 to the greatest, exactly (some exceed 2^53); the window with the greatest
 * length, and its normal form.
 * @typedef {{counts: bigint[], window: number[], normalForm: number[]}} DelayTable
 */

/**
 * A rule that was used, by family, i and j, and the word afterwards.
 * @typedef {{family: number, i: number, j: number, word: number[]}} Rewrite
 */

/**
 * A rewriting: of each step the rule's family, the place, which counts from 0, and the word's length afterwards; and
 * the final word, which is the normal form.
 * @typedef {{steps: {family: number, place: number, length: number}[], word: number[]}} Rewriting
 */

/**
 * A preset of a book: its kind, its rank and its word.
 * @typedef {{kind: 'A'|'B'|'D', rank: number, word: number[]}} Preset
 */

/**
 * A preset of a list: its number, and either what it is, or why it is refused.
 * @typedef {{number: number, refusal: null, kind: 'A'|'B'|'D', rank: number, word: number[]}
 *     | {number: number, refusal: Refusal}} ListedPreset
 */

/** The most lanes of a window. */
export const MAX_LANES = 64;
/** The most letters of a word. */
export const MAX_WORD = 4096;
/** The most letters of a normal form. */
export const MAX_NORMAL_FORM = 4096;
/** The most bytes of a book. */
export const MAX_BOOK = 65535;
/** The kinds, by number: `KINDS[1]` is `'A'`. */
export const KINDS = Object.freeze([null, 'A', 'B', 'D']);

/** The numbers of the refusals by the names that the C header has for them, without `WINNATHEY_REFUSED_`. */
export const Refused = Object.freeze({
    BOOK_SIZE: 1,
    BOOK_COUNT: 2,
    BOOK_OFFSET: 3,
    PRESET_NUMBER: 4,
    KIND: 5,
    RANK: 6,
    WORD_LENGTH: 7,
    LETTER: 8,
    WINDOW_LENGTH: 9,
    ENTRY: 10,
    ODD_NEGATIVES: 11,
    PLACE: 12,
    BOOK_FULL: 13,
    OUTPUT: 14,
    STEP_LISTS: 15,
    ALLOWED: 16,
    LANE_COUNT: 17,
    FIRST_EDITION_LANES: 18,
    UNREACHABLE: 19,
    TABLE_RANK: 20,
    RETIRED_PRESET: 21,
});

/** What the calls return if no rule fits, and if there is no fallback. */
const NONE_FITS = -100;
const NO_FALLBACK = -101;
/** Room for the longest message of a refusal. */
const MAX_MESSAGE = 256;
/** The most counts of a delay table. */
const MAX_TABLE_COUNTS = 257;
/** How many numbers the library gives for each preset of a list. */
const PRESET_FIELDS = 5;
/** Bytes of an offset of a book and of its count; what stands behind the only record of a book; a record at most. */
const OFFSET = 2;
const TRAILER = 2 * OFFSET;
const MAX_RECORD = 5 + MAX_WORD;

/** A call that the library refused. */
export class Refusal extends Error {
    /**
     * @param {number} number the refusal's number, from 1 to 21
     * @param {string} text what it says
     * @param {?number} [place] which of several presets it concerns, from 0
     */
    constructor(number, text, place = null) {
        super(`refused ${number}: ${text}${place === null ? '' : ` (preset ${place} of the list)`}`);
        this.name = 'Refusal';
        /** The refusal's number, from 1 to 21: one of `Refused`. */
        this.number = number;
        /** What it says, as the library words it. */
        this.text = text;
        /** Of `appendAll` the place of the preset in the list, from 0; otherwise null. */
        this.place = place;
    }
}

// ---- what is passed on

/** What a value is, for a message: cut short, and without a word for one that cannot be made a text. */
function shown(value) {
    let text;
    try {
        text = typeof value === 'string' ? JSON.stringify(value.slice(0, 60)) : String(value);
    } catch {
        text = typeof value === 'function' ? 'a function' : 'an object';
    }
    return text.length > 60 ? `${text.slice(0, 56)} ..` : text;
}

/** An integer from `least` to `most`. */
function integer(name, value, least, most) {
    if (typeof value !== 'number') throw new TypeError(`${name} is not a number: ${shown(value)}`);
    if (!Number.isInteger(value) || value < least || value > most) {
        throw new RangeError(`${name} is not an integer from ${least} to ${most}: ${value}`);
    }
    return value;
}

function kindNumber(name, kind) {
    switch (kind) {
        case 'A': case 'a': return 1;
        case 'B': case 'b': return 2;
        case 'D': case 'd': return 3;
    }
    if (typeof kind === 'string') throw new RangeError(`${name} is not 'A', 'B' or 'D': ${shown(kind)}`);
    return integer(name, kind, 0, 0xffffffff);
}

function rankNumber(name, rank) {
    return typeof rank === 'number' && rank >>> 0 === rank ? rank : integer(name, rank, 0, 0xffffffff);
}

function placeNumber(name, place) {
    return BigInt(integer(name, place, 0, Number.MAX_SAFE_INTEGER));
}

function isFirst(edition) {
    if (edition !== 1 && edition !== 2) throw new RangeError(`the edition is not 1 or 2: ${shown(edition)}`);
    return edition === 1;
}

/**
 * The numbers of a text, with blanks between them, or commas, around which there may be blanks. The blanks are these in
 * every language, and no others that Unicode has.
 */
function numbersOf(name, text, least, most) {
    if (/^[ \t\n\r]*$/.test(text)) return [];
    // Between two commas stands a number at least.
    const parts = text.split(',').flatMap(part => part.replace(/^[ \t\n\r]+|[ \t\n\r]+$/g, '').split(/[ \t\n\r]+/));
    return parts.map((part, i) => {
        const number = (least < 0 ? /^-?[0-9]+$/ : /^[0-9]+$/).test(part) ? Number(part) : NaN;
        if (number >= least && number <= most) return number;
        throw new RangeError(`${name}[${i}] is not an integer from ${least} to ${most}: ${shown(part)}`);
    });
}

/** A set of steps as 64 bits, bit 0 for step 1. */
function stepBits(steps) {
    if (typeof steps === 'string') steps = numbersOf('allowed', steps, 1, 64);
    if (steps === null || typeof steps !== 'object' || typeof steps[Symbol.iterator] !== 'function') {
        throw new TypeError(`the allowed steps are not a list: ${shown(steps)}`);
    }
    let [low, high, count] = [0, 0, 0];
    for (const step of steps) {
        integer('an allowed step', step, 1, 64);
        if (++count > MAX_WORD) throw new RangeError(`there are more than ${MAX_WORD} allowed steps`);
        if (step <= 32) low |= 1 << (step - 1);
        else high |= 1 << (step - 33);
    }
    return BigInt(high >>> 0) << 32n | BigInt(low >>> 0);
}

/** Small lengths in 64 bits, made once. */
const SMALL = Array.from({ length: 65 }, (_, length) => BigInt(length));

function long(length) {
    return length <= 64 ? SMALL[length] : BigInt(length);
}

/** How many elements of a list are looked at: no more than `most`, which the library refuses. */
function lengthOf(name, list, most) {
    const length = list !== null && typeof list === 'object' ? list.length : undefined;
    if (!Number.isInteger(length) || length < 0) throw new TypeError(`${name} is not a list: ${shown(list)}`);
    return length < most ? length : most;
}

/**
 * The bytes of a list, up to `most` of them, in one that nobody else has. Reading a list may run code of the caller's,
 * which may call the library: so each is read whole before anything is written to the library's memory.
 */
function bytesOf(name, list, most) {
    if (typeof list === 'string') list = numbersOf(name, list, 0, 255);
    const length = lengthOf(name, list, most);
    if (length > 64 && length < most && list instanceof Uint8Array && ArrayBuffer.isView(list)) return new Uint8Array(list);
    const bytes = length > 64 ? new Uint8Array(length) : new Array(length);
    for (let i = 0; i < length; i++) {
        const byte = list[i];
        if (typeof byte !== 'number' || (byte & 0xff) !== byte) integer(`${name}[${i}]`, byte, 0, 255);
        bytes[i] = byte;
    }
    return bytes;
}

function wordOf(name, word) {
    return bytesOf(name, word, MAX_WORD + 1);
}

function bookOf(book) {
    if (typeof book === 'string') throw new TypeError(`book is not a list: ${shown(book)}`);
    return bytesOf('book', book, MAX_BOOK + 1);
}

/** The entries of a window, read in the same way. */
function windowOf(name, window) {
    if (typeof window === 'string') window = numbersOf(name, window, -128, 127);
    const length = lengthOf(name, window, MAX_LANES + 1);
    const entries = new Array(length);
    for (let i = 0; i < length; i++) {
        const entry = window[i];
        if (typeof entry !== 'number' || (entry << 24 >> 24) !== entry) integer(`${name}[${i}]`, entry, -128, 127);
        entries[i] = entry;
    }
    return entries;
}

// ---- the library's memory

/** Where inputs and outputs lie, counted from where the memory is free; each at a multiple of 8. */
const ONE = 0;
const TWO = ONE + 4104;
const OUT = TWO + 4104;
const OUT_TWO = OUT + 4096;
const PLACES = OUT_TWO + 4096;
const COUNTS = PLACES + 2 * MAX_NORMAL_FORM;
const LENGTHS = COUNTS + 8 * MAX_TABLE_COUNTS;
const BOOK = LENGTHS + 8 * 5;
const NEW_BOOK = BOOK + 65536;
const REST = NEW_BOOK + 65536 + 8 * Math.ceil((MAX_RECORD + TRAILER) / 8);
/** With room for all presets of the largest book. */
const STANDING = REST + 8 * PRESET_FIELDS * Math.ceil(MAX_BOOK / 6);

/** An instance of the module, its memory, and what is put there and taken from there. */
class Memory {
    constructor(exports, room) {
        this.calls = exports;
        this.memory = exports.memory;
        this.base = (exports.__heap_base.value + 7) & ~7;
        const missing = this.base + room - this.memory.buffer.byteLength;
        if (missing > 0) this.memory.grow(Math.ceil(missing / 65536));
        this.#map();
    }

    /** Looks at the memory again if somebody else made it grow: what was seen of it then is empty. */
    look() {
        if (this.u8.length === 0) this.#map();
        return this;
    }

    #map() {
        const { buffer } = this.memory;
        this.u8 = new Uint8Array(buffer);
        this.i8 = new Int8Array(buffer);
        this.u16 = new Uint16Array(buffer);
        this.u32 = new Uint32Array(buffer);
        this.u64 = new BigUint64Array(buffer);
    }

    /** Puts bytes or entries somewhere, and returns how many there are. */
    put(at, elements) {
        const start = this.base + at;
        const { u8 } = this.look();
        const { length } = elements;
        if (length > 64) u8.set(elements, start);
        else for (let i = 0; i < length; i++) u8[start + i] = elements[i];
        return long(length);
    }

    /** Puts the first and the second of two inputs. */
    putBoth(one, two) {
        return [this.put(ONE, one), this.put(TWO, two)];
    }

    /** So many elements of a view from an index on, as an array. */
    static taken(view, from, count) {
        const taken = new Array(count);
        for (let i = 0; i < count; i++) taken[i] = view[from + i];
        return taken;
    }

    bytes(at, count) {
        return Memory.taken(this.u8, this.base + at, count);
    }

    entries(at, count) {
        return Memory.taken(this.i8, this.base + at, count);
    }

    /** A number of 64 bits that has 32 at most. */
    number(at, index) {
        return this.u32[((this.base + at) >> 2) + 2 * index];
    }

    /** A copy of so many bytes. */
    copy(at, count) {
        return this.u8.slice(this.base + at, this.base + at + count);
    }
}

// ---- loading

/** The bytes of the module that a path or a URL names. */
async function fetched(source) {
    const text = String(source);
    const hasScheme = /^[a-z][a-z0-9+.-]+:/i.test(text);
    const isNode = typeof process !== 'undefined' && process.versions?.node !== undefined;
    if (isNode && (!hasScheme || text.startsWith('file:'))) {
        const { readFile } = await import('node:fs/promises');
        return readFile(hasScheme ? new URL(text) : text);
    }
    const response = await fetch(source);
    if (!response.ok) throw new Error(`${text}: ${response.status} ${response.statusText}`);
    return response.arrayBuffer();
}

/**
 * Loads the library.
 * @param {BufferSource|WebAssembly.Module|URL|string} [source] the bytes of `winnathey.wasm`, the compiled module, or its
 *     URL or path; if nothing is given, the file beside this one. In node a string without a scheme is a path, in a
 *     browser it is a URL relative to the page.
 * @returns {Promise<Winnathey>}
 */
export async function load(source = new URL('winnathey.wasm', import.meta.url)) {
    const isText = typeof source === 'string' || source instanceof URL;
    const code = isText ? await fetched(source) : source;
    const module = code instanceof WebAssembly.Module ? code : await WebAssembly.compile(code);
    return new Winnathey((await WebAssembly.instantiate(module)).exports, module);
}

/** The library's calls. `load` makes one. */
export class Winnathey {
    #memory;
    #module;

    /**
     * @param {WebAssembly.Exports} exports the exports of an instance of `winnathey.wasm`
     * @param {?WebAssembly.Module} [module] the compiled module, for rewritings that need more memory than stands; without
     *     it they make the memory of `exports` grow
     */
    constructor(exports, module = null) {
        if (exports?.winnathey_version === undefined) throw new TypeError('the module is not winnathey.wasm');
        this.#memory = new Memory(exports, STANDING);
        this.#module = module;
        Object.freeze(this);
    }

    /**
     * The module's own exports: `memory`, and the calls as `winnathey.h` has them, with pointers as numbers and
     * lengths as BigInts. The memory from `__heap_base` on is the caller's between calls of the functions below,
     * which write there.
     */
    get exports() {
        return this.#memory.calls;
    }

    /** Memory with so much room: the one that stands, or for once another. */
    #room(bytes) {
        if (bytes <= STANDING) return this.#memory.look();
        if (this.#module === null) return new Memory(this.#memory.calls, bytes);
        return new Memory(new WebAssembly.Instance(this.#module).exports, bytes);
    }

    /** The answer of a call, of which a refusal is thrown. */
    #answer(answer) {
        const number = Number(answer);
        if (number < 0 && number > NONE_FITS) throw this.#refusal(-number);
        return number;
    }

    #refusal(number, place = null) {
        return new Refusal(number, this.refusalMessage(number), place);
    }

    // ---- words

    /**
     * The window of a word. Refusals 5 to 8.
     * @param {Kind} kind @param {number} rank @param {Word} word
     * @returns {number[]}
     */
    windowOfWord(kind, rank, word) {
        const m = this.#memory.look();
        const [k, r, length] = [kindNumber('kind', kind), rankNumber('rank', rank), m.put(ONE, wordOf('word', word))];
        const lanes = m.calls.winnathey_window_of_word(k, r, m.base + ONE, length, m.base + OUT, 64n);
        return m.entries(OUT, this.#answer(lanes));
    }

    /**
     * The normal form of a word: the shortest word with its window, and among those the first in the dictionary.
     * Refusals 5 to 8.
     * @param {Kind} kind @param {number} rank @param {Word} word
     * @returns {number[]}
     */
    normalFormOfWord(kind, rank, word) {
        const m = this.#memory.look();
        const [k, r, length] = [kindNumber('kind', kind), rankNumber('rank', rank), m.put(ONE, wordOf('word', word))];
        const letters = m.calls.winnathey_normal_form_of_word(k, r, m.base + ONE, length, m.base + OUT, 4096n);
        return m.bytes(OUT, this.#answer(letters));
    }

    /**
     * The product of two words, the first followed by the second, as a normal form. Refusals 5 to 8.
     * @param {Kind} kind @param {number} rank @param {Word} first @param {Word} second
     * @returns {number[]}
     */
    productOfWords(kind, rank, first, second) {
        const m = this.#memory.look();
        const [k, r] = [kindNumber('kind', kind), rankNumber('rank', rank)];
        const [one, two] = m.putBoth(wordOf('first', first), wordOf('second', second));
        const { base } = m;
        const letters = m.calls.winnathey_product_of_words(k, r, base + ONE, one, base + TWO, two, base + OUT, 4096n);
        return m.bytes(OUT, this.#answer(letters));
    }

    /**
     * The inverse of a word, as a normal form. Refusals 5 to 8.
     * @param {Kind} kind @param {number} rank @param {Word} word
     * @returns {number[]}
     */
    inverseOfWord(kind, rank, word) {
        const m = this.#memory.look();
        const [k, r, length] = [kindNumber('kind', kind), rankNumber('rank', rank), m.put(ONE, wordOf('word', word))];
        const letters = m.calls.winnathey_inverse_of_word(k, r, m.base + ONE, length, m.base + OUT, 4096n);
        return m.bytes(OUT, this.#answer(letters));
    }

    /**
     * The length of a word's normal form. Refusals 5 to 8.
     * @param {Kind} kind @param {number} rank @param {Word} word
     * @returns {number}
     */
    lengthOfWord(kind, rank, word) {
        const m = this.#memory.look();
        const [k, r, length] = [kindNumber('kind', kind), rankNumber('rank', rank), m.put(ONE, wordOf('word', word))];
        return this.#answer(m.calls.winnathey_length_of_word(k, r, m.base + ONE, length));
    }

    /** The three counts of a length that a call wrote. */
    #crossings(m, answer) {
        const total = this.#answer(answer);
        const [inversions, negativeSumPairs, negatives] = [0, 1, 2].map(index => m.number(COUNTS, index));
        return { inversions, negativeSumPairs, negatives, total };
    }

    /**
     * The crossings of a word: the length of its normal form as three counts. Refusals 5 to 8.
     * @param {Kind} kind @param {number} rank @param {Word} word
     * @returns {Crossings}
     */
    crossingsOfWord(kind, rank, word) {
        const m = this.#memory.look();
        const [k, r, length] = [kindNumber('kind', kind), rankNumber('rank', rank), m.put(ONE, wordOf('word', word))];
        return this.#crossings(m, m.calls.winnathey_crossings_of_word(k, r, m.base + ONE, length, m.base + COUNTS, 3n));
    }

    /**
     * Whether two presets look alike: as many lanes and the same window, whatever their kinds and ranks. Refusals 5
     * to 8, the first preset's first.
     * @param {Kind} kind1 @param {number} rank1 @param {Word} word1
     * @param {Kind} kind2 @param {number} rank2 @param {Word} word2
     * @returns {boolean}
     */
    same(kind1, rank1, word1, kind2, rank2, word2) {
        const m = this.#memory.look();
        const [k1, r1, letters1] = [kindNumber('kind1', kind1), rankNumber('rank1', rank1), wordOf('word1', word1)];
        const [k2, r2, letters2] = [kindNumber('kind2', kind2), rankNumber('rank2', rank2), wordOf('word2', word2)];
        const [one, two] = m.putBoth(letters1, letters2);
        return this.#answer(m.calls.winnathey_same(k1, r1, m.base + ONE, one, k2, r2, m.base + TWO, two)) === 1;
    }

    /**
     * The better of two words with one window: the shorter, at equal lengths the one earlier in the dictionary, at
     * equal words the first. null if the windows differ. Refusals 5 to 8, the first word's first.
     * @param {Kind} kind @param {number} rank @param {Word} first @param {Word} second
     * @returns {?number[]}
     */
    better(kind, rank, first, second) {
        const m = this.#memory.look();
        const [k, r] = [kindNumber('kind', kind), rankNumber('rank', rank)];
        const [one, two] = m.putBoth(wordOf('first', first), wordOf('second', second));
        const { winnathey_better, winnathey_same } = m.calls;
        const choice = this.#answer(winnathey_better(k, r, m.base + ONE, one, m.base + TWO, two));
        if (choice === 1) return m.bytes(ONE, Number(one));
        if (choice === 2) return m.bytes(TWO, Number(two));
        // Neither: their windows differ, or one is refused.
        this.#answer(winnathey_same(k, r, m.base + ONE, one, k, r, m.base + TWO, two));
        return null;
    }

    // ---- windows

    /**
     * The normal form of a window. Refusals 5, 6, 9 to 11.
     * @param {Kind} kind @param {number} rank @param {Window} window
     * @returns {number[]}
     */
    normalFormOfWindow(kind, rank, window) {
        const m = this.#memory.look();
        const [k, r, lanes] = [kindNumber('kind', kind), rankNumber('rank', rank), m.put(ONE, windowOf('window', window))];
        const letters = m.calls.winnathey_normal_form_of_window(k, r, m.base + ONE, lanes, m.base + OUT, 4096n);
        return m.bytes(OUT, this.#answer(letters));
    }

    /**
     * The product of two windows: its entry at i is the first's entry at the second's entry at i. Refusals 5, 6, 9 to
     * 11.
     * @param {Kind} kind @param {number} rank @param {Window} first @param {Window} second
     * @returns {number[]}
     */
    productOfWindows(kind, rank, first, second) {
        const m = this.#memory.look();
        const [k, r] = [kindNumber('kind', kind), rankNumber('rank', rank)];
        const [one, two] = m.putBoth(windowOf('first', first), windowOf('second', second));
        const { base } = m;
        const lanes = m.calls.winnathey_product_of_windows(k, r, base + ONE, one, base + TWO, two, base + OUT, 64n);
        return m.entries(OUT, this.#answer(lanes));
    }

    /**
     * The inverse of a window. Refusals 5, 6, 9 to 11.
     * @param {Kind} kind @param {number} rank @param {Window} window
     * @returns {number[]}
     */
    inverseOfWindow(kind, rank, window) {
        const m = this.#memory.look();
        const [k, r, lanes] = [kindNumber('kind', kind), rankNumber('rank', rank), m.put(ONE, windowOf('window', window))];
        const written = m.calls.winnathey_inverse_of_window(k, r, m.base + ONE, lanes, m.base + OUT, 64n);
        return m.entries(OUT, this.#answer(written));
    }

    /**
     * The length of a window's normal form. Refusals 5, 6, 9 to 11.
     * @param {Kind} kind @param {number} rank @param {Window} window
     * @returns {number}
     */
    lengthOfWindow(kind, rank, window) {
        const m = this.#memory.look();
        const [k, r, lanes] = [kindNumber('kind', kind), rankNumber('rank', rank), m.put(ONE, windowOf('window', window))];
        return this.#answer(m.calls.winnathey_length_of_window(k, r, m.base + ONE, lanes));
    }

    /**
     * The crossings of a window, as for a word. Refusals 5, 6, 9 to 11.
     * @param {Kind} kind @param {number} rank @param {Window} window
     * @returns {Crossings}
     */
    crossingsOfWindow(kind, rank, window) {
        const m = this.#memory.look();
        const [k, r, lanes] = [kindNumber('kind', kind), rankNumber('rank', rank), m.put(ONE, windowOf('window', window))];
        return this.#crossings(m, m.calls.winnathey_crossings_of_window(k, r, m.base + ONE, lanes, m.base + COUNTS, 3n));
    }

    // ---- all windows of a kind and rank

    /**
     * The delay table, up to rank 19 in kind A and 16 in B and D. Refusals 5, 6, 20.
     * @param {Kind} kind @param {number} rank
     * @returns {DelayTable}
     */
    delayTable(kind, rank) {
        const m = this.#memory.look();
        const [k, r, { base }] = [kindNumber('kind', kind), rankNumber('rank', rank), m];
        const outputs = [base + COUNTS, BigInt(MAX_TABLE_COUNTS), base + OUT_TWO, 64n, base + OUT, 4096n, base + LENGTHS, 3n];
        this.#answer(m.calls.winnathey_delay_table(k, r, ...outputs));
        return {
            counts: Memory.taken(m.u64, (base + COUNTS) >> 3, m.number(LENGTHS, 0)),
            window: m.entries(OUT_TWO, m.number(LENGTHS, 1)),
            normalForm: m.bytes(OUT, m.number(LENGTHS, 2)),
        };
    }

    // ---- rewriting

    /**
     * One rewrite of a word at a place, which counts from 0; null if no rule fits there. Refusals 5 to 8, 12.
     * @param {Kind} kind @param {number} rank @param {Word} word @param {number} place
     * @returns {?Rewrite}
     */
    rewrite(kind, rank, word, place) {
        const m = this.#memory.look();
        const [k, r, length] = [kindNumber('kind', kind), rankNumber('rank', rank), m.put(ONE, wordOf('word', word))];
        const [at, { base }] = [placeNumber('place', place), m];
        const outputs = [base + OUT, 4096n, base + COUNTS, 3n];
        const letters = this.#answer(m.calls.winnathey_rewrite(k, r, base + ONE, length, at, ...outputs));
        if (letters === NONE_FITS) return null;
        const [family, i, j] = m.bytes(COUNTS, 3);
        return { family, i, j, word: m.bytes(OUT, letters) };
    }

    /**
     * How many steps `rewriteToEnd` takes. Refusals 5 to 8.
     * @param {Kind} kind @param {number} rank @param {Word} word
     * @returns {number}
     */
    rewriteSteps(kind, rank, word) {
        const m = this.#memory.look();
        const [k, r, length] = [kindNumber('kind', kind), rankNumber('rank', rank), m.put(ONE, wordOf('word', word))];
        return this.#answer(m.calls.winnathey_rewrite_steps(k, r, m.base + ONE, length));
    }

    /**
     * Rewrites a word always at the lowest place where a rule fits, until none fits. Refusals 5 to 8.
     * @param {Kind} kind @param {number} rank @param {Word} word
     * @returns {Rewriting}
     */
    rewriteToEnd(kind, rank, word) {
        const [k, r, letters] = [kindNumber('kind', kind), rankNumber('rank', rank), wordOf('word', word)];
        const count = this.rewriteSteps(k, r, letters);
        // The places, the lengths and the families, one list after the other.
        const m = this.#room(REST + 5 * count);
        const [length, { base }] = [m.put(ONE, letters), m];
        const [places, lengths, families] = [base + REST, base + REST + 2 * count, base + REST + 4 * count];
        const lists = [families, places, lengths].flatMap(list => [list, BigInt(count)]);
        const outputs = [base + OUT, 4096n, base + LENGTHS, 1n];
        this.#answer(m.calls.winnathey_rewrite_to_end(k, r, base + ONE, length, ...lists, ...outputs));
        const steps = new Array(count);
        for (let step = 0; step < count; step++) {
            const [place, left] = [m.u16[(places >> 1) + step], m.u16[(lengths >> 1) + step]];
            steps[step] = { family: m.u8[families + step], place, length: left };
        }
        return { steps, word: m.bytes(OUT, m.number(LENGTHS, 0)) };
    }

    // ---- shortest words

    /**
     * Whether a simpler window can be reached by removing letters from the normal form of the present word: the places
     * of letters to keep, rising from 0 at the earliest, or null. Refusals 5 to 8, the present word's first.
     * @param {Kind} kind @param {number} rank @param {Word} present @param {Word} simpler
     * @returns {?number[]}
     */
    fallback(kind, rank, present, simpler) {
        const m = this.#memory.look();
        const [k, r] = [kindNumber('kind', kind), rankNumber('rank', rank)];
        const [one, two] = m.putBoth(wordOf('present', present), wordOf('simpler', simpler));
        const { base } = m;
        const kept = this.#answer(m.calls.winnathey_fallback(k, r, base + ONE, one, base + TWO, two, base + PLACES, 4096n));
        return kept === NO_FALLBACK ? null : Memory.taken(m.u16, (base + PLACES) >> 1, kept);
    }

    /**
     * Splits a word by allowed steps: into a first word over them, and a second whose window has no shortest word
     * that begins with one of them. Both are normal forms. Refusals 5, 6, 16, 7, 8.
     * @param {Kind} kind @param {number} rank @param {Steps} allowed @param {Word} word
     * @returns {{first: number[], second: number[]}}
     */
    split(kind, rank, allowed, word) {
        const m = this.#memory.look();
        const [k, r, bits] = [kindNumber('kind', kind), rankNumber('rank', rank), stepBits(allowed)];
        const [length, { base }] = [m.put(ONE, wordOf('word', word)), m];
        const outputs = [base + OUT, 4096n, base + OUT_TWO, 4096n, base + LENGTHS, 2n];
        this.#answer(m.calls.winnathey_split(k, r, bits, base + ONE, length, ...outputs));
        return { first: m.bytes(OUT, m.number(LENGTHS, 0)), second: m.bytes(OUT_TWO, m.number(LENGTHS, 1)) };
    }

    /**
     * The normal form of the word over the allowed steps that leads from one window to another. Refusals 5, 6, 16, 9
     * to 11, the first window's first, and 19 if no such word does.
     * @param {Kind} kind @param {number} rank @param {Steps} allowed @param {Window} from @param {Window} to
     * @returns {number[]}
     */
    between(kind, rank, allowed, from, to) {
        const m = this.#memory.look();
        const [k, r, bits] = [kindNumber('kind', kind), rankNumber('rank', rank), stepBits(allowed)];
        const [one, two] = m.putBoth(windowOf('from', from), windowOf('to', to));
        const { base } = m;
        const letters = m.calls.winnathey_between(k, r, bits, base + ONE, one, base + TWO, two, base + OUT, 4096n);
        return m.bytes(OUT, this.#answer(letters));
    }

    // ---- books

    /**
     * Checks a book. Returns the number of its presets. Refusals 1 to 3.
     * @param {Edition} edition @param {Book} book
     * @returns {number}
     */
    bookCheck(edition, book) {
        const m = this.#memory.look();
        const { winnathey_book_check, winnathey_second_book_check } = m.calls;
        const call = isFirst(edition) ? winnathey_book_check : winnathey_second_book_check;
        return this.#answer(call(m.base + BOOK, m.put(BOOK, bookOf(book))));
    }

    /**
     * The preset with this number, from 0. Refusals 1 to 8, in the second edition 17.
     * @param {Edition} edition @param {Book} book @param {number} number
     * @returns {Preset}
     */
    preset(edition, book, number) {
        const m = this.#memory.look();
        const { winnathey_preset, winnathey_second_preset } = m.calls;
        const call = isFirst(edition) ? winnathey_preset : winnathey_second_preset;
        const [bytes, at] = [bookOf(book), placeNumber('number', number)];
        this.#answer(call(m.base + BOOK, m.put(BOOK, bytes), at, m.base + LENGTHS, 4n));
        const [kind, rank, start, length] = [0, 1, 2, 3].map(index => m.number(LENGTHS, index));
        return { kind: KINDS[kind], rank, word: m.bytes(BOOK + start, length) };
    }

    /**
     * The presets of a book from number `first` on, at most `most` of them: refused ones with their refusal, 5 to 8
     * or 17. With `first` the number of presets, the list is empty; above that it is refused 4. Refusals 1 to 4.
     * @param {Edition} edition @param {Book} book @param {number} [first] @param {number} [most]
     * @returns {ListedPreset[]}
     */
    presets(edition, book, first = 0, most = MAX_BOOK) {
        const m = this.#memory.look();
        const { winnathey_presets, winnathey_second_presets } = m.calls;
        const call = isFirst(edition) ? winnathey_presets : winnathey_second_presets;
        const from = placeNumber('first', first);
        integer('most', most, 0, Number.MAX_SAFE_INTEGER);
        const bytes = bookOf(book);
        const count = this.bookCheck(edition, bytes);
        const room = Math.min(most, Math.max(count - first, 0));
        if (room === 0 && first <= count) return [];
        // With room for one at least, so that it is the library that says 4.
        const fields = BigInt(PRESET_FIELDS * Math.max(room, 1));
        const written = this.#answer(call(m.base + BOOK, m.put(BOOK, bytes), from, m.base + REST, fields));
        const listed = new Array(written);
        for (let at = 0; at < written; at++) {
            const field = index => m.number(REST, PRESET_FIELDS * at + index);
            const [number, refused] = [first + at, field(0)];
            listed[at] = refused === 0
                ? { number, refusal: null, kind: KINDS[field(1)], rank: field(2), word: m.bytes(BOOK + field(3), field(4)) }
                : { number, refusal: this.#refusal(refused) };
        }
        return listed;
    }

    /**
     * A book with one preset more. Refusals 1 to 3, 5 to 8, 21, 13.
     * @param {Edition} edition @param {Book} book @param {Kind} kind @param {number} rank @param {Word} word
     * @returns {Uint8Array}
     */
    append(edition, book, kind, rank, word) {
        const m = this.#memory.look();
        const { winnathey_append, winnathey_second_append } = m.calls;
        const call = isFirst(edition) ? winnathey_append : winnathey_second_append;
        const [given, k, r] = [bookOf(book), kindNumber('kind', kind), rankNumber('rank', rank)];
        const [length, bytes, { base }] = [m.put(ONE, wordOf('word', word)), m.put(BOOK, given), m];
        const made = this.#answer(call(base + BOOK, bytes, k, r, base + ONE, length, base + NEW_BOOK, BigInt(MAX_BOOK)));
        return m.copy(NEW_BOOK, made);
    }

    /**
     * A book of this edition as one of the other. Refusals 1 to 3; record by record 5 to 8, in the second edition 17
     * and 18; then 13.
     * @param {Edition} edition @param {Book} book
     * @returns {Uint8Array}
     */
    convert(edition, book) {
        const m = this.#memory.look();
        const { winnathey_to_second, winnathey_to_first } = m.calls;
        const call = isFirst(edition) ? winnathey_to_second : winnathey_to_first;
        const bytes = m.put(BOOK, bookOf(book));
        return m.copy(NEW_BOOK, this.#answer(call(m.base + BOOK, bytes, m.base + NEW_BOOK, BigInt(MAX_BOOK))));
    }

    // ---- edits: whole records are spliced, so that each reads as before, one of kind A and rank 1 or a refused one too

    /** The records of a book, and where each begins. */
    #records(edition, book) {
        const m = this.#memory;
        const given = bookOf(book);
        const count = this.bookCheck(edition, given);
        const bytes = m.copy(BOOK, given.length);
        const end = Math.max(bytes.length - OFFSET * (count + 1), 0);
        const starts = new Array(count);
        for (let at = 0; at < count; at++) starts[at] = bytes[end + OFFSET * at] | bytes[end + OFFSET * at + 1] << 8;
        const records = starts.map((start, at) => bytes.subarray(start, starts[at + 1] ?? end));
        return { records, starts, bytes, end };
    }

    /** That a book has a preset with this number. */
    #has(records, name, number) {
        integer(name, number, 0, Number.MAX_SAFE_INTEGER);
        if (number >= records.length) throw this.#refusal(Refused.PRESET_NUMBER);
    }

    /** The book with these records, which the library checks. */
    #book(edition, records) {
        const end = records.reduce((sum, record) => sum + record.length, 0);
        const size = end + OFFSET * (records.length + 1);
        if (size > MAX_BOOK) throw this.#refusal(Refused.BOOK_FULL);
        const book = new Uint8Array(size);
        let start = 0;
        records.forEach((record, at) => {
            book.set(record, start);
            putTwo(book, end + OFFSET * at, start);
            start += record.length;
        });
        putTwo(book, size - OFFSET, records.length);
        this.bookCheck(edition, book);
        return book;
    }

    /**
     * A book with presets appended in their order, each made a record by the library's append: all of them or none. A
     * refusal has the `place` of the preset in the list. Refusals 1 to 3; of each preset 5 to 8, 21, 13.
     * @param {Edition} edition @param {Book} book @param {Iterable<{kind: Kind, rank: number, word: Word}>} presets
     * @returns {Uint8Array}
     */
    appendAll(edition, book, presets) {
        const { starts, bytes, end } = this.#records(edition, book);
        const m = this.#memory;
        const { winnathey_append, winnathey_second_append } = m.calls;
        const call = isFirst(edition) ? winnathey_append : winnathey_second_append;
        const room = BigInt(MAX_RECORD + TRAILER);
        // The records grow here, and not in the library's memory: what yields the presets may call it too.
        const made = new Uint8Array(MAX_BOOK + MAX_RECORD);
        made.set(bytes.subarray(0, end));
        const before = starts.length;
        let to = end;
        let place = 0;
        const [one, from] = [m.base + ONE, m.base + NEW_BOOK];
        for (const { kind, rank, word } of presets) {
            const k = kindNumber('kind', kind);
            const r = rankNumber('rank', rank);
            const answer = Number(call(0, 0n, k, r, one, m.put(ONE, wordOf('word', word)), from, room));
            if (answer < 0) throw this.#refusal(-answer, place);
            const size = answer - TRAILER;
            if (to + size + OFFSET * (starts.length + 2) > MAX_BOOK) throw this.#refusal(Refused.BOOK_FULL, place);
            const { u8 } = m;
            for (let i = 0; i < size; i++) made[to + i] = u8[from + i];
            starts.push(to);
            to += size;
            place++;
        }
        if (starts.length === before) return bytes;
        starts.push(starts.length);
        for (let at = 0; at < starts.length; at++) putTwo(made, to + OFFSET * at, starts[at]);
        const whole = made.slice(0, to + OFFSET * starts.length);
        this.bookCheck(edition, whole);
        return whole;
    }

    /**
     * A book without the preset with this number. Refusals 1 to 4.
     * @param {Edition} edition @param {Book} book @param {number} number
     * @returns {Uint8Array}
     */
    remove(edition, book, number) {
        const { records } = this.#records(edition, book);
        this.#has(records, 'number', number);
        records.splice(number, 1);
        return this.#book(edition, records);
    }

    /**
     * A book with another preset in the place of the one with this number. Refusals 1 to 8, 21, 13.
     * @param {Edition} edition @param {Book} book @param {number} number
     * @param {Kind} kind @param {number} rank @param {Word} word
     * @returns {Uint8Array}
     */
    replace(edition, book, number, kind, rank, word) {
        const { records } = this.#records(edition, book);
        this.#has(records, 'number', number);
        const alone = this.append(edition, [], kind, rank, word);
        records[number] = alone.subarray(0, alone.length - TRAILER);
        return this.#book(edition, records);
    }

    /**
     * A book with the preset `from` at the number `to`; those between move up or down by one. Refusals 1 to 4.
     * @param {Edition} edition @param {Book} book @param {number} from @param {number} to
     * @returns {Uint8Array}
     */
    moveTo(edition, book, from, to) {
        const { records } = this.#records(edition, book);
        this.#has(records, 'from', from);
        this.#has(records, 'to', to);
        records.splice(to, 0, ...records.splice(from, 1));
        return this.#book(edition, records);
    }

    // ---- the library itself

    /**
     * The message of a refusal, from the library; empty for a number that is no refusal.
     * @param {number} number
     * @returns {string}
     */
    refusalMessage(number) {
        const m = this.#memory.look();
        integer('number', number, 0, 0xffffffff);
        const length = Number(m.calls.winnathey_refusal_message(number, m.base + OUT, BigInt(MAX_MESSAGE)));
        return String.fromCharCode(...m.bytes(OUT, length));
    }

    /**
     * The library's version, as '1.0.0'.
     * @returns {string}
     */
    version() {
        const number = Number(this.#memory.calls.winnathey_version());
        return [Math.floor(number / 1000000), Math.floor(number / 1000) % 1000, number % 1000].join('.');
    }
}

/** Puts a number of 16 bits into a book. */
function putTwo(book, at, number) {
    book[at] = number & 0xff;
    book[at + 1] = number >> 8;
}
