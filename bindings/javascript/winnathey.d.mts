/** Types of winnathey.mjs, which says what each call does. `tests/table` holds the two to each other. */

/** A kind, by its letter, large or small, or by its number: 1 is A, 2 is B, 3 is D. */
export type Kind = 'A' | 'B' | 'D' | 'a' | 'b' | 'd' | number;
/** A word: up to 4,096 steps, each from 1 to the rank; as a text with blanks (spaces, tabs, line ends) or commas between them. */
export type Word = ArrayLike<number> | string;
/** A window: for each screen the source it shows, negative if mirrored; or as a text. */
export type Window = ArrayLike<number> | string;
/** A set of allowed steps, as a list of steps from 1 to 64 in any order, or as a text. */
export type Steps = Iterable<number> | string;
/** The bytes of a preset book, at most 65,535. */
export type Book = ArrayLike<number>;
/** The edition of a book. */
export type Edition = 1 | 2;

/** The length of a normal form as its three counts, and their sum. */
export interface Crossings {
    readonly inversions: number;
    readonly negativeSumPairs: number;
    readonly negatives: number;
    readonly total: number;
}

/** How many windows have each length; the window with the greatest length, and its normal form. */
export interface DelayTable {
    readonly counts: bigint[];
    readonly window: number[];
    readonly normalForm: number[];
}

/** A rule that was used, by family, i and j, and the word afterwards. */
export interface Rewrite {
    readonly family: number;
    readonly i: number;
    readonly j: number;
    readonly word: number[];
}

/** One step of a rewriting: the rule's family, the place, and the word's length afterwards. */
export interface RewriteStep {
    readonly family: number;
    readonly place: number;
    readonly length: number;
}

/** A rewriting: its steps, and the final word, which is the normal form. */
export interface Rewriting {
    readonly steps: RewriteStep[];
    readonly word: number[];
}

/** A word split by allowed steps: the first word is over them, the second begins with none. */
export interface Split {
    readonly first: number[];
    readonly second: number[];
}

/** A preset of a book: its kind, its rank and its word. */
export interface Preset {
    readonly kind: 'A' | 'B' | 'D';
    readonly rank: number;
    readonly word: number[];
}

/** A preset for a book. */
export interface NewPreset {
    readonly kind: Kind;
    readonly rank: number;
    readonly word: Word;
}

/** A preset of a list: its number, and either what it is, or why it is refused. */
export type ListedPreset =
    | (Preset & { readonly number: number; readonly refusal: null })
    | { readonly number: number; readonly refusal: Refusal };

/** The most lanes of a window. */
export const MAX_LANES: 64;
/** The most letters of a word. */
export const MAX_WORD: 4096;
/** The most letters of a normal form. */
export const MAX_NORMAL_FORM: 4096;
/** The most bytes of a book. */
export const MAX_BOOK: 65535;
/** The kinds, by number: `KINDS[1]` is `'A'`. */
export const KINDS: readonly [null, 'A', 'B', 'D'];

/** The numbers of the refusals by name. */
export const Refused: {
    readonly BOOK_SIZE: 1;
    readonly BOOK_COUNT: 2;
    readonly BOOK_OFFSET: 3;
    readonly PRESET_NUMBER: 4;
    readonly KIND: 5;
    readonly RANK: 6;
    readonly WORD_LENGTH: 7;
    readonly LETTER: 8;
    readonly WINDOW_LENGTH: 9;
    readonly ENTRY: 10;
    readonly ODD_NEGATIVES: 11;
    readonly PLACE: 12;
    readonly BOOK_FULL: 13;
    readonly OUTPUT: 14;
    readonly STEP_LISTS: 15;
    readonly ALLOWED: 16;
    readonly LANE_COUNT: 17;
    readonly FIRST_EDITION_LANES: 18;
    readonly UNREACHABLE: 19;
    readonly TABLE_RANK: 20;
    readonly RETIRED_PRESET: 21;
};

/** A call that the library refused. */
export class Refusal extends Error {
    constructor(number: number, text: string, place?: number | null);
    readonly name: 'Refusal';
    /** The refusal's number: one of `Refused`. */
    readonly number: number;
    /** What it says, as the library words it. */
    readonly text: string;
    /** Of `appendAll` the place of the preset in the list, from 0; otherwise null. */
    readonly place: number | null;
}

/** Loads the library: by default `winnathey.wasm` beside winnathey.mjs. */
export function load(source?: BufferSource | WebAssembly.Module | URL | string): Promise<Winnathey>;

/** The library's calls. `load` makes one. */
export class Winnathey {
    constructor(exports: WebAssembly.Exports, module?: WebAssembly.Module | null);
    /** The module's own exports: `memory`, and the calls as `winnathey.h` has them. */
    get exports(): WebAssembly.Exports;

    windowOfWord(kind: Kind, rank: number, word: Word): number[];
    normalFormOfWord(kind: Kind, rank: number, word: Word): number[];
    productOfWords(kind: Kind, rank: number, first: Word, second: Word): number[];
    inverseOfWord(kind: Kind, rank: number, word: Word): number[];
    lengthOfWord(kind: Kind, rank: number, word: Word): number;
    crossingsOfWord(kind: Kind, rank: number, word: Word): Crossings;
    same(kind1: Kind, rank1: number, word1: Word, kind2: Kind, rank2: number, word2: Word): boolean;
    better(kind: Kind, rank: number, first: Word, second: Word): number[] | null;
    normalFormOfWindow(kind: Kind, rank: number, window: Window): number[];
    productOfWindows(kind: Kind, rank: number, first: Window, second: Window): number[];
    inverseOfWindow(kind: Kind, rank: number, window: Window): number[];
    lengthOfWindow(kind: Kind, rank: number, window: Window): number;
    crossingsOfWindow(kind: Kind, rank: number, window: Window): Crossings;
    delayTable(kind: Kind, rank: number): DelayTable;
    rewrite(kind: Kind, rank: number, word: Word, place: number): Rewrite | null;
    rewriteSteps(kind: Kind, rank: number, word: Word): number;
    rewriteToEnd(kind: Kind, rank: number, word: Word): Rewriting;
    fallback(kind: Kind, rank: number, present: Word, simpler: Word): number[] | null;
    split(kind: Kind, rank: number, allowed: Steps, word: Word): Split;
    between(kind: Kind, rank: number, allowed: Steps, from: Window, to: Window): number[];
    bookCheck(edition: Edition, book: Book): number;
    preset(edition: Edition, book: Book, number: number): Preset;
    presets(edition: Edition, book: Book, first?: number, most?: number): ListedPreset[];
    append(edition: Edition, book: Book, kind: Kind, rank: number, word: Word): Uint8Array;
    appendAll(edition: Edition, book: Book, presets: Iterable<NewPreset>): Uint8Array;
    remove(edition: Edition, book: Book, number: number): Uint8Array;
    replace(edition: Edition, book: Book, number: number, kind: Kind, rank: number, word: Word): Uint8Array;
    moveTo(edition: Edition, book: Book, from: number, to: number): Uint8Array;
    convert(edition: Edition, book: Book): Uint8Array;
    refusalMessage(number: number): string;
    version(): string;
}
