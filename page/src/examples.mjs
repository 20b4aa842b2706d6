// Example rigs, one of each kind, for a first start: with names, the screens' places in the cabin, a delay, and a book of two presets.
import { readNames } from './names.mjs';
import { FIRST_STATE, NEW_BOOK, presetOf } from './state.mjs';

/** A screen has its name and its place; a preset has its name and the window that the library makes its word from. */
export const EXAMPLES = Object.freeze([
    {
        title: 'Car, 5 screens',
        about: 'Kind D mirrors views in pairs, as two door mirrors need it, and never one alone.',
        kind: 'D',
        rank: 5,
        book: 'car.book',
        delay: '0.5',
        sources: ['front left', 'front', 'front right', 'rear left', 'rear right'],
        screens: [['left window', '20 120 220 380'], ['windscreen', '260 80 480 420'], ['right window', '760 120 220 380'],
            ['left mirror', '60 570 200 300'], ['right mirror', '740 570 200 300']],
        presets: [['Road', [1, 2, 3, -4, -5]], ['Looking back', [4, 2, 5, 1, 3]]],
    },
    {
        title: 'Lorry, 8 screens',
        about: 'Kind B mirrors each view on its own, so that there can be any number of mirrors: one, three or all.',
        kind: 'B',
        rank: 8,
        book: 'lorry.book',
        delay: '0.5',
        sources: ['front left', 'front', 'front right', 'rear camera', 'load camera', 'rear left', 'rear right', 'kerb'],
        screens: [['left window', '20 260 190 400'], ['windscreen', '230 260 540 400'], ['right window', '790 260 190 400'],
            ['rear monitor', '280 700 200 260'], ['load monitor', '520 700 200 260'], ['left mirror', '40 690 150 290'],
            ['right mirror', '810 690 150 290'], ['kerb mirror', '790 20 190 210']],
        presets: [['Road', [1, 2, 3, 4, 5, -6, -7, -8]], ['Kerb mirror alone', [1, 2, 3, 4, 5, 6, 7, -8]]],
    },
    {
        title: 'Crane, 6 screens',
        about: 'Kind A never mirrors: for windows and camera monitors, which show views as they are. It has one screen more than its rank.',
        kind: 'A',
        rank: 5,
        book: 'crane.book',
        delay: '0.5',
        sources: ['left', 'front', 'right', 'boom', 'hook camera', 'rear camera'],
        screens: [['left window', '20 250 200 430'], ['front window', '240 250 520 430'], ['right window', '780 250 200 430'],
            ['roof window', '300 20 400 200'], ['hook monitor', '260 720 200 240'], ['rear monitor', '540 720 200 240']],
        presets: [['Lifting, hook in front', [1, 5, 3, 4, 2, 6]], ['Driving', [1, 2, 3, 4, 5, 6]]],
    },
]);

/** The names beside an example's book, as their file has them. */
export function namesTextOf({ sources, screens, presets, delay }) {
    const lines = (keyword, list, first) => list.map((text, at) => `${keyword} ${at + first} ${text}`);
    return [
        ...lines('source', sources, 1),
        ...lines('screen', screens.map(([name]) => name), 1),
        ...lines('preset', presets.map(([name]) => name), 0),
        ...lines('place', screens.map(([, place]) => place), 1),
        `delay ${delay}`,
    ].map(line => `${line}\n`).join('');
}

/** The whole state of an example, with its first preset loaded. */
export function exampleState(library, example) {
    const { kind, rank, book, presets } = example;
    const words = presets.map(([, shows]) => Array.from(library.formOfWindow(kind, rank, shows)));
    const bytes = words.reduce((grown, word) => library.append(NEW_BOOK.edition, grown, kind, rank, word), NEW_BOOK.bytes);
    const names = readNames(new TextEncoder().encode(namesTextOf(example)));
    const preset = { kind, rank, word: words[0] };
    return { ...FIRST_STATE, ...preset, names, book: { name: book, edition: NEW_BOOK.edition, bytes }, kept: presetOf(preset, 0) };
}
