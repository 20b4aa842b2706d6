// Changes of a book's presets: removed, moved, duplicated, replaced, by the library, with the names of those whose numbers change.
import { nameOf, withName } from './names.mjs';
import { presetOf } from './state.mjs';

/** The names with presets numbered anew; a preset without a new number has lost its name. */
export function renumbered(names, numberOf) {
    const lines = names.lines.flatMap(line => {
        const number = line.keyword === 'preset' ? numberOf(line.number) : line.number;
        if (number === line.number) return [line];
        return number === null ? [] : [{ ...line, number, raw: `preset ${number} ${line.name}` }];
    });
    return { ...names, lines };
}

/** The names of presets that a book with so many does not have, in a list to be told; '' if there are none. */
export function pastText(names, count) {
    const past = names.lines.filter(line => line.keyword === 'preset' && line.number >= count).map(line => `${line.number} '${line.name}'`);
    return past.length === 0 ? '' : `${past.length === 1 ? 'preset' : 'presets'} ${past.join(', ')}`;
}

/**
 * The state before a change of the book, without names of presets that the book does not have: a preset that comes later would get one
 * of them. With what went, in words.
 */
export function settled(library, state) {
    const count = library.bookCheck(state.book.edition, state.book.bytes);
    const past = pastText(state.names, count);
    if (past === '') return { state, dropped: '' };
    const names = renumbered(state.names, number => (number < count ? number : null));
    const told = past.startsWith('presets') ? `The names of ${past} were dropped: the book did not have them. ` : `The name of ${past} was dropped: the book did not have it. `;
    return { state: { ...state, names }, dropped: told };
}

/** A change of the state: the book's new bytes, and names and the kept preset by their new numbers. */
function changed({ book, names, kept }, bytes, numberOf) {
    const number = kept ? numberOf(kept.number) : null;
    return { book: { ...book, bytes }, names: renumbered(names, numberOf), kept: number === null ? null : { ...kept, number } };
}

export function withoutPreset(library, state, number) {
    const { edition, bytes } = state.book;
    const numberOf = old => (old === number ? null : old > number ? old - 1 : old);
    return changed(state, library.remove(edition, bytes, number), numberOf);
}

export function withMoved(library, state, from, to) {
    const { edition, bytes } = state.book;
    const numberOf = old => {
        if (old === from) return to;
        if (from < old && old <= to) return old - 1;
        return to <= old && old < from ? old + 1 : old;
    };
    return changed(state, library.moveTo(edition, bytes, from, to), numberOf);
}

/** A copy right behind the preset. */
export function withDuplicate(library, state, { number, kind, rank, word }) {
    const { edition, bytes } = state.book;
    const appended = library.append(edition, bytes, kind, rank, word);
    const last = library.bookCheck(edition, appended) - 1;
    const change = changed(state, library.moveTo(edition, appended, last, number + 1), old => (old > number ? old + 1 : old));
    const name = nameOf(state.names, 'preset', number);
    return { ...change, names: withName(change.names, 'preset', number + 1, name && `${[...name].slice(0, 73).join('')} (copy)`) };
}

/** The present word of the present rig in the place of a preset, which keeps its name. */
export function withReplaced(library, state, number) {
    const { edition, bytes } = state.book;
    const replaced = library.replace(edition, bytes, number, state.kind, state.rank, state.word);
    return { book: { ...state.book, bytes: replaced }, names: state.names, kept: presetOf(state, number) };
}

/** The presets with a text in their name, or as their number, their rig or steps in a row of their word. */
export function matching(presets, names, text) {
    const wanted = text.trim().replace(/\s+/g, ' ').toLowerCase();
    return presets.filter(({ number, refusal, kind, rank, word }) => {
        if (String(number) === wanted || nameOf(names, 'preset', number).toLowerCase().includes(wanted)) return true;
        return !refusal && (`${kind}${rank}`.toLowerCase() === wanted || ` ${word.join(' ')} `.includes(` ${wanted} `));
    });
}
