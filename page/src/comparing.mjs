// The preset that the cabin is compared with, as its book changes: what was chosen is a preset, and its number is only where it is now.
import { nameOf } from './names.mjs';
import { samePreset } from './state.mjs';

/** Whether two presets are the same, damaged ones too. */
function equal(one, two) {
    return one !== undefined && two !== undefined && (one.refusal || two.refusal ? one.refusal?.number === two.refusal?.number : samePreset(one, two));
}

/** Whether two lists of presets are the same: those of a book that was renamed or converted. */
export function samePresets(before, after) {
    return before.length === after.length && before.every((preset, at) => equal(preset, after[at]));
}

/**
 * The number that a preset has after its book was changed, or null where it is gone. If no other place has changed it was replaced; of
 * several that are alike it is the one with the same name.
 */
export function followed(number, before, after, nameBefore = '', nameAfter = () => '') {
    const others = before.length === after.length && before.every((preset, at) => at === number || equal(preset, after[at]));
    if (others && !after[number].refusal) return number;
    const alike = after.filter(preset => !preset.refusal && equal(before[number], preset)).map(preset => preset.number);
    const named = alike.filter(other => nameAfter(other) === nameBefore);
    const nearest = list => [...list].sort((one, two) => Math.abs(one - number) - Math.abs(two - number))[0];
    return nearest(named) ?? nearest(alike) ?? null;
}

/** The choice after a change of the state: the number of the preset now, null where another book was opened, or that the preset is gone. */
export function followedChoice(presetsOf, number, state, old) {
    const [before, after] = [presetsOf(old.book), presetsOf(state.book)];
    if (state.book.name !== old.book.name && !samePresets(before, after)) return { number: null, gone: false };
    const name = ({ names }, preset) => nameOf(names, 'preset', preset);
    const now = followed(number, before, after, name(old, number), other => name(state, other));
    return { number: now, gone: now === null };
}
