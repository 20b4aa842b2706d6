// Changes of a word, and where in it a refusal lies.
import { attempt } from './library.mjs';

export function added(word, step) {
    return [...word, step];
}

export function removed(word, at) {
    return word.filter((_, place) => place !== at);
}

/** A step taken out and put in again, so that it comes to stand at a place of the word. */
export function moved(word, from, to) {
    const rest = removed(word, from);
    rest.splice(to, 0, word[from]);
    return rest;
}

export function sameLetters(one, two) {
    return one.length === two.length && firstDifference(one, two) === one.length;
}

/** The first place at which two words differ. */
export function firstDifference(one, two) {
    const most = Math.min(one.length, two.length);
    for (let at = 0; at < most; at++) if (one[at] !== two[at]) return at;
    return most;
}

/** The letter that a word is refused for: the last of the shortest front of the word that the library refuses alike. */
export function culpritOf(library, kind, rank, letters, refusal) {
    const refused = length => attempt(() => library.window(kind, rank, letters.slice(0, length))).refusal?.number === refusal.number;
    let [accepted, least] = [0, letters.length];
    while (least - accepted > 1) {
        const middle = (accepted + least) >> 1;
        if (refused(middle)) least = middle;
        else accepted = middle;
    }
    return least - 1;
}
