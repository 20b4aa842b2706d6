// What the picture shows, in two sentences.
import { counted, listed } from './text.mjs';

/** So many screens are named by their numbers; more are counted. */
const FEW = 6;

function mirroredText(window) {
    const screens = window.flatMap((entry, at) => (entry < 0 ? [at + 1] : []));
    if (screens.length === 0) return 'no view is mirrored';
    if (screens.length === 1) return `the view on screen ${screens[0]} is mirrored`;
    return screens.length > FEW ? `${screens.length} views are mirrored` : `the views on screens ${listed(screens)} are mirrored`;
}

export function pictureText(word, window) {
    const lines = 'Each line leads a source, on the left, to the screen that shows it, on the right.';
    if (word.length === 0) return `${lines} No step is taken yet: every screen shows the source with its own number, and no view is mirrored.`;
    return `${lines} ${counted(word.length, 'step')} ${word.length === 1 ? 'is' : 'are'} taken from left to right; ${mirroredText(window)}.`;
}
