// The window and the normal form of some presets, and a refusal.
import { load, Refusal } from './winnathey.mjs';

const w = await load();

/** Prints what a preset shows and its normal form. */
function show(kind, rank, word) {
    console.log(`kind ${kind}, rank ${rank}, word ${word.join(' ')}`);
    const window = w.windowOfWord(kind, rank, word);
    console.log(`  window ${window.join(' ')}`);
    console.log(`  normal form ${w.normalFormOfWindow(kind, rank, window).join(' ')}`);
}

show('B', 2, [1, 2, 1, 2]);
show('D', 5, [4, 4, 2, 5, 3, 5, 1, 2]);
try {
    show('B', 2, [1, 2, 3]); // kind B at rank 2 has no step 3
} catch (error) {
    if (!(error instanceof Refusal)) throw error;
    console.log(`  ${error.message}`);
}
