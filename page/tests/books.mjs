// Two hundred books, right and damaged ones, the same in each run, with what the library says of each. Run as a program it prints
// them as JSON for the tests in a browser.
import { pathToFileURL } from 'node:url';
import { attempt } from '../src/library.mjs';
import { countText, editionsOf, refusedText, verdictsOf } from '../src/book.mjs';
import { RIGS, dice, library, randomWord } from './library.mjs';

function rightBook(random, edition) {
    let bytes = new Uint8Array(0);
    for (let left = random(6); left > 0; left--) {
        const [kind, rank] = RIGS[random(RIGS.length)];
        const { value } = attempt(() => library.append(edition, bytes, kind, rank, randomWord(random, rank, random(30))));
        bytes = value ?? bytes;
    }
    return bytes;
}

/** A byte changed, taken out, put in, or the end cut off. */
function damaged(random, bytes) {
    const list = Array.from(bytes);
    const at = random(list.length + 1);
    const way = random(4);
    if (way === 0 && list.length > 0) list[Math.min(at, list.length - 1)] = random(256);
    else if (way === 1) list.splice(at, 1);
    else if (way === 2) list.splice(at, 0, random(256));
    else list.length = at;
    return Uint8Array.from(list);
}

/** A book with the sentence and rows that it has to get; where the page asks for the edition, those of the second. */
function judged(bytes) {
    const verdicts = verdictsOf(library, bytes);
    const passing = editionsOf(verdicts);
    const edition = passing.length === 1 ? passing[0] : 2;
    const presets = passing.length === 0 ? [] : library.presets(edition, bytes, 0, 20);
    return {
        bytes: Array.from(bytes),
        editions: passing,
        verdict: passing.length === 0 ? refusedText(verdicts) : countText(library, { edition, bytes }),
        rows: presets.map(preset => (preset.refusal ? `refused ${preset.refusal.number}` : `letters ${preset.word.join(' ')}`)),
    };
}

export function manyBooks(count = 200, seed = 40) {
    const random = dice(seed);
    return Array.from({ length: count }, (_, at) => {
        const bytes = rightBook(random, 1 + random(2));
        return judged(at % 2 === 0 ? bytes : damaged(random, bytes));
    });
}

if (import.meta.url === pathToFileURL(process.argv[1]).href) console.log(JSON.stringify(manyBooks()));
