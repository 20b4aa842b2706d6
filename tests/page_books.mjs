// The two hundred books of the page's tests through the command: of each, in the edition that the page reads it in, the same presets
// and refusals; and the book itself refused with the same number in either edition.
import { spawnSync } from 'node:child_process';
import { mkdtempSync, rmSync, writeFileSync } from 'node:fs';
import { tmpdir } from 'node:os';
import { join } from 'node:path';
import { manyBooks } from '../page/tests/books.mjs';
import { attempt } from '../page/src/library.mjs';
import { library } from '../page/tests/library.mjs';

const EDITIONS = [null, 'first', 'second'];
const folder = mkdtempSync(join(tmpdir(), 'books-'));

/** What the command lists of a book in an edition: a line for each preset, or the refusal of the book. */
function listed(file, edition) {
    const run = spawnSync('winnathey', ['list', file, '--edition', EDITIONS[edition], '--json'], { encoding: 'utf8' });
    const answer = JSON.parse(run.stdout);
    if (!answer.ok) return `book refused ${answer.refused.number}`;
    return answer.presets.map(preset => (preset.refused ? `refused ${preset.refused.number}` : `letters ${preset.word.join(' ')}`)).join('\n');
}

/** What the library, as the page calls it, says of the same. */
function expected(bytes, edition) {
    const { value, refusal } = attempt(() => library.bookCheck(edition, bytes));
    if (refusal) return `book refused ${refusal.number}`;
    const presets = value === 0 ? [] : library.presets(edition, bytes, 0, 20);
    return presets.map(preset => (preset.refusal ? `refused ${preset.refusal.number}` : `letters ${preset.word.join(' ')}`)).join('\n');
}

let refused = 0;
let wrong = 0;
const books = manyBooks();
books.forEach((book, at) => {
    const file = join(folder, `${at}.book`);
    const bytes = Uint8Array.from(book.bytes);
    writeFileSync(file, bytes);
    for (const edition of [1, 2]) {
        const [command, page] = [listed(file, edition), expected(bytes, edition)];
        if (page.startsWith('book refused')) refused += 1;
        if (command !== page) {
            wrong += 1;
            console.log(`command: book ${at} of the page's tests, edition ${edition}: ${command} where the page has ${page}`);
        }
    }
});
rmSync(folder, { recursive: true });
if (wrong === 0) console.log(`command: the page's ${books.length} books in both editions, ${refused} times refused, as the page reads them`);
process.exit(wrong === 0 && books.length === 200 && refused > 50 ? 0 : 1);
