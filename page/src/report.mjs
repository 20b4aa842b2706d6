// The parts of the sheet, in the order and with the classes of the command's report: both have the style of paper.css.
import { barsMarkup } from './delays.mjs';
import { make } from './dom.mjs';
import { attempt } from './library.mjs';
import { labelled, nameOf, writeNames } from './names.mjs';
import { toldText } from './plain.mjs';
import { rowsMarkup } from './rows.mjs';
import { sha256 } from './sha256.mjs';
import { term } from './terms.mjs';
import { counted, grouped, signed, spaced } from './text.mjs';
import { timeText } from './times.mjs';

/** So many steps in milliseconds, in brackets; nothing if nobody said what one takes. */
function inBrackets(names, steps) {
    const time = timeText(steps, names);
    return time && ` (${time})`;
}

function fromSvg(markup) {
    const holder = make('div', {});
    holder.innerHTML = markup;
    return holder.firstElementChild;
}

/** Lines whose name is explained where it stands. */
const TERMED = { 'Word as stored': 'word', Window: 'window', 'Shortest version': 'shortest' };

/** A table of lines: each has a name and parts, of which some are words or hashes. */
function facts(lines) {
    const shown = part => (typeof part === 'string' ? part : make('span', { class: part.kind }, part.text));
    const row = ([name, ...parts]) => make('tr', {}, make('th', {}, TERMED[name] ? term(TERMED[name], name) : name), make('td', {}, parts.map(shown)));
    return make('table', { class: 'facts' }, make('tbody', {}, lines.map(row)));
}

const blank = () => make('span', { class: 'blank' }, '\u00a0');
const hashed = text => ({ kind: 'hash', text });
const inLetters = text => ({ kind: 'word', text });
const editionOf = book => (book.edition === 1 ? 'first' : 'second');

/** The lines of the first page: of the book with so many presets, or of one preset alone. */
export function frontRows({ book, names }, { about, date, remarks, presets, preset }) {
    const where = preset === undefined ? counted(presets, 'preset') : `preset ${preset}`;
    const inBook = preset === null ? [['Book', 'this preset is in no book yet']] : [
        ['Book', `${book.name}, ${editionOf(book)} edition, ${where}, ${counted(book.bytes.length, 'byte')}`],
        ['SHA-256 of the book', hashed(sha256(book.bytes))],
    ];
    const written = names.lines.length > 0 ? [['Names', `${book.name}.names`], ['SHA-256 of the names', hashed(sha256(writeNames(names)))]] : [['Names', 'none']];
    const delay = timeText(1, names);
    return [
        ['Date', date], ...inBook, ...written,
        ...(delay ? [['Delay of a step', delay]] : []),
        ['Library', `winnathey ${about.version}, file winnathey.wasm`], ['SHA-256 of the library', hashed(about.hash)],
        ...(remarks ? [['Remarks', remarks]] : []),
    ];
}

export function frontPart(title, warnings, rows, checking) {
    const sign = (one, two) => make('tr', {}, make('th', {}, one), make('td', {}, blank()), make('th', {}, two), make('td', {}, blank()));
    return make('section', { class: 'front' },
        make('h1', {}, title),
        warnings.length > 0 && make('div', { class: 'warning' }, warnings.map(text => make('p', {}, `Warning: ${text}.`))),
        facts(rows),
        make('table', { class: 'signing' }, make('tbody', {}, sign('Centre', 'Cabin'), sign('Instructor', 'Signature'))),
        checking && checkingPart(checking));
}

/** As a shell takes it. */
function quoted(file) {
    return /^[\p{L}\p{N}/._+-]+$/u.test(file) ? file : `'${file.replaceAll("'", "'\\''")}'`;
}

function checkingPart(book) {
    const [name, certificate] = [quoted(book.name), quoted(`${book.name}.jsonl`)];
    const line = text => [make('br'), make('code', {}, text), '\n'];
    return make('p', { class: 'checking' },
        'Every word, window and count on this sheet is an answer of the verified library. The first line writes the evidence for each, the second checks it without the library; verify_certificate.py comes with the command, in share/winnathey:\n',
        line(`winnathey certify ${name} --edition ${editionOf(book)} -o ${certificate}`),
        line(`python3 verify_certificate.py ${name} ${certificate} --edition ${editionOf(book)}`));
}

export function contentsPart(library, names, presets) {
    const count = letters => make('td', { class: 'count' }, grouped(letters) + inBrackets(names, letters));
    const rows = presets.map(({ number, kind, rank, word, refusal }) => make('tr', {},
        make('td', {}, make('a', { href: `#preset-${number}` }, `Preset ${number}`)),
        make('td', { class: 'name' }, nameOf(names, 'preset', number)),
        refusal ? make('td', { colspan: 3 }, `refused ${refusal.number}`)
            : [make('td', { class: 'short' }, `${kind}${rank}`), count(word.length), count(library.normalForm(kind, rank, word).length)]));
    const heads = [['Preset'], ['Name'], ['Rig'], ['Letters', 'count'], ['Shortest version', 'count']];
    return make('section', { class: 'contents-part' }, make('h2', {}, 'Contents'), make('table', { class: 'contents' },
        make('thead', {}, make('tr', {}, heads.map(([text, kind]) => make('th', { class: kind }, text)))), make('tbody', {}, rows)));
}

const LEGEND = [
    "A word is a list of steps, taken from the left; a letter is the number of a step. The shortest version shows the same with the fewest steps: it is the word's normal form.",
    'A window has the source on each screen in turn, with a minus sign if it is mirrored.',
    'On the left the sources by number, on the right the screens from top to bottom: each with the source that it shows, and a small view the way round that it is shown. Where two lines cross, the one with a gap passes under the other.',
    'A double line is a mirrored source, with a minus sign; a dot is a step that mirrors.',
    'A number above a column or beside a crossing is its step; in a long word, steps that touch different lanes share a column, and the word goes on in the next row.',
];

export function legendPart() {
    return make('section', { class: 'legend' }, make('h2', {}, 'How to read it'), make('ul', {}, LEGEND.map(text => make('li', {}, text))));
}

/** A preset of a book, on pages of its own. `cabin` draws the cabin with a window, or returns null. */
export function presetPart(library, names, preset, cabin) {
    const { number, refusal } = preset;
    const name = nameOf(names, 'preset', number);
    const content = refusal ? [make('p', {}, toldText(refusal, { preset: number }))] : answered(library, names, preset, cabin);
    return make('section', { class: 'preset', id: `preset-${number}`, style: `page: preset-${number}` },
        make('h2', {}, `Preset ${number}${name && `: ${name}`}`), content);
}

/** A preset alone, on the pages of the sheet. */
export function onePart(library, names, preset, cabin) {
    return make('section', { class: 'preset' }, answered(library, names, preset, cabin));
}

/** What a sheet says of a preset, line by line. */
export function presetRows(library, names, { kind, rank, word }) {
    const letters = Uint8Array.from(word);
    const [form, window, crossings] = [library.normalForm(kind, rank, letters), library.window(kind, rank, letters), library.crossings(kind, rank, letters)];
    const { inversions, negativeSumPairs, negatives, total } = crossings;
    const lacks = counts => (counts ? '' : ` (kind ${kind} counts none)`);
    const spelled = list => [inLetters(list.length === 0 ? '(the empty word)' : spaced(list)), ` (${counted(list.length, 'letter')})`];
    const greatest = attempt(() => library.delayTable(kind, rank)).value?.normalForm.length;
    const most = greatest === undefined ? '' : `; no window of ${kind}${rank} needs more than ${greatest}${inBrackets(names, greatest)}`;
    const mirrored = `${grouped(negativeSumPairs)} pair${negativeSumPairs === 1 ? '' : 's'} against a mirrored lane${lacks(kind !== 'A')}`;
    return [
        ['Rig', `kind ${kind}, rank ${rank}, ${counted(window.length, 'lane')}`],
        ['Word as stored', ...spelled(letters)],
        ['Shortest version', ...spelled(form)],
        ['Window', inLetters(window.map(signed).join(' '))],
        ['Length', `${total}${inBrackets(names, total)}: ${counted(inversions, 'plain pair')}, ${mirrored}, ${counted(negatives, 'mirrored lane')}${lacks(kind === 'B')}`],
        ['Delay', `${counted(word.length, 'step')}${inBrackets(names, word.length)} as stored, ${grouped(form.length)}${inBrackets(names, form.length)} as the shortest version${most}`],
    ];
}

function answered(library, names, preset, cabin) {
    const window = library.window(preset.kind, preset.rank, Uint8Array.from(preset.word));
    const figures = rowsMarkup(library, preset, names).map(({ caption, markup }) =>
        make('figure', {}, caption && make('figcaption', {}, caption), fromSvg(markup)));
    const drawn = cabin(window);
    const about = drawn && make('section', { class: 'about' }, make('h3', {}, 'Cabin'), make('figure', { class: 'cabin' }, fromSvg(drawn)));
    return [facts(presetRows(library, names, preset)), make('h3', {}, 'Picture'), ...figures, screensPart(names, window), about];
}

/** What every screen shows, in names. */
export function screenLines(names, window) {
    return window.map((entry, at) => [labelled(names, 'screen', at + 1), labelled(names, 'source', Math.abs(entry)), entry < 0 ? 'mirrored' : '']);
}

/** In two tables side by side. */
function screensPart(names, window) {
    const lines = screenLines(names, window);
    const half = Math.ceil(lines.length / 2);
    const table = rows => make('table', {},
        make('thead', {}, make('tr', {}, ['Screen', 'shows source', ''].map(text => make('th', {}, text)))),
        make('tbody', {}, rows.map(cells => make('tr', {}, cells.map((text, at) => make('td', { class: at === 0 ? 'name' : null }, text))))));
    return make('section', { class: 'about' }, make('h3', {}, 'Screens'),
        make('div', { class: 'screens' }, [lines.slice(0, half), lines.slice(half)].filter(rows => rows.length > 0).map(table)));
}

/** The delay table of a rig with the lengths of the book's presets marked, or what is lacking, and why. */
export function delaysPart(library, names, rig, presets) {
    const [kind, rank] = [rig[0], Number(rig.slice(1))];
    const lengths = presets.filter(preset => !preset.refusal && `${preset.kind}${preset.rank}` === rig)
        .map(({ number, word }) => ({ number, length: library.normalForm(kind, rank, word).length }));
    const { value, refusal } = attempt(() => library.delayTable(kind, rank));
    return make('section', { class: 'delays', style: `page: delays-${rig}` }, make('h2', {}, `Delays of ${rig}`),
        refusal ? lacking(rig, refusal, lengths) : tableOf(names, rig, value.counts, lengths));
}

function lacking(rig, refusal, lengths) {
    const list = lengths.toSorted((one, two) => one.length - two.length || one.number - two.number);
    return [
        make('p', {}, `There is no table for ${rig}: ${refusal.text[0].toLowerCase()}${refusal.text.slice(1).replace(/\.$/, '')}. It would say how many windows of the rig have each length, and how long the longest is; at this rank the counts exceed 64 bits.`),
        make('p', {}, `The lengths of the presets in this book: ${list.map(({ length, number }) => `${length} (preset ${number})`).join(', ')}.`),
    ];
}

function tableOf(names, rig, counts, lengths) {
    const times = timeText(0, names) !== '';
    const count = content => make('td', { class: 'count' }, content);
    const rows = counts.map((windows, length) => {
        const here = lengths.filter(preset => preset.length === length).map(preset => preset.number).join(', ');
        return make('tr', { class: here ? 'marked' : null }, count(String(length)), times && count(timeText(length, names).replace(' ms', '')),
            count(grouped(windows)), make('td', { class: 'name' }, here));
    });
    const head = text => make('th', { class: 'count' }, text);
    return [
        make('p', {}, `How many windows of ${rig} have each length. A length that a preset of this book has is marked.`),
        make('figure', {}, fromSvg(barsMarkup(counts, 680, new Set(lengths.map(preset => preset.length))))),
        make('div', { class: 'lengths' }, make('table', {},
            make('thead', {}, make('tr', {}, head('Length'), times && head('ms'), head('Windows'), make('th', {}, 'Presets'))),
            make('tbody', {}, rows))),
    ];
}
