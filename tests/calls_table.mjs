// The table of calls and answers, calls.jsonl, through winnathey.mjs, in node and in a browser. Rows about short outputs
// are left out, since the functions have outputs of their own, which always have room; and rows with a number that
// JavaScript has no exact number for.
const NO_ROOM = [-14, -15];
const NONE_FITS = -100;
const NO_FALLBACK = -101;
const CALLS = 30;

/** The bytes of a book: parts of hexadecimal digits, each repeated if a number stands behind it. */
function bookOf(text) {
    const bytes = [];
    for (const part of text.split(' ').filter(part => part !== '')) {
        const [digits, times] = part.split('*');
        const group = digits.match(/../g).map(byte => parseInt(byte, 16));
        for (let i = 0; i < Number(times ?? 1); i++) bytes.push(...group);
    }
    return Uint8Array.from(bytes);
}

/** The steps of a set, falling and then rising: each comes twice. */
function stepsOf(allowed) {
    const steps = Array.from({ length: 64 }, (_, i) => i + 1).filter(step => BigInt(allowed) >> BigInt(step - 1) & 1n);
    return [...steps].reverse().concat(steps);
}

/** A name as JavaScript has it. */
function camel(name) {
    return name.replace(/_(.)/g, (_, letter) => letter.toUpperCase());
}

/** Whether two values are the same in every part. */
function equal(one, other) {
    if (one === other) return true;
    if (typeof one !== 'object' || typeof other !== 'object' || one === null || other === null) return false;
    if (one.constructor !== other.constructor) return false;
    const keys = Object.keys(one);
    return keys.length === Object.keys(other).length && keys.every(key => Object.hasOwn(other, key) && equal(one[key], other[key]));
}

function check(holds, row, what) {
    if (!holds) throw new Error(`${what}: ${JSON.stringify(row).slice(0, 500)}`);
}

/** The edition and the function's name of a call on a book. */
function editionOf(call) {
    if (call === 'to_second') return [1, 'convert'];
    if (call === 'to_first') return [2, 'convert'];
    return call.startsWith('second_') ? [2, camel(call.slice(7))] : [1, camel(call)];
}

/** The answer and what is written, of a call on words and windows. */
function ofGroup(w, row, given) {
    const { call } = row;
    const made = w[camel(call)](...Object.values(given));
    switch (call) {
        case 'same':
            check(typeof made === 'boolean', row, 'no boolean');
            return [Number(made), {}];
        case 'better':
            if (made === null) return [0, {}];
            if (equal(row.given.first, row.given.second)) return [row.answer, {}];
            return [equal(made, row.given.first) ? 1 : equal(made, row.given.second) ? 2 : NaN, {}];
        case 'length_of_word': case 'length_of_window': case 'rewrite_steps':
            return [made, {}];
        case 'crossings_of_word': case 'crossings_of_window':
            return [made.total, { counts: [made.inversions, made.negativeSumPairs, made.negatives] }];
        case 'delay_table': {
            const { counts, window, normalForm } = made;
            const lengths = [counts.length, window.length, normalForm.length];
            return [lengths[2], { counts: counts.join(' '), window, normal_form: normalForm, lengths }];
        }
        case 'rewrite':
            if (made === null) return [NONE_FITS, {}];
            return [made.word.length, { out: made.word, rule: [made.family, made.i, made.j] }];
        case 'rewrite_to_end': {
            const [families, places, lengths] = ['family', 'place', 'length'].map(part => made.steps.map(step => step[part]));
            return [families.length, { families, places, lengths, out: made.word, written: [made.word.length] }];
        }
        case 'fallback':
            return made === null ? [NO_FALLBACK, {}] : [made.length, { places: made }];
        case 'split': {
            const lengths = [made.first.length, made.second.length];
            return [lengths[0] + lengths[1], { first: made.first, second: made.second, lengths }];
        }
        default:
            return [made.length, { out: made }];
    }
}

/** The fields of a preset. Where its word lies in the book is taken from the row and looked at. */
function fieldsOf(row, book, preset, start) {
    check(equal(Array.from(book.slice(start, start + preset.word.length)), preset.word), row, 'not the letters of the book');
    return [' ABD'.indexOf(preset.kind), preset.rank, start, preset.word.length];
}

/** The same as `ofGroup` of a call on a book. */
function ofBook(w, row, given) {
    const [edition, name] = editionOf(row.call);
    const [book, ...others] = Object.values(given);
    if (name === 'presets') return ofPresets(w, row, edition, book, others[0]);
    const made = w[name](edition, book, ...others);
    if (name === 'bookCheck') return [made, {}];
    if (name === 'preset') return [4, { fields: fieldsOf(row, book, made, row.written.fields[2]) }];
    check(made.constructor === Uint8Array, row, 'no bytes');
    return [made.length, { out: made }];
}

function ofPresets(w, row, edition, book, first) {
    const most = Math.floor(row.room.fields / 5);
    const all = w.presets(edition, book, first);
    if (first === 0) check(w.presets(edition, book).length === all.length, row, 'not from 0 on');
    const count = w.bookCheck(edition, book);
    check(all.length === count - first, row, 'not all presets');
    // An empty list here, while C refuses a number that is no preset's.
    if (first === count) return [-4, {}];
    const listed = w.presets(edition, book, first, most);
    check(listed.length === Math.min(most, all.length) && w.presets(edition, book, first, 0).length === 0, row, 'not as many as were asked for');
    const fields = listed.flatMap((preset, at) => {
        check(preset.number === first + at && all[at].number === preset.number, row, 'another number');
        return preset.refusal === null
            ? [0, ...fieldsOf(row, book, preset, row.written.fields[5 * at + 3])]
            : [preset.refusal.number, 0, 0, 0, 0];
    });
    return [listed.length, { fields }];
}

/** What a row is given in each of the forms that the functions take: lists, typed arrays and letters, texts. */
function forms(given) {
    const lists = Object.fromEntries(Object.entries(given).map(([name, value]) => {
        if (name === 'book') return [name, bookOf(value)];
        return [name, name === 'allowed' ? stepsOf(value) : value];
    }));
    const changed = change => Object.fromEntries(Object.entries(lists).map(([name, value]) => [name, change(name, value)]));
    const isKind = (name, value) => name.startsWith('kind') && value >= 1 && value <= 3;
    const typed = changed((name, value) => {
        if (isKind(name, value)) return ' ABD'[value];
        if (name === 'allowed') return new Set(value);
        if (name === 'book') return value.length < 1000 ? Array.from(value) : value;
        if (!Array.isArray(value)) return value;
        return value.some(entry => entry < 0) ? Int8Array.from(value) : Uint8Array.from(value);
    });
    const texts = changed((name, value) => {
        if (isKind(name, value)) return ' abd'[value];
        return Array.isArray(value) ? value.join(name === 'word' ? ',' : ' ') : value;
    });
    return [lists, typed, texts];
}

/** Runs the table's rows, and says how many were run; throws an error at the first that is not answered as stored. */
export function runTable(text, w, Refusal) {
    const counts = { ran: 0, left: 0, large: 0 };
    const calls = new Set();
    const refusals = new Set();
    for (const line of text.trimEnd().split('\n')) {
        const row = JSON.parse(line);
        if (NO_ROOM.includes(row.answer)) {
            counts.left++;
            continue;
        }
        if (Object.values(row.given).some(value => typeof value === 'number' && !Number.isSafeInteger(value))) {
            counts.large++;
            continue;
        }
        const due = row.refused === undefined ? row.answer : -row.refused;
        const written = row.written ?? {};
        if (typeof written.out === 'string') written.out = bookOf(written.out);
        for (const given of forms(row.given)) {
            let outcome;
            try {
                outcome = 'book' in given ? ofBook(w, row, given) : ofGroup(w, row, given);
            } catch (error) {
                if (!(error instanceof Refusal)) throw error;
                check(error.place === null, row, 'a refusal with a place');
                outcome = [-error.number, {}];
            }
            check(equal(outcome, [due, written]), row, `not ${JSON.stringify(outcome).slice(0, 200)}`);
        }
        if (row.call.endsWith('append')) appendedAll(w, row, due, Refusal);
        counts.ran++;
        calls.add(row.call);
        refusals.add(-due);
    }
    check(calls.size === CALLS, null, 'not every call was run');
    const missing = Array.from({ length: 21 }, (_, i) => i + 1).filter(number => !refusals.has(number));
    check(equal(missing, [14, 15]), missing, 'not every refusal came');
    return counts;
}

/** A preset that is appended by itself is appended as one of many. */
function appendedAll(w, row, due, Refusal) {
    const [edition] = editionOf(row.call);
    const [{ book, kind, rank, word }] = forms(row.given);
    let outcome;
    try {
        outcome = [w.appendAll(edition, book, [{ kind, rank, word }]), null];
        outcome[1] = outcome[0].length;
    } catch (error) {
        if (!(error instanceof Refusal)) throw error;
        check(error.place === (error.number <= 3 ? null : 0), row, 'another place');
        outcome = [undefined, -error.number];
    }
    check(equal(outcome, [row.written?.out, due]), row, 'appended at once, not the same');
}

/** A line about a run. */
export function said({ ran, left, large }, where) {
    return `calls: ${ran} rows through JavaScript in ${where} (left out: ${left} about outputs of its own, ${large} with a number above 2^53)`;
}
