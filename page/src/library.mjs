// The calls of the library that the page makes, all of them: every answer about a preset or a book on the page comes through here.

/** What a call returns, or the refusal that it throws. */
export function attempt(call) {
    try {
        return { value: call(), refusal: null };
    } catch (error) {
        if (error.name !== 'Refusal') throw error;
        return { value: null, refusal: error };
    }
}

/** Ranks are bytes in a book, and no kind takes one beyond. */
const RANKS = Array.from({ length: 256 }, (_, rank) => rank);

/** The page's calls over a loaded `winnathey.mjs`. */
export function callsOf(w) {
    const calls = {
        version: () => w.version(),
        message: number => w.refusalMessage(number),
        window: (kind, rank, word) => w.windowOfWord(kind, rank, word),
        normalForm: (kind, rank, word) => w.normalFormOfWord(kind, rank, word),
        crossings: (kind, rank, word) => w.crossingsOfWord(kind, rank, word),
        same: (kind, rank, one, two) => w.same(kind, rank, one, kind, rank, two),
        formOfWindow: (kind, rank, window) => w.normalFormOfWindow(kind, rank, window),
        delayTable: (kind, rank) => w.delayTable(kind, rank),
        rewrite: (kind, rank, word, place) => w.rewrite(kind, rank, word, place),
        rewriteSteps: (kind, rank, word) => w.rewriteSteps(kind, rank, word),
        rewriteToEnd: (kind, rank, word) => w.rewriteToEnd(kind, rank, word),
        fallback: (kind, rank, present, simpler) => w.fallback(kind, rank, present, simpler),
        split: (kind, rank, allowed, word) => w.split(kind, rank, allowed, word),
        between: (kind, rank, allowed, from, to) => w.between(kind, rank, allowed, from, to),
        bookCheck: (edition, book) => w.bookCheck(edition, book),
        presets: (edition, book, first, most) => w.presets(edition, book, first, most),
        append: (edition, book, kind, rank, word) => w.append(edition, book, kind, rank, word),
        convert: (edition, book) => w.convert(edition, book),
        remove: (edition, book, number) => w.remove(edition, book, number),
        moveTo: (edition, book, from, to) => w.moveTo(edition, book, from, to),
        replace: (edition, book, number, kind, rank, word) => w.replace(edition, book, number, kind, rank, word),
    };
    return { ...calls, ...cached(calls) };
}

/** What depends on the rig alone is asked once for each. */
function cached(calls) {
    const kept = new Map();
    const once = (key, make) => kept.get(key) ?? kept.set(key, make()).get(key);
    return {
        /** The ranks that a kind takes. */
        ranks: kind => once(`ranks ${kind}`, () => RANKS.filter(rank => !attempt(() => calls.window(kind, rank, [])).refusal)),
        straight: (kind, rank) => once(`straight ${kind}${rank}`, () => calls.window(kind, rank, [])),
        /** What each step does, step 1 at place 1: by what it alone does to the straight window. */
        actions: (kind, rank) => once(`actions ${kind}${rank}`, () => actionsOf(calls, kind, rank)),
    };
}

function actionsOf(calls, kind, rank) {
    const straight = calls.window(kind, rank, []);
    const actions = [null];
    for (let step = 1; step <= rank; step++) {
        const shown = calls.window(kind, rank, [step]);
        const touched = straight.map((_, lane) => lane).filter(lane => straight[lane] !== shown[lane]);
        actions.push({ lanes: touched, crosses: touched.length === 2, mirrors: shown[touched[0]] < 0 });
    }
    return actions;
}
