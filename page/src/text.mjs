// Words and numbers as text, in both directions.

/** `1 letter`, `2 letters`, `4,096 letters`. */
export function counted(number, name) {
    return `${grouped(number)} ${name}${Number(number) === 1 ? '' : 's'}`;
}

/** A number with commas: 65,535. */
export function grouped(number) {
    return String(number).replace(/\B(?=(\d{3})+$)/g, ',');
}

export function spaced(letters) {
    return Array.prototype.join.call(letters, ' ');
}

/** A word, or that it has no letters. */
export function wordText(letters) {
    return letters.length === 0 ? '(no steps)' : spaced(letters);
}

/** A long word only at its two ends. */
export function shortened(letters, most = 60) {
    if (letters.length <= most) return wordText(letters);
    const half = Math.floor(most / 2);
    return `${spaced(letters.slice(0, half))} … ${spaced(letters.slice(-half))}`;
}

/** A window's entry with the minus sign of print. */
export function signed(entry) {
    return String(entry).replace('-', '−');
}

/** `1, 2 and 3`. */
export function listed(parts) {
    return parts.length < 2 ? parts.join('') : `${parts.slice(0, -1).join(', ')} and ${parts.at(-1)}`;
}

/** Which lanes a step touches and what it does to them. */
export function actionText({ lanes, crosses, mirrors }) {
    const numbers = listed(lanes.map(lane => lane + 1));
    if (!crosses) return `mirrors lane ${numbers}`;
    return mirrors ? `exchanges lanes ${numbers} and mirrors both` : `exchanges lanes ${numbers}`;
}

/**
 * The letters of a typed word with the place of each in the text, or the first part that is no number. A number that is no byte
 * becomes 0 or 255, which are no steps either, so that the library says what is wrong with it.
 */
export function parsedWord(text) {
    const letters = [];
    const spans = [];
    for (const match of text.matchAll(/[^\s,]+/g)) {
        const span = { start: match.index, end: match.index + match[0].length };
        if (!/^[-+−]?\d+$/.test(match[0])) return { letters, spans, strange: { text: match[0], ...span } };
        letters.push(Math.min(Math.max(Number(match[0].replace('−', '-')), 0), 255));
        spans.push(span);
    }
    return { letters, spans, strange: null };
}
