// SHA-256, by FIPS 180-4. The browser's own answers only later, and not on every page that is opened from a file.

const PRIMES = [];
for (let number = 2; PRIMES.length < 64; number++) if (PRIMES.every(prime => number % prime !== 0)) PRIMES.push(number);

/** The first 32 bits of the fractional part of a root. */
function fraction(root) {
    return Math.floor((root - Math.floor(root)) * 2 ** 32) >>> 0;
}

const K = PRIMES.map(prime => fraction(Math.cbrt(prime)));
const START = PRIMES.slice(0, 8).map(prime => fraction(Math.sqrt(prime)));

const turned = (word, by) => (word >>> by) | (word << (32 - by));

function compress(state, view, at) {
    const words = Array.from({ length: 16 }, (_, word) => view.getUint32(at + 4 * word));
    for (let round = 16; round < 64; round++) {
        const [early, late] = [words[round - 15], words[round - 2]];
        const small = turned(early, 7) ^ turned(early, 18) ^ (early >>> 3);
        const large = turned(late, 17) ^ turned(late, 19) ^ (late >>> 10);
        words.push((words[round - 16] + small + words[round - 7] + large) >>> 0);
    }
    let [a, b, c, d, e, f, g, h] = state;
    for (let round = 0; round < 64; round++) {
        const one = h + (turned(e, 6) ^ turned(e, 11) ^ turned(e, 25)) + ((e & f) ^ (~e & g)) + K[round] + words[round];
        const two = (turned(a, 2) ^ turned(a, 13) ^ turned(a, 22)) + ((a & b) ^ (a & c) ^ (b & c));
        [h, g, f, e, d, c, b, a] = [g, f, e, (d + one) >>> 0, c, b, a, (one + two) >>> 0];
    }
    return [a, b, c, d, e, f, g, h].map((word, at) => (word + state[at]) >>> 0);
}

/** The hash of bytes in hexadecimal. */
export function sha256(bytes) {
    const padded = new Uint8Array(Math.ceil((bytes.length + 9) / 64) * 64);
    padded.set(bytes);
    padded[bytes.length] = 0x80;
    const view = new DataView(padded.buffer);
    view.setBigUint64(padded.length - 8, BigInt(bytes.length) * 8n);
    let state = START;
    for (let at = 0; at < padded.length; at += 64) state = compress(state, view, at);
    return state.map(word => word.toString(16).padStart(8, '0')).join('');
}
