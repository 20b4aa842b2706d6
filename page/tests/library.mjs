// The library as the tests use it, and numbers that are random but the same in each run.
import { readFile } from 'node:fs/promises';
import { fileURLToPath, pathToFileURL } from 'node:url';
import { callsOf } from '../src/library.mjs';

export const root = fileURLToPath(new URL('../../', import.meta.url));
const mjs = process.env.WINNATHEY_MJS ?? `${root}bindings/javascript/winnathey.mjs`;
const wasm = process.env.WINNATHEY_WASM ?? `${root}target/targets/wasm32/winnathey.wasm`;
const { load } = await import(pathToFileURL(mjs));

export const library = callsOf(await load(await readFile(wasm)));

/** Numbers from 0 to one below a bound, from a seed. */
export function dice(seed) {
    let state = seed >>> 0;
    return bound => {
        state = (Math.imul(state, 1664525) + 1013904223) >>> 0;
        return Math.floor(state / 4294967296 * bound);
    };
}

export const RIGS = [['A', 3], ['B', 5], ['D', 5], ['B', 20], ['D', 64], ['A', 1], ['A', 63], ['D', 4]];

export function randomWord(random, rank, length) {
    return Array.from({ length }, () => 1 + random(rank));
}
