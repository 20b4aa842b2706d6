// What bench/bindings times in JavaScript: a line for each, its name and nanoseconds of the processor, a median.
import assert from 'node:assert/strict';
import { load } from '../bindings/javascript/winnathey.mjs';

const RUNS = 15;
const PRESETS = 7281;
const w = await load(process.argv[2]);

/** The time that the processor spent on this program, which other programs do not lengthen, in nanoseconds. */
function processorTime() {
    const { user, system } = process.cpuUsage();
    return 1000 * (user + system);
}

function timed(name, calls, call) {
    const run = () => {
        const start = processorTime();
        for (let i = 0; i < calls; i++) call();
        return (processorTime() - start) / calls;
    };
    run();
    const times = Array.from({ length: RUNS }, run).sort((a, b) => a - b);
    console.log(`${name}\t${times[RUNS >> 1]}`);
}

const word = Array.from({ length: 16 }, (_, at) => 1 + (7 * at + 3) % 16);
const window = w.windowOfWord('D', 16, word);
const calls = 50000;
timed('javascript window_of_word', calls, () => w.windowOfWord('D', 16, word));
timed('javascript normal_form_of_word', calls, () => w.normalFormOfWord('D', 16, word));
timed('javascript length_of_window', calls, () => w.lengthOfWindow('D', 16, window));

// The calls of the module alone, on what lies in its memory.
const { memory, __heap_base, ...wasm } = w.exports;
const at = __heap_base.value + 300000;
new Uint8Array(memory.buffer).set(word, at);
new Int8Array(memory.buffer).set(window, at + 64);
timed('wasm window_of_word', calls, () => wasm.winnathey_window_of_word(3, 16, at, 16n, at + 128, 64n));
timed('wasm normal_form_of_word', calls, () => wasm.winnathey_normal_form_of_word(3, 16, at, 16n, at + 128, 4096n));
timed('wasm length_of_window', calls, () => wasm.winnathey_length_of_window(3, 16, at + 64, 16n));

const presets = Array.from({ length: PRESETS }, (_, at) =>
    ({ kind: 'D', rank: 5, word: [at, Math.floor(at / 5), Math.floor(at / 25)].map(n => 1 + n % 5) }));
const full = w.appendAll(1, [], presets);
assert.equal(w.bookCheck(1, full), PRESETS);
timed('javascript append_all', 20, () => w.appendAll(1, [], presets));
timed('javascript append_each', 1, () => {
    let book = new Uint8Array(0);
    for (const { kind, rank, word } of presets) book = w.append(1, book, kind, rank, word);
    assert.equal(book.length, full.length);
});
const last = w.remove(1, full, PRESETS - 1);
timed('javascript append_last', 200, () => w.append(1, last, 'D', 5, [1, 2, 3]));
