// The random calls of stream.c on the library for WebAssembly, in node: the program is compiled to WebAssembly too
// and calls winnathey.wasm as it is shipped, in the library's own memory. Prints what the hosted program prints: node
// stream.mjs WINNATHEY.WASM STREAM.WASM CALLS SEED
import { readFile } from 'node:fs/promises';

const [library, stream, calls, seed] = process.argv.slice(2);
const loaded = await WebAssembly.instantiate(await readFile(library));
const { memory, ...functions } = loaded.instance.exports;
memory.grow(32);
const { instance } = await WebAssembly.instantiate(await readFile(stream), { env: { memory, ...functions } });
const { stream_start, stream_run, stream_seen, stream_wrong } = instance.exports;

stream_start(BigInt(seed));
for (let done = 0; done < calls;) {
    const more = Math.min(calls - done, 50000);
    done += more;
    console.log(`${done} ${BigInt.asUintN(64, stream_run(more)).toString(16).padStart(16, '0')}`);
}
for (let k = 1; k < 128; k++) {
    if (stream_seen(k) > 0n) console.log(`refused ${k}: ${stream_seen(k)}`);
}
console.log(`wrong bytes: ${stream_wrong()}`);
