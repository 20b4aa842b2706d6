// Photographs of cabins: read from files, shown as a smaller copy, and kept as they are in the browser's own database, so that a reload
// loses none. A state holds a photograph by its key alone.
import { cleaned, photographFault } from './names.mjs';

/** A photograph has so many bytes at most; its copy for the screen so many pixels at its longer side. */
export const MOST_BYTES = 25 * 1048576;
const LONGEST = 1600;
/** One side is so many times as long as the other at most: of a narrower cabin nothing would be seen. */
const NARROWEST = 5;
/** So many are kept in the browser, the latest. */
const MOST_KEPT = 6;
const [DATABASE, STORE] = ['winnathey photographs', 'photographs'];

export function isPicture(file) {
    return /^image\//.test(file.type);
}

/** A file's name as the names of a book take it: without what they cannot hold, its end kept where it is too long. */
export function photographName(name) {
    const [, base, end = ''] = /^(.*?)(\.[^.]{1,8})?$/s.exec(name.replace(/[/\\]/g, '-'));
    const file = cleaned(cleaned([...base].slice(0, 80 - [...end].length).join('')) + end);
    return photographFault(file) ? 'photograph' : file;
}

/** Why a file is not taken before it is looked at, or null. */
export function sizeFault({ name, size }) {
    if (size <= MOST_BYTES) return null;
    const megabytes = bytes => `${Math.round(bytes / 104857.6) / 10} MB`;
    return `${name} has ${megabytes(size)}. A photograph may have ${megabytes(MOST_BYTES)} at most: save a smaller copy of it and choose that.`;
}

/** Why a picture of this size is not taken, or null. */
export function shapeFault(name, { width, height }) {
    if (Math.max(width, height) <= NARROWEST * Math.min(width, height)) return null;
    return `${name} has ${width} × ${height} pixels. One side of a photograph may be ${NARROWEST} times as long as the other at most: cut it to the cabin and choose that.`;
}

/** The picture in a file, with its bytes, its size and a copy for the screen, or null where the browser cannot show it. */
async function shownFrom(file) {
    try {
        // A file may be moved or removed later: its bytes are held.
        const blob = new Blob([await file.arrayBuffer()], { type: file.type });
        const bitmap = await createImageBitmap(blob);
        const size = { width: bitmap.width, height: bitmap.height };
        const share = Math.min(1, LONGEST / Math.max(bitmap.width, bitmap.height));
        const [width, height] = [bitmap.width, bitmap.height].map(side => Math.max(Math.round(side * share), 1));
        const canvas = Object.assign(document.createElement('canvas'), { width, height });
        const context = canvas.getContext('2d');
        context.fillStyle = '#ffffff';
        context.fillRect(0, 0, width, height);
        context.drawImage(bitmap, 0, 0, width, height);
        bitmap.close();
        return { url: canvas.toDataURL('image/jpeg', 0.85), width, height, blob, size };
    } catch {
        return null;
    }
}

function answered(request) {
    return new Promise((good, bad) => {
        request.onsuccess = () => good(request.result);
        request.onerror = () => bad(request.error);
    });
}

/** Does something with the database; throws where the browser has none for the page. */
async function inStore(mode, action) {
    const request = indexedDB.open(DATABASE, 1);
    request.onupgradeneeded = () => request.result.createObjectStore(STORE, { keyPath: 'key' });
    const database = await answered(request);
    try {
        return await action(database.transaction(STORE, mode).objectStore(STORE));
    } finally {
        database.close();
    }
}

async function keepIn(store, key, blob) {
    await answered(store.put({ key, time: Date.now(), blob }));
    const all = await answered(store.getAll());
    const old = all.sort((one, two) => two.time - one.time).slice(MOST_KEPT);
    await Promise.all(old.map(entry => answered(store.delete(entry.key))));
}

export class Photographs {
    /** The pictures by their keys; null where one could not be had. */
    #pictures = new Map();
    #asked = new Set();
    #unkept = new Set();

    constructor(arrived) {
        this.arrived = arrived;
    }

    /** Takes a file; returns its key, or why it is no photograph. */
    async add(file) {
        const fault = sizeFault(file);
        const picture = fault ? null : await shownFrom(file);
        if (!picture) return { fault: fault ?? `${file.name} cannot be read as a picture. Choose a JPEG, PNG or WebP file.` };
        const narrow = shapeFault(file.name, picture.size);
        if (narrow) return { fault: narrow };
        const key = Math.random().toString(36).slice(2);
        this.#pictures.set(key, picture);
        try {
            await inStore('readwrite', store => keepIn(store, key, picture.blob));
        } catch {
            this.#unkept.add(key);
        }
        return { key };
    }

    /** Whether a photograph would be lost by a reload. */
    isUnkept(key) {
        return this.#unkept.has(key);
    }

    /** The picture of a key: undefined while it is being looked for, null where it is gone. */
    of(key) {
        if (!this.#pictures.has(key) && !this.#asked.has(key)) this.#recall(key);
        return this.#pictures.get(key);
    }

    async #recall(key) {
        this.#asked.add(key);
        const entry = await inStore('readonly', store => answered(store.get(key))).catch(() => null);
        this.#pictures.set(key, entry ? await shownFrom(entry.blob) : null);
        this.arrived();
    }
}
