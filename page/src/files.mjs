// Files: opened, dropped and saved. Nothing else leaves or enters the page.
import { isLeft, leftText } from './left.mjs';
import { WrongNames, photographOf, readNames } from './names.mjs';
import { isPicture } from './photographs.mjs';

/** One byte more than a book may have is enough for the library to refuse it. */
const MOST_READ = 65536;

export function isNamesFile(name) {
    return /\.names$/i.test(name);
}

async function bytesOf(file, most) {
    return new Uint8Array(await file.slice(0, most).arrayBuffer());
}

/** A names file as it was read: its name and handle, with its names, or what is wrong with them. A file that cannot be read throws. */
async function namesFrom({ file, handle = null }) {
    const bytes = await bytesOf(file, 1048577);
    try {
        return { name: file.name, handle, names: readNames(bytes), fault: null };
    } catch (error) {
        if (!(error instanceof WrongNames)) throw error;
        return { name: file.name, handle, names: null, fault: `${file.name}, ${error.message}. None of its names is used.` };
    }
}

/** Which of several names files is that of a book: the one that is named after it, and no other. With what has to be said of the rest. */
function chosenFor(book, files) {
    if (files.length <= 1) return { chosen: files[0] ?? null, said: [] };
    const own = files.filter(({ name }) => name === `${book}.names`);
    if (own.length === 1) {
        const rest = files.filter(file => file !== own[0]);
        return { chosen: own[0], said: rest.map(({ name }) => `${name} is not used: the names of ${book} are those of ${own[0].name}.`) };
    }
    const why = own.length === 0 ? `none is called ${book}.names` : `${own.length} are called ${book}.names`;
    return { chosen: null, said: [`None of the ${files.length} names files is used: ${why}.`] };
}

/**
 * The book, the names and the pictures among the files that were opened together, each with its handle where the browser gives one, and
 * what has to be said of them; of a wrong names file no name is used. Of several books, or where a file cannot be read, as a folder
 * cannot, nothing is opened. A picture is known by its type, or by its name in the names: in those that came with it, else in the
 * present ones.
 */
export async function readFiles(all, present) {
    const items = all.filter(({ file }) => !isLeft(file.name));
    const left = [await leftText(all)].filter(text => text);
    const none = wrong => ({ book: null, names: null, namesFile: null, pictures: [], said: [...left, wrong] });
    const [named, others] = [true, false].map(side => items.filter(({ file }) => isNamesFile(file.name) === side));
    let reading = null;
    try {
        const files = [];
        for (const item of named) {
            reading = item.file;
            files.push(await namesFrom(item));
        }
        const read = files.filter(({ names }) => names);
        const photographs = (read.length > 0 ? read.map(({ names }) => names) : [present.names]).map(photographOf);
        const books = others.filter(({ file }) => !isPicture(file) && !photographs.includes(file.name));
        if (books.length > 1) return none(`These are ${books.length} books. One can be open at a time: open them one by one.`);
        const pictures = others.filter(item => !books.includes(item)).map(({ file }) => file);
        reading = books[0]?.file;
        const book = reading ? { name: reading.name, bytes: await bytesOf(reading, MOST_READ), handle: books[0].handle ?? null } : null;
        const { chosen, said } = chosenFor((book ?? present.book).name, files);
        const wrong = chosen?.fault ? [chosen.fault] : [];
        return { book, names: chosen?.names ?? null, namesFile: chosen, pictures, said: [...left, ...said, ...wrong], tried: files.length > 0 };
    } catch {
        return none(`${reading.name} cannot be read. Is it a file?`);
    }
}

/** Hands bytes to the browser as a new file. */
export function saveFile(name, bytes) {
    const url = URL.createObjectURL(new Blob([bytes], { type: 'application/octet-stream' }));
    const link = document.createElement('a');
    [link.href, link.download] = [url, name];
    link.click();
    setTimeout(() => URL.revokeObjectURL(url), 10000);
}

/** Writes bytes to the file of a handle, if the user lets it; returns why it was not written, or null. */
export async function writeTo(handle, bytes) {
    const mode = { mode: 'readwrite' };
    try {
        const granted = await handle.queryPermission(mode) === 'granted' || await handle.requestPermission(mode) === 'granted';
        if (!granted) return 'the browser was not allowed to write it';
        const stream = await handle.createWritable();
        await stream.write(bytes);
        await stream.close();
        return null;
    } catch (error) {
        return `it could not be written (${error.message})`;
    }
}

/** Lets the user choose files: with handles where the browser has them; otherwise the field is opened, which tells its own change. */
export async function pickFiles(field) {
    if (typeof window.showOpenFilePicker !== 'function') return void field.click();
    try {
        const handles = await window.showOpenFilePicker({ multiple: true });
        return await Promise.all(handles.map(async handle => ({ file: await handle.getFile(), handle })));
    } catch (error) {
        if (error.name !== 'AbortError') field.click();
        return undefined;
    }
}

/** The files of a drop. Their handles have to be asked for at once: what was dropped is gone after the event. */
async function dropped({ files, items }) {
    const handles = [...items].filter(item => item.kind === 'file').map(item => item.getAsFileSystemHandle?.().catch(() => null));
    const list = [...files];
    const found = await Promise.all(handles);
    return list.map((file, at) => ({ file, handle: found[at]?.kind === 'file' && found[at].name === file.name ? found[at] : null }));
}

/** Takes files from the field and from a drop anywhere on the page. */
export function takeFiles(field, opened) {
    field.addEventListener('change', () => {
        opened([...field.files].map(file => ({ file })));
        field.value = '';
    });
    addEventListener('dragover', event => {
        event.preventDefault();
        document.body.classList.add('dropping');
    });
    addEventListener('dragleave', event => event.relatedTarget === null && document.body.classList.remove('dropping'));
    addEventListener('drop', event => {
        event.preventDefault();
        document.body.classList.remove('dropping');
        if (event.dataTransfer.files.length > 0) opened(dropped(event.dataTransfer));
    });
}
