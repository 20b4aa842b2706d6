// Files that were left beside a names file: names that a change of the book set aside, or an editor's copy. The page uses neither.

/** How names begin that a change of a book set aside. */
const PARKED = '# winnathey parked these names:';

export function isLeft(name) {
    return /\.names~$/i.test(name);
}

async function isParked(file) {
    try {
        return await file.slice(0, PARKED.length).text() === PARKED;
    } catch {
        return false;
    }
}

/** What such a file among those that were opened is, and what to do with it, or null where there is none. */
export async function leftText(items) {
    const file = items.map(item => item.file).find(({ name }) => isLeft(name));
    if (!file) return null;
    const [names, book] = [file.name.slice(0, -1), file.name.slice(0, -7)];
    if (!await isParked(file)) return `${file.name} is not used: it may be an editor's copy. The names of ${book} are in ${names}: open both together.`;
    return `${file.name} is not used: it has the names of ${book} from before a change that was cut off, and presets may have other numbers now. ` +
        `The winnathey command puts the names right when it next changes the book. Without it: if there is no ${names}, give the file that name, ` +
        'open it with the book, and compare each name with its preset.';
}
