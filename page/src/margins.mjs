// What every printed page says in its margins, as rules of CSS: the book and its hash, the preset, the date, the page's number.

/** A name in a margin has so many characters at most. */
const MOST = 60;

/** A long text without its middle: both ends of a file's name tell something. */
function shortened(text) {
    const characters = [...text];
    if (characters.length <= MOST) return text;
    return `${characters.slice(0, MOST / 2).join('')}…${characters.slice(1 - MOST / 2).join('')}`;
}

/** A string of CSS in which nothing but letters, digits and blanks stands as it is: no name can end it. */
export function cssString(text) {
    return `"${[...text].map(character => (/[A-Za-z0-9 .,:_-]/.test(character) ? character : `\\${character.codePointAt(0).toString(16)} `)).join('')}"`;
}

/** The rules of a sheet: what stands at the top, the date, and the pages that have a name of their own. */
export function marginRules({ book, hash, corner, date, pages = [] }) {
    const left = hash ? `${shortened(book)}\nSHA-256 ${hash}` : shortened(book);
    const rules = [`@page { @top-left { content: ${cssString(left)}; } @top-right { content: ${cssString(corner)}; } @bottom-left { content: ${cssString(`Date: ${date}`)}; } }`];
    for (const [name, text] of pages) rules.push(`@page ${name} { @top-right { content: ${cssString(text)}; } }`);
    return rules.join('\n');
}
