// Markup as text: a drawing of many elements is put on the page at once.

export function escaped(text) {
    return String(text).replace(/[&<>"]/g, character => ({ '&': '&amp;', '<': '&lt;', '>': '&gt;', '"': '&quot;' })[character]);
}

/** An element as text. Its content is markup already; an attribute that is null is left out. */
export function tag(name, attributes, content = '') {
    const list = Object.entries(attributes).filter(([, value]) => value !== null);
    return `<${name}${list.map(([key, value]) => ` ${key}="${escaped(value)}"`).join('')}>${content}</${name}>`;
}
