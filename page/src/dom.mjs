// Elements, made and found.
import { plainText, libraryText } from './plain.mjs';

/** An element with attributes and children. An attribute `onclick` is a listener; one that is false or null is left out. */
export function make(name, attributes = {}, ...children) {
    const element = document.createElement(name);
    for (const [key, value] of Object.entries(attributes)) {
        if (typeof value === 'function') element.addEventListener(key.slice(2), value);
        else if (value === true) element.setAttribute(key, '');
        else if (value !== false && value !== null && value !== undefined) element.setAttribute(key, value);
    }
    element.append(...children.flat().filter(child => child !== null && child !== false));
    return element;
}

export function button(text, onclick, attributes = {}) {
    return make('button', { type: 'button', onclick, ...attributes }, text);
}

/** A field with its label in front of it. */
export function labelledField(text, field) {
    return make('label', { class: 'field' }, make('span', {}, text), field);
}

export function byId(id) {
    return document.getElementById(id);
}

/**
 * Turns a button on or off. One that has the focus stays where the keyboard is, and is only said to be off, until the focus goes:
 * a disabled element would drop it.
 */
export function enable(element, on) {
    if (on !== (element.getAttribute('aria-disabled') === 'true')) return;
    const held = !on && document.activeElement === element;
    if (on) element.removeAttribute('aria-disabled');
    else element.setAttribute('aria-disabled', 'true');
    element.disabled = !on && !held;
    if (held) element.addEventListener('blur', () => (element.disabled = element.getAttribute('aria-disabled') === 'true'), { once: true });
}

/** What is said to be off does nothing when it is pressed. */
export function holdDisabled() {
    addEventListener('click', event => {
        if (event.target.closest?.('button[aria-disabled=true]')) event.stopImmediatePropagation();
    }, true);
}

/** Sets a property or a piece of data only where it differs, so that nothing is laid out again for nothing. */
export function put(target, key, value) {
    if (target[key] !== String(value)) target[key] = value;
}

/** Changes an element's text only where it differs. */
export function setText(element, text) {
    if (element.textContent !== text) element.textContent = text;
}

/** Markup of our own as an element. What users typed in it has been through `escaped`. */
export function fromMarkup(markup) {
    const holder = document.createElement('template');
    holder.innerHTML = markup;
    return holder.content.firstElementChild;
}

/** A refusal in words for the person who reads it, with a remark on what follows from it, and as the library says it. */
export function refusalLine(refusal, where = {}, remark = '') {
    return make('p', { class: 'refusal', role: 'alert', 'data-refusal': refusal.number }, ...refusalParts(refusal, where, remark));
}

export function refusalParts(refusal, where, remark = '') {
    return [`${plainText(refusal.number, where)} `, remark && `${remark} `, make('span', { class: 'remark' }, libraryText(refusal))];
}

/** What an element is called, to find the one that took its place. */
function keyOf(element) {
    return element.dataset.key ?? (element.id || element.getAttribute('aria-label') || element.textContent);
}

/** Makes the content of a panel anew and keeps the focus where it was in it. */
export function keepFocus(panel, change) {
    const held = panel.contains(document.activeElement) ? document.activeElement : null;
    change();
    if (!held || held.isConnected || panel.contains(document.activeElement)) return;
    const next = [...panel.querySelectorAll(held.tagName)].find(element => keyOf(element) === keyOf(held));
    next?.focus({ preventScroll: true });
}
