// What steps take in milliseconds, if the names say what one takes. Counted in whole microseconds, so that 3 times 0.1 ms is 0.3 ms.
import { delayOf } from './names.mjs';
import { counted, grouped } from './text.mjs';

/** A delay as it is written, as microseconds. */
export function microseconds(text) {
    const [whole, fraction = ''] = text.split('.');
    return Number(whole) * 1000 + Number(fraction.padEnd(3, '0'));
}

/** So many steps of a delay in milliseconds, as text: `1,012.5 ms`. */
export function millisecondsText(steps, delay) {
    const all = steps * microseconds(delay);
    const fraction = String(all % 1000).padStart(3, '0').replace(/0+$/, '');
    return `${grouped(Math.floor(all / 1000))}${fraction && `.${fraction}`} ms`;
}

/** What so many steps take, or '' where nobody said what one takes. */
export function timeText(steps, names) {
    const delay = delayOf(names);
    return delay === '' ? '' : millisecondsText(steps, delay);
}

/** A length with what it takes: `6 steps, 15 ms`. */
export function lengthText(steps, name, names) {
    const time = timeText(steps, names);
    return `${counted(steps, name)}${time && `, ${time}`}`;
}
