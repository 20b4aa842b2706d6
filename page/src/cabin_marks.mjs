// The mark of a screen that differs: a frame inside its box, and a sign.
import { tag } from './markup.mjs';

/** The mark of a difference: the radius of its sign, and how far its frame and the content are from the edge of the box. */
export const MARKS = { large: { radius: 10, frame: 6, edge: 9, side: 5 }, small: { radius: 7, frame: 3.5, edge: 3, side: 0 } };

export function markOf({ width, height }) {
    return width < 110 || height < 56 ? 'small' : 'large';
}

/** A dashed frame inside the box: what is around it belongs to other screens. */
export function differsFrame(box) {
    const { frame } = MARKS[markOf(box)];
    const around = { x: frame, y: frame, width: Math.max(box.width - 2 * frame, 0), height: Math.max(box.height - 2 * frame, 0), rx: 3 };
    const small = markOf(box) === 'small' ? ' small' : '';
    return tag('rect', { ...around, class: `cabin-halo${small}` }) + tag('rect', { ...around, class: `cabin-differs${small}` });
}

export function signMarkup(size, { x, y }) {
    const { radius } = MARKS[size];
    return tag('circle', { class: 'cabin-sign', cx: x, cy: y, r: radius }) +
        tag('text', { class: `cabin-unequal ${size}`, x, y: y + radius * 0.55, 'text-anchor': 'middle' }, '≠');
}
