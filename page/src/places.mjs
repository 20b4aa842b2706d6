// Where the screens stand in a picture of the cabin: rectangles in thousandths of its width and of its height.
import { CABIN, LEAST_PLACE, placeFault, placesOf } from './names.mjs';

export const SIDES = ['left', 'top', 'width', 'height'];
/** A grid of so many columns has cells that are just large enough. */
const FINEST = 32;

/** The cabin's width over its height: the shape of the photograph, or 16 to 9 without one. */
export function shapeOf(photograph) {
    return photograph ? photograph.width / photograph.height : 16 / 9;
}

/** A cell of a grid, with a gap around it; columns and rows count from 0. */
function cell(column, row, columns, rows, gap) {
    const span = (at, parts) => {
        const start = Math.round(at * CABIN / parts + gap / 2);
        return [start, Math.round((at + 1) * CABIN / parts - gap / 2) - start];
    };
    const [[left, width], [top, height]] = [span(column, columns), span(row, rows)];
    return { left, top, width, height };
}

/** The place of a screen in a grid that holds all lanes, with the last row in the middle. */
export function gridPlace(number, lanes) {
    const columns = Math.ceil(Math.sqrt(lanes));
    const row = Math.floor((number - 1) / columns);
    const inRow = Math.min(columns, lanes - row * columns);
    return cell((number - 1) % columns + (columns - inRow) / 2, row, columns, Math.ceil(lanes / columns), lanes > 16 ? 8 : 24);
}

export function overlap(one, two) {
    return one.left < two.left + two.width && two.left < one.left + one.width && one.top < two.top + two.height && two.top < one.top + one.height;
}

/** So many places that overlap none of those taken, in the coarsest grid that has them; none where no grid has. */
function freePlaces(count, taken, columns) {
    for (let parts = columns; count > 0 && parts <= FINEST; parts++) {
        const all = Array.from({ length: parts * parts }, (_, at) => cell(at % parts, Math.floor(at / parts), parts, parts, 8));
        const free = all.filter(place => !taken.some(other => overlap(place, other)));
        if (free.length >= count) return free.slice(0, count);
    }
    return [];
}

/** The places of the screens 1 to `lanes`, in this order. One that was not arranged stands in the grid, or beside it if others are there. */
export function placesIn(names, lanes) {
    const kept = placesOf(names);
    const numbers = Array.from({ length: lanes }, (_, at) => at + 1);
    const arranged = numbers.filter(number => kept.has(number)).map(number => kept.get(number));
    const places = numbers.map(number => kept.get(number) ?? gridPlace(number, lanes));
    const covered = numbers.filter(number => !kept.has(number) && arranged.some(place => overlap(place, places[number - 1])));
    const taken = places.filter((_, at) => !covered.includes(at + 1));
    freePlaces(covered.length, taken, Math.ceil(Math.sqrt(lanes))).forEach((place, at) => (places[covered[at] - 1] = place));
    return places;
}

/** The numbers of the screens, that of the largest first. */
export function largestFirst(places) {
    const area = number => places[number - 1].width * places[number - 1].height;
    return places.map((_, at) => at + 1).sort((one, two) => area(two) - area(one));
}

/** The screens from 1 to `lanes` that were not arranged, if others were. */
export function unplaced(names, lanes) {
    const kept = placesOf(names);
    const open = Array.from({ length: lanes }, (_, at) => at + 1).filter(number => !kept.has(number));
    return open.length < lanes ? open : [];
}

function between(least, number, most) {
    return Math.round(Math.min(Math.max(number, least), most));
}

/** A place moved inside the cabin, as far as it goes. */
export function moved(place, right, down) {
    const { left, top, width, height } = place;
    return { ...place, left: between(0, left + right, CABIN - width), top: between(0, top + down, CABIN - height) };
}

/** A place sized at its lower right corner, inside the cabin. */
export function sized(place, right, down) {
    const { left, top, width, height } = place;
    return { ...place, width: between(LEAST_PLACE, width + right, CABIN - left), height: between(LEAST_PLACE, height + down, CABIN - top) };
}

/** Thousandths as percent. */
export function percent(thousandths) {
    return String(thousandths / 10);
}

export function placeText({ left, top, width, height }) {
    const parts = [`${percent(left)} % from the left`, `${percent(top)} % from the top`, `${percent(width)} % wide`, `${percent(height)} % high`];
    return parts.join(', ');
}

/** A place with one side typed in percent, or what is wrong with that. */
export function typedPlace(place, side, text) {
    const trimmed = text.replace(/[\s%]/g, '').replace(',', '.');
    if (!/^[0-9]{1,3}(\.[0-9])?$/.test(trimmed)) return { fault: 'Type a number from 0 to 100, such as 12.5.' };
    const typed = { ...place, [side]: Math.round(Number(trimmed) * 10) };
    if (!placeFault(typed)) return { place: typed };
    if (typed.width < LEAST_PLACE || typed.height < LEAST_PLACE) return { fault: `A screen is at least ${percent(LEAST_PLACE)} % wide and high.` };
    const [start, length] = side === 'left' || side === 'width' ? ['left', 'width'] : ['top', 'height'];
    const other = side === start ? length : start;
    const most = CABIN - typed[side];
    // It waits for the other number, in whichever order the two are typed.
    const waits = most >= (other === length ? LEAST_PLACE : 0) ? ` It is taken as soon as ${other} is ${percent(most)} % or less.` : '';
    return { fault: `The screen would end outside the cabin: ${start} and ${length} make ${percent(typed[start] + typed[length])} %, and 100 % is all there is.${waits}` };
}
