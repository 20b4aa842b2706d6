// Screens in front of others: what is open of those behind, against a count of points, and what is said.
import assert from 'node:assert/strict';
import { test } from 'node:test';
import { hiddenScreens, hiddenText, openParts, unplacedText } from '../src/covered.mjs';
import { NO_NAMES, withPlace } from '../src/names.mjs';
import { overlap, placesIn } from '../src/places.mjs';
import { dice } from './library.mjs';

const inside = ({ left, top, width, height }, x, y) => x > left && x < left + width && y > top && y < top + height;

test('the open parts of a place are all that the others leave', () => {
    const random = dice(7);
    for (let run = 0; run < 300; run++) {
        const some = () => ({ left: random(8), top: random(8), width: 1 + random(6), height: 1 + random(6) });
        const [place, ...others] = Array.from({ length: 1 + random(7) }, some);
        const parts = openParts(place, others);
        for (const part of parts) assert.ok(!others.some(other => overlap(part, other)));
        for (let x = 0.5; x < 14; x++) {
            for (let y = 0.5; y < 14; y++) {
                const open = inside(place, x, y) && !others.some(other => inside(other, x, y));
                assert.equal(parts.some(part => inside(part, x, y)), open);
            }
        }
    }
});

test('a screen is hidden by equal, larger and several ones in front of it, and not by one inside it', () => {
    const place = (left, top, width, height) => ({ left, top, width, height });
    const hidden = (...places) => hiddenScreens(places).map(({ screen, behind, wholly }) => [screen, behind, wholly]);
    assert.deepEqual(hidden(place(0, 0, 100, 100), place(0, 0, 100, 100)), [[1, [2], true]]);
    assert.deepEqual(hidden(place(0, 0, 100, 100), place(4, 0, 100, 100)), [[1, [2], false]]);
    assert.deepEqual(hidden(place(0, 0, 100, 100), place(0, 0, 50, 100), place(50, 0, 50, 100)), [[1, [2, 3], true]]);
    assert.deepEqual(hidden(place(40, 40, 20, 20), place(0, 0, 100, 100), place(200, 0, 100, 100)), []);
    assert.equal(hiddenText(NO_NAMES, [place(0, 0, 50, 50), place(200, 0, 50, 50)]), '');
    const same = Array.from({ length: 64 }, () => place(0, 0, 100, 100));
    assert.match(hiddenText(NO_NAMES, same, 'arrange the screens'), /^Screen 1 is hidden behind screens 2, 3, 4, 5, 6, 7, 8 and 56 more\..* 60 more are hidden too: arrange the screens\.$/);
});

test('where screens without a place stand', () => {
    const full = withPlace(NO_NAMES, 1, { left: 0, top: 0, width: 1000, height: 1000 });
    assert.equal(unplacedText(full, placesIn(full, 2)), 'Screen 2 has no place yet, and there is no room: it stands in front of screen 1.');
    const half = withPlace(NO_NAMES, 1, { left: 0, top: 0, width: 500, height: 1000 });
    assert.equal(unplacedText(half, placesIn(half, 3)), 'Screens 2 and 3 have no place yet and stand where there is room.');
    assert.equal(unplacedText(NO_NAMES, placesIn(NO_NAMES, 3)), '');
    const many = Array.from({ length: 25 }, (_, at) => ({ left: at % 5 * 200, top: Math.floor(at / 5) * 200, width: 195, height: 195 }))
        .reduce((names, place, at) => withPlace(names, at + 1, place), NO_NAMES);
    assert.match(unplacedText(many, placesIn(many, 26)), /^Screen 26 has no place yet, and there is no room: it stands in front of screens? \d/);
    // Of two that are equally large the later one is in front: screen 1 has no place.
    const later = withPlace(NO_NAMES, 2, { left: 0, top: 0, width: 1000, height: 1000 });
    const places = placesIn(later, 2).map(() => ({ left: 0, top: 0, width: 1000, height: 1000 }));
    assert.equal(unplacedText(later, places), 'Screen 1 has no place yet, and there is no room: it overlaps screen 2.');
});
